//! What the archive exports, and the structs that it answers with. Written by tools/places.py.

/// What a call gives: `ronthuyal_answer` of the C header.
#[repr(C)]
#[derive(Clone, Copy, Debug, Default, PartialEq, Eq, Hash)]
pub struct Answer {
    /// The word `refusal`.
    pub refusal: u64,
    /// The word `result`.
    pub result: u64,
    /// The word `interrupt`.
    pub interrupt: u64,
    /// The word `rule`.
    pub rule: u64,
}

/// What a call gives: `ronthuyal_asked` of the C header.
#[repr(C)]
#[derive(Clone, Copy, Debug, Default, PartialEq, Eq, Hash)]
pub struct Asked {
    /// The word `refusal`.
    pub refusal: u64,
    /// The word `result`.
    pub result: u64,
    /// The word `in_charge`.
    pub in_charge: u64,
    /// The word `current`.
    pub current: u64,
    /// The word `v`.
    pub v: u64,
}

/// What a call gives: `ronthuyal_humblest` of the C header.
#[repr(C)]
#[derive(Clone, Copy, Debug, Default, PartialEq, Eq, Hash)]
pub struct Humblest {
    /// The word `refusal`.
    pub refusal: u64,
    /// The word `found`.
    pub found: u64,
    /// The word `priority`.
    pub priority: u64,
}

/// What a call gives: `ronthuyal_game` of the C header.
#[repr(C)]
#[derive(Clone, Copy, Debug, Default, PartialEq, Eq, Hash)]
pub struct Game {
    /// The word `refusal`.
    pub refusal: u64,
    /// The word `forced`.
    pub forced: u64,
    /// The word `choice`.
    pub choice: u64,
}

unsafe extern "C" {
    /// Any operation, by its number.
    pub fn ronthuyal_call(
        image: *mut u64,
        length: usize,
        operation: u64,
        cpu: u64,
        time: u64,
        context: u64,
    ) -> Answer;
    /// Operation 1: the timer's tick: counts it, and switches on the third.
    pub fn ronthuyal_tick(
        image: *mut u64,
        length: usize,
        cpu: u64,
        time: u64,
    ) -> Answer;
    /// Operation 2: who is in charge is decided anew.
    pub fn ronthuyal_switch(
        image: *mut u64,
        length: usize,
        cpu: u64,
        time: u64,
    ) -> Answer;
    /// Operation 3: the named context gets the rest of the slice, or else as 2.
    pub fn ronthuyal_direct_switch_to(
        image: *mut u64,
        length: usize,
        cpu: u64,
        time: u64,
        context: u64,
    ) -> Answer;
    /// Operation 4: the named context is woken and put on a wake-up list.
    pub fn ronthuyal_unblock_context(
        image: *mut u64,
        length: usize,
        cpu: u64,
        time: u64,
        context: u64,
    ) -> Answer;
    /// Operation 5: names on the interrupt list go behind those on the local list.
    pub fn ronthuyal_drain_ipi_context_wakeups(
        image: *mut u64,
        length: usize,
        cpu: u64,
        time: u64,
    ) -> Answer;
    /// Operation 6: the named context becomes Blocked.
    pub fn ronthuyal_block(
        image: *mut u64,
        length: usize,
        cpu: u64,
        time: u64,
        context: u64,
    ) -> Answer;
    /// Operation 7: the named context becomes Stopped.
    pub fn ronthuyal_hard_block(
        image: *mut u64,
        length: usize,
        cpu: u64,
        time: u64,
        context: u64,
    ) -> Answer;
    /// The operation of that number by the plain engine, slowly: the same answer and the same image.
    pub fn ronthuyal_plain_call(
        image: *mut u64,
        length: usize,
        operation: u64,
        cpu: u64,
        time: u64,
        context: u64,
    ) -> Answer;
    /// Operation 4 for every context x whose bit x is set in the mask, by rising number; refused, for none.
    pub fn ronthuyal_unblock_group(
        image: *mut u64,
        length: usize,
        cpu: u64,
        time: u64,
        mask: u64,
    ) -> Answer;
    /// Adds up the weights of the CPU's queue entries, also of those whose context is gone, and the priority's weight of the context in charge if it is active.
    pub fn ronthuyal_total_weight(
        image: *const u64,
        length: usize,
        cpu: u64,
    ) -> Answer;
    /// What a switch at that time would answer, and leave on that CPU.
    pub fn ronthuyal_ask(
        image: *const u64,
        length: usize,
        cpu: u64,
        time: u64,
    ) -> Asked;
    /// Operation 2, if what `ask` would answer now is this reply, in all five words.
    pub fn ronthuyal_commit(
        image: *mut u64,
        length: usize,
        cpu: u64,
        time: u64,
        refusal: u64,
        result: u64,
        in_charge: u64,
        current: u64,
        v: u64,
    ) -> Answer;
    /// The operation of that number; an accepted decision adds its record to the window.
    pub fn ronthuyal_call_in_window(
        image: *mut u64,
        length: usize,
        window: *mut u64,
        window_length: usize,
        operation: u64,
        cpu: u64,
        time: u64,
        context: u64,
    ) -> Answer;
    /// Adds up the times of the context in the window, which is checked for that many contexts.
    pub fn ronthuyal_share(
        window: *const u64,
        length: usize,
        contexts: u64,
        context: u64,
    ) -> Answer;
    /// The same of all contexts.
    pub fn ronthuyal_share_of_all(
        window: *const u64,
        length: usize,
        contexts: u64,
    ) -> Answer;
    /// The largest priority with which the context, put last on the CPU's local list, would be in charge after a switch at that time.
    pub fn ronthuyal_humblest(
        image: *const u64,
        length: usize,
        cpu: u64,
        time: u64,
        context: u64,
    ) -> Humblest;
    /// Whether the writer can force itself into charge at the end of 1 to 6 rounds, whatever the rival picks, and its first winning choice if it is in charge.
    pub fn ronthuyal_rival(
        image: *const u64,
        length: usize,
        cpu: u64,
        time: u64,
        writer: u64,
        rival: u64,
        rounds: u64,
    ) -> Game;
    /// Whether no context is named by both CPUs, in any roles together: current, in charge, idle, queued, timed, on a list.
    pub fn ronthuyal_apart(
        image: *const u64,
        length: usize,
        one: u64,
        other: u64,
    ) -> Answer;
    /// `ronthuyal_call` for each call of a list, one after the other.
    pub fn ronthuyal_run(
        image: *mut u64,
        length: usize,
        calls: *const u64,
        calls_length: usize,
        answers: *mut u64,
        answers_length: usize,
    ) -> u64;
}

/// The names of all exports.
pub const EXPORTS: [&str; 20] = [
    "ronthuyal_call",
    "ronthuyal_tick",
    "ronthuyal_switch",
    "ronthuyal_direct_switch_to",
    "ronthuyal_unblock_context",
    "ronthuyal_drain_ipi_context_wakeups",
    "ronthuyal_block",
    "ronthuyal_hard_block",
    "ronthuyal_plain_call",
    "ronthuyal_unblock_group",
    "ronthuyal_total_weight",
    "ronthuyal_ask",
    "ronthuyal_commit",
    "ronthuyal_call_in_window",
    "ronthuyal_share",
    "ronthuyal_share_of_all",
    "ronthuyal_humblest",
    "ronthuyal_rival",
    "ronthuyal_apart",
    "ronthuyal_run",
];

//! Names, units, ranges and defaults of an image's words, the calls and their answers. Written by tools/places.py.

use crate::places::{block, context};
use crate::word::{Array, CallRow, OperationRow, Range, Unit, Word};

/// Of the layout that these tables are of.
pub const VERSION: &str = "0.16.0";

/// The most CPUs.
pub const CPUS: u64 = 4;
/// The most contexts.
pub const CONTEXTS: u64 = 64;
/// Room in a queue, timer set or list.
pub const ROOM: u64 = 64;
/// Numbers go up to this, unless said otherwise.
pub const NUMBER_MAX: u64 = 4611686018427387903;
/// The greatest id.
pub const ID_MAX: u64 = 4294967295;
/// A whole slice, in scaled ticks.
pub const SLICE_MAX: u64 = 9663676416;
/// The most that a turn may last, in nanoseconds.
pub const TURN_MAX: u64 = 4503599627370495;
/// The last priority, which weighs least.
pub const PRIO_MAX: u64 = 39;
/// The least weight.
pub const WEIGHT_MIN: u64 = 15;
/// The greatest weight.
pub const WEIGHT_MAX: u64 = 88761;
/// The most that a CPU carries of a tick.
pub const REMAINDER_MAX: u64 = 2249999;

/// The sizes, words 0 and 1.
pub const SIZES: [Word; 2] = [
    Word {
        name: "C",
        unit: Unit::Items,
        range: Range::Between(1, 4),
        allowed: "1 to 4",
        mark: None,
        default: 0,
        says: "CPUs",
    },
    Word {
        name: "N",
        unit: Unit::Items,
        range: Range::Between(1, 64),
        allowed: "1 to 64",
        mark: None,
        default: 0,
        says: "contexts",
    },
];

/// A context's record.
pub const RECORD: [Word; 26] = [
    Word {
        name: "gone",
        unit: Unit::Mark,
        range: Range::Between(0, 1),
        allowed: "0 or 1",
        mark: None,
        default: 0,
        says: "nobody holds the context any more, only weak references name it; all words but this and `debug_id` are 0",
    },
    Word {
        name: "debug_id",
        unit: Unit::Id,
        range: Range::Between(0, 4294967295),
        allowed: "0 to 2^32 - 1",
        mark: None,
        default: 0,
        says: "the context's id, unlike all others",
    },
    Word {
        name: "status",
        unit: Unit::Status,
        range: Range::Between(0, 5),
        allowed: "0 to 5",
        mark: None,
        default: 4,
        says: "0 Runnable, 1 Blocked, 2 Stopped, 3 AwaitingMmap, 4 NotYetStarted, 5 Dead",
    },
    Word {
        name: "running",
        unit: Unit::Mark,
        range: Range::Between(0, 1),
        allowed: "0 or 1",
        mark: None,
        default: 0,
        says: "it is current on some CPU",
    },
    Word {
        name: "currently_scheduled",
        unit: Unit::Mark,
        range: Range::Between(0, 1),
        allowed: "0 or 1",
        mark: None,
        default: 0,
        says: "it is in charge of some CPU",
    },
    Word {
        name: "cpu_id",
        unit: Unit::CpuPlusOne,
        range: Range::Cpus,
        allowed: "0 to C",
        mark: None,
        default: 0,
        says: "the CPU it was last on; 0 for none",
    },
    Word {
        name: "schedule_time",
        unit: Unit::Nanoseconds,
        range: Range::Between(0, 4611686018427387903),
        allowed: "0 to 2^62 - 1",
        mark: None,
        default: 0,
        says: "when it last came in charge",
    },
    Word {
        name: "switch_time",
        unit: Unit::Nanoseconds,
        range: Range::Between(0, 4611686018427387903),
        allowed: "0 to 2^62 - 1",
        mark: None,
        default: 0,
        says: "when it last became current",
    },
    Word {
        name: "active_cpu_time",
        unit: Unit::Nanoseconds,
        range: Range::Between(0, 4611686018427387903),
        allowed: "0 to 2^62 - 1",
        mark: None,
        default: 0,
        says: "how long it has been current in all",
    },
    Word {
        name: "sched_cpu_time",
        unit: Unit::Nanoseconds,
        range: Range::Between(0, 4611686018427387903),
        allowed: "0 to 2^62 - 1",
        mark: None,
        default: 0,
        says: "how long it has been in charge in all",
    },
    Word {
        name: "sched_affinity",
        unit: Unit::Mask,
        range: Range::Any,
        allowed: "any",
        mark: None,
        default: u64::MAX,
        says: "bit k: it may run on CPU k",
    },
    Word {
        name: "inside_syscall",
        unit: Unit::Mark,
        range: Range::Between(0, 1),
        allowed: "0 or 1",
        mark: None,
        default: 0,
        says: "it was inside a system call when it last left a CPU",
    },
    Word {
        name: "has_wake",
        unit: Unit::Mark,
        range: Range::Between(0, 1),
        allowed: "0 or 1",
        mark: None,
        default: 0,
        says: "`wake` is set",
    },
    Word {
        name: "wake",
        unit: Unit::Nanoseconds,
        range: Range::Between(0, 4611686018427387903),
        allowed: "0 to 2^62 - 1",
        mark: Some(context::HAS_WAKE),
        default: 0,
        says: "when it wants to be woken",
    },
    Word {
        name: "userspace",
        unit: Unit::Mark,
        range: Range::Between(0, 1),
        allowed: "0 or 1",
        mark: None,
        default: 0,
        says: "it runs in userspace",
    },
    Word {
        name: "being_sigkilled",
        unit: Unit::Mark,
        range: Range::Between(0, 1),
        allowed: "0 or 1",
        mark: None,
        default: 0,
        says: "it is being killed",
    },
    Word {
        name: "prio",
        unit: Unit::Priority,
        range: Range::Between(0, 39),
        allowed: "0 to 39",
        mark: None,
        default: 20,
        says: "0 weighs most",
    },
    Word {
        name: "vtime",
        unit: Unit::VirtualTime,
        range: Range::Between(0, 4611686018427387903),
        allowed: "0 to 2^62 - 1",
        mark: None,
        default: 0,
        says: "service received over weight",
    },
    Word {
        name: "vd",
        unit: Unit::VirtualTime,
        range: Range::Between(0, 4611686018427387903),
        allowed: "0 to 2^62 - 1",
        mark: None,
        default: 0,
        says: "virtual deadline",
    },
    Word {
        name: "rem_slice",
        unit: Unit::ScaledTicks,
        range: Range::Between(0, 9663676416),
        allowed: "0 to 9·2^30",
        mark: None,
        default: 0,
        says: "what is left of its slice",
    },
    Word {
        name: "is_active",
        unit: Unit::Mark,
        range: Range::Between(0, 1),
        allowed: "0 or 1",
        mark: None,
        default: 0,
        says: "its weight is in a CPU's total weight",
    },
    Word {
        name: "has_queue_key",
        unit: Unit::Mark,
        range: Range::Between(0, 1),
        allowed: "0 or 1",
        mark: None,
        default: 0,
        says: "it has an entry, by its key below",
    },
    Word {
        name: "queue_key_vd",
        unit: Unit::VirtualTime,
        range: Range::Between(0, 4611686018427387903),
        allowed: "0 to 2^62 - 1",
        mark: Some(context::HAS_QUEUE_KEY),
        default: 0,
        says: "the key's `vd`",
    },
    Word {
        name: "queue_key_rem_slice",
        unit: Unit::ScaledTicks,
        range: Range::Between(0, 9663676416),
        allowed: "0 to 9·2^30",
        mark: Some(context::HAS_QUEUE_KEY),
        default: 0,
        says: "the key's `rem_slice`",
    },
    Word {
        name: "lock",
        unit: Unit::Lock,
        range: Range::Between(0, 2),
        allowed: "0 to 2",
        mark: None,
        default: 0,
        says: "0 free, 1 read, 2 written, by another CPU",
    },
    Word {
        name: "addr_space",
        unit: Unit::AddrSpace,
        range: Range::Between(0, 2),
        allowed: "0 to 2",
        mark: None,
        default: 0,
        says: "its address space: 0 none, 1 free, 2 written by another CPU",
    },
];

/// The first words of a CPU's block.
pub const SINGLE: [Word; 25] = [
    Word {
        name: "present",
        unit: Unit::Mark,
        range: Range::Between(0, 1),
        allowed: "0 or 1",
        mark: None,
        default: 0,
        says: "the CPU is there; if not, all 666 words are 0",
    },
    Word {
        name: "current_ctxt",
        unit: Unit::Context,
        range: Range::Contexts,
        allowed: "0 to N - 1",
        mark: None,
        default: 0,
        says: "who runs on it",
    },
    Word {
        name: "sched_ctxt",
        unit: Unit::Context,
        range: Range::Contexts,
        allowed: "0 to N - 1",
        mark: None,
        default: 0,
        says: "who is in charge: has the slice and is charged",
    },
    Word {
        name: "idle_ctxt",
        unit: Unit::Context,
        range: Range::Contexts,
        allowed: "0 to N - 1",
        mark: None,
        default: 0,
        says: "its idle context",
    },
    Word {
        name: "schedule_time",
        unit: Unit::Nanoseconds,
        range: Range::Between(0, 4611686018427387903),
        allowed: "0 to 2^62 - 1",
        mark: None,
        default: 0,
        says: "its last decision",
    },
    Word {
        name: "pit_ticks",
        unit: Unit::TimerTicks,
        range: Range::Between(0, 4611686018427387903),
        allowed: "0 to 2^62 - 1",
        mark: None,
        default: 0,
        says: "since then; the third makes a switch due",
    },
    Word {
        name: "being_sigkilled",
        unit: Unit::Mark,
        range: Range::Between(0, 1),
        allowed: "0 or 1",
        mark: None,
        default: 0,
        says: "as the current context's",
    },
    Word {
        name: "inside_syscall",
        unit: Unit::Mark,
        range: Range::Between(0, 1),
        allowed: "0 or 1",
        mark: None,
        default: 0,
        says: "as the current context's",
    },
    Word {
        name: "stealable",
        unit: Unit::Mark,
        range: Range::Between(0, 1),
        allowed: "0 or 1",
        mark: None,
        default: 0,
        says: "published: the queue is not empty",
    },
    Word {
        name: "queue_len",
        unit: Unit::Items,
        range: Range::Between(0, 4611686018427387903),
        allowed: "0 to 2^62 - 1",
        mark: None,
        default: 0,
        says: "published: length of the queue",
    },
    Word {
        name: "published_weight",
        unit: Unit::Weight,
        range: Range::Between(0, 4611686018427387903),
        allowed: "0 to 2^62 - 1",
        mark: None,
        default: 0,
        says: "published: the queue's total weight",
    },
    Word {
        name: "steal_counter",
        unit: Unit::Decisions,
        range: Range::Any,
        allowed: "any",
        mark: None,
        default: 0,
        says: "decisions so far; wraps",
    },
    Word {
        name: "state",
        unit: Unit::State,
        range: Range::Between(0, 2),
        allowed: "0 to 2",
        mark: None,
        default: 0,
        says: "0 Idle, 1 Kernel, 2 User",
    },
    Word {
        name: "user",
        unit: Unit::Milliseconds,
        range: Range::Between(0, 4611686018427387903),
        allowed: "0 to 2^62 - 1",
        mark: None,
        default: 0,
        says: "time in state User",
    },
    Word {
        name: "kernel",
        unit: Unit::Milliseconds,
        range: Range::Between(0, 4611686018427387903),
        allowed: "0 to 2^62 - 1",
        mark: None,
        default: 0,
        says: "time in state Kernel",
    },
    Word {
        name: "idle",
        unit: Unit::Milliseconds,
        range: Range::Between(0, 4611686018427387903),
        allowed: "0 to 2^62 - 1",
        mark: None,
        default: 0,
        says: "time in state Idle",
    },
    Word {
        name: "context_switches",
        unit: Unit::Decisions,
        range: Range::Between(0, 4611686018427387903),
        allowed: "0 to 2^62 - 1",
        mark: None,
        default: 0,
        says: "decisions so far",
    },
    Word {
        name: "syscall_switches",
        unit: Unit::Decisions,
        range: Range::Between(0, 4611686018427387903),
        allowed: "0 to 2^62 - 1",
        mark: None,
        default: 0,
        says: "those of them inside a system call",
    },
    Word {
        name: "queue_locked",
        unit: Unit::Mark,
        range: Range::Between(0, 1),
        allowed: "0 or 1",
        mark: None,
        default: 0,
        says: "another CPU holds the run queue's lock",
    },
    Word {
        name: "v",
        unit: Unit::VirtualTime,
        range: Range::Between(0, 4611686018427387903),
        allowed: "0 to 2^62 - 1",
        mark: None,
        default: 0,
        says: "V, the CPU's virtual time",
    },
    Word {
        name: "total_weight",
        unit: Unit::Weight,
        range: Range::Between(0, 4611686018427387903),
        allowed: "0 to 2^62 - 1",
        mark: None,
        default: 0,
        says: "of the queue's entries and the context in charge",
    },
    Word {
        name: "queue_count",
        unit: Unit::Items,
        range: Range::Between(0, 64),
        allowed: "0 to 64",
        mark: None,
        default: 0,
        says: "entries in the queue",
    },
    Word {
        name: "timers_count",
        unit: Unit::Items,
        range: Range::Between(0, 64),
        allowed: "0 to 64",
        mark: None,
        default: 0,
        says: "timers",
    },
    Word {
        name: "local_count",
        unit: Unit::Items,
        range: Range::Between(0, 64),
        allowed: "0 to 64",
        mark: None,
        default: 0,
        says: "names on the local list",
    },
    Word {
        name: "ipi_count",
        unit: Unit::Items,
        range: Range::Between(0, 64),
        allowed: "0 to 64",
        mark: None,
        default: 0,
        says: "names on the interrupt list",
    },
];

/// The arrays of a CPU's block.
pub const ARRAYS: [Array; 10] = [
    Array {
        place: block::KEY_VD,
        count: block::QUEUE_COUNT,
        word: Word {
            name: "queue[i].key.vd",
            unit: Unit::VirtualTime,
            range: Range::Between(0, 4611686018427387903),
            allowed: "0 to 2^62 - 1",
            mark: None,
            default: 0,
            says: "deadline in the entry's key",
        },
    },
    Array {
        place: block::KEY_REM_SLICE,
        count: block::QUEUE_COUNT,
        word: Word {
            name: "queue[i].key.rem_slice",
            unit: Unit::ScaledTicks,
            range: Range::Between(0, 9663676416),
            allowed: "0 to 9·2^30",
            mark: None,
            default: 0,
            says: "slice in the key",
        },
    },
    Array {
        place: block::KEY_CTXT_ID,
        count: block::QUEUE_COUNT,
        word: Word {
            name: "queue[i].key.ctxt_id",
            unit: Unit::Id,
            range: Range::Between(0, 4294967295),
            allowed: "0 to 2^32 - 1",
            mark: None,
            default: 0,
            says: "id in the key",
        },
    },
    Array {
        place: block::ENTRY_VTIME,
        count: block::QUEUE_COUNT,
        word: Word {
            name: "queue[i].vtime",
            unit: Unit::VirtualTime,
            range: Range::Between(0, 4611686018427387903),
            allowed: "0 to 2^62 - 1",
            mark: None,
            default: 0,
            says: "the context's `vtime` when it was queued",
        },
    },
    Array {
        place: block::ENTRY_WEIGHT,
        count: block::QUEUE_COUNT,
        word: Word {
            name: "queue[i].weight",
            unit: Unit::Weight,
            range: Range::Between(15, 88761),
            allowed: "15 to 88,761",
            mark: None,
            default: 0,
            says: "its weight then",
        },
    },
    Array {
        place: block::ENTRY_CONTEXT_REF,
        count: block::QUEUE_COUNT,
        word: Word {
            name: "queue[i].context_ref",
            unit: Unit::Context,
            range: Range::Contexts,
            allowed: "0 to N - 1",
            mark: None,
            default: 0,
            says: "whose entry it is",
        },
    },
    Array {
        place: block::TIMER_WAKE,
        count: block::TIMERS_COUNT,
        word: Word {
            name: "timers[i].wake",
            unit: Unit::Nanoseconds,
            range: Range::Between(0, 4611686018427387903),
            allowed: "0 to 2^62 - 1",
            mark: None,
            default: 0,
            says: "when it comes due",
        },
    },
    Array {
        place: block::TIMER_CONTEXT_REF,
        count: block::TIMERS_COUNT,
        word: Word {
            name: "timers[i].context_ref",
            unit: Unit::Context,
            range: Range::Contexts,
            allowed: "0 to N - 1",
            mark: None,
            default: 0,
            says: "whom it wakes",
        },
    },
    Array {
        place: block::LOCAL_WAKEUP_LIST,
        count: block::LOCAL_COUNT,
        word: Word {
            name: "local_wakeup_list[i]",
            unit: Unit::Context,
            range: Range::Contexts,
            allowed: "0 to N - 1",
            mark: None,
            default: 0,
            says: "woken here, for the next decision",
        },
    },
    Array {
        place: block::IPI_CONTEXT_WAKEUP_LIST,
        count: block::IPI_COUNT,
        word: Word {
            name: "ipi_context_wakeup_list[i]",
            unit: Unit::Context,
            range: Range::Contexts,
            allowed: "0 to N - 1",
            mark: None,
            default: 0,
            says: "woken here by another CPU",
        },
    },
];

/// The words behind the arrays.
pub const LAST: [Word; 1] = [
    Word {
        name: "remainder",
        unit: Unit::Remainder,
        range: Range::Between(0, 2249999),
        allowed: "0 to 2,249,999",
        mark: None,
        default: 0,
        says: "what the last decision's tick conversion left over, for the next one",
    },
];

/// Statuses of a context, by number.
pub const STATUS: [&str; 6] = [
    "Runnable",
    "Blocked",
    "Stopped",
    "AwaitingMmap",
    "NotYetStarted",
    "Dead",
];

/// States of a CPU, by number.
pub const STATE: [&str; 3] = [
    "Idle",
    "Kernel",
    "User",
];

/// Values of a context's lock.
pub const LOCK: [&str; 3] = [
    "free",
    "read",
    "written",
];

/// Values of an address space.
pub const ADDR_SPACE: [&str; 3] = [
    "none",
    "free",
    "written",
];

/// The operations, from number 1.
pub const OPERATIONS: [OperationRow; 7] = [
    OperationRow {
        name: "tick",
        takes_context: false,
        result: "0 no switch is due, else as 2",
        says: "the timer's tick: counts it, and switches on the third",
    },
    OperationRow {
        name: "switch",
        takes_context: false,
        result: "1 Switched, 2 AllContextsIdle",
        says: "who is in charge is decided anew",
    },
    OperationRow {
        name: "direct_switch_to",
        takes_context: true,
        result: "as 2",
        says: "the named context gets the rest of the slice, or else as 2",
    },
    OperationRow {
        name: "unblock_context",
        takes_context: true,
        result: "1 if it was soft-blocked, else 0",
        says: "the named context is woken and put on a wake-up list",
    },
    OperationRow {
        name: "drain_ipi_context_wakeups",
        takes_context: false,
        result: "0",
        says: "names on the interrupt list go behind those on the local list",
    },
    OperationRow {
        name: "block",
        takes_context: true,
        result: "1 if it was runnable, else 0",
        says: "the named context becomes Blocked",
    },
    OperationRow {
        name: "hard_block",
        takes_context: true,
        result: "as 6",
        says: "the named context becomes Stopped",
    },
];

/// The calls that have no number.
pub const CALLS: [CallRow; 12] = [
    CallRow {
        name: "plain_call",
        takes: &["operation", "cpu", "time", "context"],
        reads: false,
        result: "the operation's",
        says: "the operation of that number by the plain engine, slowly: the same answer and the same image",
    },
    CallRow {
        name: "unblock_group",
        takes: &["cpu", "time", "mask"],
        reads: false,
        result: "how many of them were soft-blocked",
        says: "operation 4 for every context x whose bit x is set in the mask, by rising number; refused, for none",
    },
    CallRow {
        name: "total_weight",
        takes: &["cpu"],
        reads: true,
        result: "the sum",
        says: "adds up the weights of the CPU's queue entries, also of those whose context is gone, and the priority's weight of the context in charge if it is active",
    },
    CallRow {
        name: "ask",
        takes: &["cpu", "time"],
        reads: true,
        result: "as 2",
        says: "what a switch at that time would answer, and leave on that CPU",
    },
    CallRow {
        name: "commit",
        takes: &["cpu", "time", "refusal", "result", "in_charge", "current", "v"],
        reads: false,
        result: "as 2",
        says: "operation 2, if what `ask` would answer now is this reply, in all five words",
    },
    CallRow {
        name: "call_in_window",
        takes: &["operation", "cpu", "time", "context"],
        reads: false,
        result: "the operation's",
        says: "the operation of that number; an accepted decision adds its record to the window",
    },
    CallRow {
        name: "share",
        takes: &["contexts", "context"],
        reads: true,
        result: "the sum",
        says: "adds up the times of the context in the window, which is checked for that many contexts",
    },
    CallRow {
        name: "share_of_all",
        takes: &["contexts"],
        reads: true,
        result: "the sum",
        says: "the same of all contexts",
    },
    CallRow {
        name: "humblest",
        takes: &["cpu", "time", "context"],
        reads: true,
        result: "none: found, and the priority",
        says: "the largest priority with which the context, put last on the CPU's local list, would be in charge after a switch at that time",
    },
    CallRow {
        name: "rival",
        takes: &["cpu", "time", "writer", "rival", "rounds"],
        reads: true,
        result: "none: forced, and the choice",
        says: "whether the writer can force itself into charge at the end of 1 to 6 rounds, whatever the rival picks, and its first winning choice if it is in charge",
    },
    CallRow {
        name: "apart",
        takes: &["one", "other"],
        reads: true,
        result: "1 if so, else 0",
        says: "whether no context is named by both CPUs, in any roles together: current, in charge, idle, queued, timed, on a list",
    },
    CallRow {
        name: "run",
        takes: &[],
        reads: false,
        result: "none: how many calls were made, or 2^64 - 1",
        says: "`ronthuyal_call` for each call of a list, one after the other",
    },
];

/// The refusals, by number.
pub const REFUSALS: [(u64, &str); 11] = [
    (1, "fewer than two words, or a size out of bounds"),
    (2, "the length is not the one that the sizes give"),
    (3, "a word, or the call's time, outside its range"),
    (4, "the structure is broken"),
    (5, "no such operation; CPU absent or not below C; for operations 3, 4, 6 and 7, for groups, for `humblest` and for `rival` a context gone or not below N, for `humblest` also one that is queued or in charge"),
    (6, "a lock is not free"),
    (7, "operation 3 while the idle context is current, to another context"),
    (8, "operations 1 to 3: the time is over 2^52 - 1 ns past the CPU's `schedule_time`"),
    (9, "a queue, timer set or list would get its 65th item"),
    (13, "a commit: the switch would be accepted now, and what it gives is not the reply"),
    (14, "writer against rival: rounds outside 1 to 6, or writer and rival the same"),
];

/// The weight of each priority, as crates/weights has it.
pub const WEIGHTS: [u64; 40] = [
    88761, 71755, 56483, 46273, 36291, 29154, 23254, 18705, 14949, 11916, 9548, 7620, 6100, 4904,
    3906, 3121, 2501, 1991, 1586, 1277, 1024, 820, 655, 526, 423, 335, 272, 215, 172, 137, 110, 87,
    70, 56, 45, 36, 29, 23, 18, 15,
];

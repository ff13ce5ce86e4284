//! Places and names of an image's words. Written by tools/places.py.

/// Words of a context's record.
pub mod context {
    /// Nobody holds the context any more, only weak references name it; all words but this and `debug_id` are 0.
    pub const GONE: usize = 0;
    /// The context's id, unlike all others.
    pub const DEBUG_ID: usize = 1;
    /// 0 Runnable, 1 Blocked, 2 Stopped, 3 AwaitingMmap, 4 NotYetStarted, 5 Dead.
    pub const STATUS: usize = 2;
    /// It is current on some CPU.
    pub const RUNNING: usize = 3;
    /// It is in charge of some CPU.
    pub const CURRENTLY_SCHEDULED: usize = 4;
    /// The CPU it was last on; 0 for none.
    pub const CPU_ID: usize = 5;
    /// When it last came in charge.
    pub const SCHEDULE_TIME: usize = 6;
    /// When it last became current.
    pub const SWITCH_TIME: usize = 7;
    /// How long it has been current in all.
    pub const ACTIVE_CPU_TIME: usize = 8;
    /// How long it has been in charge in all.
    pub const SCHED_CPU_TIME: usize = 9;
    /// Bit k: it may run on CPU k.
    pub const SCHED_AFFINITY: usize = 10;
    /// It was inside a system call when it last left a CPU.
    pub const INSIDE_SYSCALL: usize = 11;
    /// `wake` is set.
    pub const HAS_WAKE: usize = 12;
    /// When it wants to be woken.
    pub const WAKE: usize = 13;
    /// It runs in userspace.
    pub const USERSPACE: usize = 14;
    /// It is being killed.
    pub const BEING_SIGKILLED: usize = 15;
    /// 0 weighs most.
    pub const PRIO: usize = 16;
    /// Service received over weight.
    pub const VTIME: usize = 17;
    /// Virtual deadline.
    pub const VD: usize = 18;
    /// What is left of its slice.
    pub const REM_SLICE: usize = 19;
    /// Its weight is in a CPU's total weight.
    pub const IS_ACTIVE: usize = 20;
    /// It has an entry, by its key below.
    pub const HAS_QUEUE_KEY: usize = 21;
    /// The key's `vd`.
    pub const QUEUE_KEY_VD: usize = 22;
    /// The key's `rem_slice`.
    pub const QUEUE_KEY_REM_SLICE: usize = 23;
    /// 0 free, 1 read, 2 written, by another CPU.
    pub const LOCK: usize = 24;
    /// Its address space: 0 none, 1 free, 2 written by another CPU.
    pub const ADDR_SPACE: usize = 25;
    /// How many words a record has.
    pub const WORDS: usize = 26;

    /// A status of a context.
    pub const RUNNABLE: u64 = 0;
    /// A status of a context.
    pub const BLOCKED: u64 = 1;
    /// A status of a context.
    pub const STOPPED: u64 = 2;
    /// A status of a context.
    pub const AWAITING_MMAP: u64 = 3;
    /// A status of a context.
    pub const NOT_YET_STARTED: u64 = 4;
    /// A status of a context.
    pub const DEAD: u64 = 5;

    /// Names of the words.
    pub const NAMES: [&str; 26] = [
        "gone",
        "debug_id",
        "status",
        "running",
        "currently_scheduled",
        "cpu_id",
        "schedule_time",
        "switch_time",
        "active_cpu_time",
        "sched_cpu_time",
        "sched_affinity",
        "inside_syscall",
        "has_wake",
        "wake",
        "userspace",
        "being_sigkilled",
        "prio",
        "vtime",
        "vd",
        "rem_slice",
        "is_active",
        "has_queue_key",
        "queue_key_vd",
        "queue_key_rem_slice",
        "lock",
        "addr_space",
    ];
}

/// Words of a CPU's block: single ones, then columns of 64, then the last ones.
pub mod block {
    /// The CPU is there; if not, all 666 words are 0.
    pub const PRESENT: usize = 0;
    /// Who runs on it.
    pub const CURRENT_CTXT: usize = 1;
    /// Who is in charge: has the slice and is charged.
    pub const SCHED_CTXT: usize = 2;
    /// Its idle context.
    pub const IDLE_CTXT: usize = 3;
    /// Its last decision.
    pub const SCHEDULE_TIME: usize = 4;
    /// Since then; the third makes a switch due.
    pub const PIT_TICKS: usize = 5;
    /// As the current context's.
    pub const BEING_SIGKILLED: usize = 6;
    /// As the current context's.
    pub const INSIDE_SYSCALL: usize = 7;
    /// Published: the queue is not empty.
    pub const STEALABLE: usize = 8;
    /// Published: length of the queue.
    pub const QUEUE_LEN: usize = 9;
    /// Published: the queue's total weight.
    pub const PUBLISHED_WEIGHT: usize = 10;
    /// Decisions so far; wraps.
    pub const STEAL_COUNTER: usize = 11;
    /// 0 Idle, 1 Kernel, 2 User.
    pub const STATE: usize = 12;
    /// Time in state User.
    pub const USER: usize = 13;
    /// Time in state Kernel.
    pub const KERNEL: usize = 14;
    /// Time in state Idle.
    pub const IDLE: usize = 15;
    /// Decisions so far.
    pub const CONTEXT_SWITCHES: usize = 16;
    /// Those of them inside a system call.
    pub const SYSCALL_SWITCHES: usize = 17;
    /// Another CPU holds the run queue's lock.
    pub const QUEUE_LOCKED: usize = 18;
    /// V, the CPU's virtual time.
    pub const V: usize = 19;
    /// Of the queue's entries and the context in charge.
    pub const TOTAL_WEIGHT: usize = 20;
    /// Entries in the queue.
    pub const QUEUE_COUNT: usize = 21;
    /// Timers.
    pub const TIMERS_COUNT: usize = 22;
    /// Names on the local list.
    pub const LOCAL_COUNT: usize = 23;
    /// Names on the interrupt list.
    pub const IPI_COUNT: usize = 24;
    /// How many single words stand before the columns.
    pub const SINGLE: usize = 25;

    /// Deadline in the entry's key.
    pub const KEY_VD: usize = 25;
    /// Slice in the key.
    pub const KEY_REM_SLICE: usize = 89;
    /// Id in the key.
    pub const KEY_CTXT_ID: usize = 153;
    /// The context's `vtime` when it was queued.
    pub const ENTRY_VTIME: usize = 217;
    /// Its weight then.
    pub const ENTRY_WEIGHT: usize = 281;
    /// Whose entry it is.
    pub const ENTRY_CONTEXT_REF: usize = 345;
    /// When it comes due.
    pub const TIMER_WAKE: usize = 409;
    /// Whom it wakes.
    pub const TIMER_CONTEXT_REF: usize = 473;
    /// Woken here, for the next decision.
    pub const LOCAL_WAKEUP_LIST: usize = 537;
    /// Woken here by another CPU.
    pub const IPI_CONTEXT_WAKEUP_LIST: usize = 601;
    /// Where the words behind the columns begin.
    pub const LAST: usize = 665;

    /// What the last decision's tick conversion left over, for the next one.
    pub const REMAINDER: usize = 665;
    /// How many words a block has.
    pub const WORDS: usize = 666;

    /// The columns that each count word speaks for.
    pub const COLUMNS: [(usize, &[usize]); 4] = [
        (
            QUEUE_COUNT,
            &[
                KEY_VD,
                KEY_REM_SLICE,
                KEY_CTXT_ID,
                ENTRY_VTIME,
                ENTRY_WEIGHT,
                ENTRY_CONTEXT_REF,
            ],
        ),
        (TIMERS_COUNT, &[TIMER_WAKE, TIMER_CONTEXT_REF]),
        (LOCAL_COUNT, &[LOCAL_WAKEUP_LIST]),
        (IPI_COUNT, &[IPI_CONTEXT_WAKEUP_LIST]),
    ];

    /// Names of the single words.
    pub const NAMES: [&str; 25] = [
        "present",
        "current_ctxt",
        "sched_ctxt",
        "idle_ctxt",
        "schedule_time",
        "pit_ticks",
        "being_sigkilled",
        "inside_syscall",
        "stealable",
        "queue_len",
        "published_weight",
        "steal_counter",
        "state",
        "user",
        "kernel",
        "idle",
        "context_switches",
        "syscall_switches",
        "queue_locked",
        "v",
        "total_weight",
        "queue_count",
        "timers_count",
        "local_count",
        "ipi_count",
    ];
    /// Names of the words behind the columns.
    pub const LAST_NAMES: [&str; 1] = ["remainder"];

    /// Names of the columns: before and after the slot in brackets.
    pub const COLUMN_NAMES: [(&str, &str); 10] = [
        ("queue", ".key.vd"),
        ("queue", ".key.rem_slice"),
        ("queue", ".key.ctxt_id"),
        ("queue", ".vtime"),
        ("queue", ".weight"),
        ("queue", ".context_ref"),
        ("timers", ".wake"),
        ("timers", ".context_ref"),
        ("local_wakeup_list", ""),
        ("ipi_context_wakeup_list", ""),
    ];
}

/// What the numbers of the rules stand for.
pub const RULES: [&str; 10] = [
    "no decision",
    "first eligible entry",
    "holder kept by its deadline",
    "holder kept by its slice",
    "holder alone eligible",
    "holder with least virtual time",
    "holder kept by deadline with nobody eligible",
    "entry with least virtual time",
    "stolen",
    "idle",
];

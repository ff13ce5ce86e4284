"""The words of an image, once: names, places, ranges, and what calls answer. The names are those of the structs in
crates/context and crates/percpu. tools/records.py writes the crates' definitions from these lists, tools/places.py the
Rust libraries' places and tables, the C header and the tables of docs/IMAGE.md; tools/case.py builds images by them."""
from typing import NamedTuple

CPUS, CONTEXTS, ROOM = 4, 64, 64  # the most of each; ROOM is that of a queue, timer set or list
NUMBER_MAX, ID_MAX, SLICE_MAX, TURN_MAX = 2**62 - 1, 2**32 - 1, 9 * 2**30, 2**52 - 1
WEIGHT_MIN, WEIGHT_MAX, PRIO_MAX = 15, 88_761, 39
REMAINDER_MAX = 2_250_000 - 1  # of a division by NANOS_PER_TICK

# Ranges, as a reader is told them.
MARK, NUMBER, ANY = "0 or 1", "0 to 2^62 - 1", "any"
SLICE, ID, COUNT, CONTEXT_NUMBER = "0 to 9·2^30", "0 to 2^32 - 1", "0 to 64", "0 to N - 1"
REMAINDER = "0 to 2,249,999"

STATUS = ["Runnable", "Blocked", "Stopped", "AwaitingMmap", "NotYetStarted", "Dead"]
STATE = ["Idle", "Kernel", "User"]
LOCK = ["free", "read", "written"]
ADDR_SPACE = ["none", "free", "written"]


class Word(NamedTuple):
    name: str
    kind: str  # in the struct: a mark is a bool; 'enum:T' is the enum T, whose number and inverse its crate defines
    unit: str
    range: str
    says: str
    default: str = "0"  # of a new context or CPU in the kernel
    also: str = ""  # what of the structure it takes part in: refusal 4, besides 3 for its range


def mark(name, says, **more):
    return Word(name, "bool", "mark", MARK, says, **more)


def number(name, unit, says, range=NUMBER, **more):
    return Word(name, "u64", unit, range, says, **more)


def numbered(names):
    return ", ".join("%d %s" % pair for pair in enumerate(names))


SIZES = [number("C", "count", "CPUs", "1 to 4", default="-"), number("N", "count", "contexts", "1 to 64", default="-")]

RECORD = [
    mark("gone",
         "nobody holds the context any more, only weak references name it; all words but this and `debug_id` are 0"),
    number("debug_id", "id", "the context's id, unlike all others", ID, default="next free",
           also="ids differ, those of gone records too"),
    Word("status", "enum:status", "status", "0 to 5", numbered(STATUS), default="4"),
    mark("running", "it is current on some CPU"),
    mark("currently_scheduled", "it is in charge of some CPU"),
    number("cpu_id", "CPU + 1", "the CPU it was last on; 0 for none", "0 to C"),
    number("schedule_time", "ns", "when it last came in charge"),
    number("switch_time", "ns", "when it last became current"),
    number("active_cpu_time", "ns", "how long it has been current in all"),
    number("sched_cpu_time", "ns", "how long it has been in charge in all"),
    number("sched_affinity", "mask", "bit k: it may run on CPU k", ANY, default="all ones"),
    mark("inside_syscall", "it was inside a system call when it last left a CPU"),
    mark("has_wake", "`wake` is set"),
    number("wake", "ns", "when it wants to be woken", NUMBER + "; 0 without `has_wake`"),
    mark("userspace", "it runs in userspace"),
    mark("being_sigkilled", "it is being killed"),
    number("prio", "priority", "0 weighs most", "0 to 39", default="20"),
    number("vtime", "virtual time", "service received over weight"),
    number("vd", "virtual time", "virtual deadline"),
    number("rem_slice", "scaled ticks", "what is left of its slice", SLICE),
    mark("is_active", "its weight is in a CPU's total weight"),
    mark("has_queue_key", "it has an entry, by its key below"),
    number("queue_key_vd", "virtual time", "the key's `vd`", NUMBER + "; 0 without `has_queue_key`"),
    number("queue_key_rem_slice", "scaled ticks", "the key's `rem_slice`", SLICE + "; 0 without `has_queue_key`"),
    number("lock", "lock", "0 free, 1 read, 2 written, by another CPU", "0 to 2"),
    number("addr_space", "lock", "its address space: 0 none, 1 free, 2 written by another CPU", "0 to 2"),
]

FRONT = [
    mark("present", "the CPU is there; if not, all 666 words are 0"),
    number("current_ctxt", "context", "who runs on it", CONTEXT_NUMBER, default="-", also="not gone"),
    number("sched_ctxt", "context", "who is in charge: has the slice and is charged", CONTEXT_NUMBER, default="-",
           also="not gone"),
    number("idle_ctxt", "context", "its idle context", CONTEXT_NUMBER, default="-", also="not gone"),
    number("schedule_time", "ns", "its last decision"),
    number("pit_ticks", "timer ticks", "since then; the third makes a switch due"),
    mark("being_sigkilled", "as the current context's"),
    mark("inside_syscall", "as the current context's"),
    mark("stealable", "published: the queue is not empty"),
    number("queue_len", "entries", "published: length of the queue"),
    number("published_weight", "weight", "published: the queue's total weight"),
    number("steal_counter", "decisions", "decisions so far; wraps", ANY),
]
STATISTICS = [
    Word("state", "enum:state", "state", "0 to 2", numbered(STATE)),
    number("user", "ms", "time in state User"),
    number("kernel", "ms", "time in state Kernel"),
    number("idle", "ms", "time in state Idle"),
    number("context_switches", "decisions", "decisions so far"),
    number("syscall_switches", "decisions", "those of them inside a system call"),
]
BACK = [
    mark("queue_locked", "another CPU holds the run queue's lock"),
    number("v", "virtual time", "V, the CPU's virtual time"),
    number("total_weight", "weight", "of the queue's entries and the context in charge"),
]
COUNT_WORDS = [
    number("queue_count", "entries", "entries in the queue", COUNT),
    number("timers_count", "timers", "timers", COUNT),
    number("local_count", "names", "names on the local list", COUNT),
    number("ipi_count", "names", "names on the interrupt list", COUNT),
]
SINGLE = FRONT + STATISTICS + BACK + COUNT_WORDS


class Array(NamedTuple):
    name: str
    item: str  # list and field, with a place for the slot
    count: str
    unit: str
    range: str
    says: str
    also: str = ""


RISING_KEYS = "keys rise strictly: by `vd`, then the larger `rem_slice`, then `ctxt_id`"
RISING_TIMERS = "pairs (wake, context) rise strictly"
TIMED_ONCE = RISING_TIMERS + "; no context twice in a set"
ARRAYS = [
    Array("key_vd", "queue[%d].key.vd", "queue_count", "virtual time", NUMBER, "deadline in the entry's key",
          RISING_KEYS),
    Array("key_rem_slice", "queue[%d].key.rem_slice", "queue_count", "scaled ticks", SLICE,
          "slice in the key", RISING_KEYS),
    Array("key_ctxt_id", "queue[%d].key.ctxt_id", "queue_count", "id", ID, "id in the key",
          "its context's `debug_id`; " + RISING_KEYS),
    Array("entry_vtime", "queue[%d].vtime", "queue_count", "virtual time", NUMBER,
          "the context's `vtime` when it was queued"),
    Array("entry_weight", "queue[%d].weight", "queue_count", "weight", "15 to 88,761", "its weight then"),
    Array("entry_context_ref", "queue[%d].context_ref", "queue_count", "context", CONTEXT_NUMBER,
          "whose entry it is"),
    Array("timer_wake", "timers[%d].wake", "timers_count", "ns", NUMBER, "when it comes due", RISING_TIMERS),
    Array("timer_context_ref", "timers[%d].context_ref", "timers_count", "context", CONTEXT_NUMBER,
          "whom it wakes", TIMED_ONCE),
    Array("local_wakeup_list", "local_wakeup_list[%d]", "local_count", "context", CONTEXT_NUMBER,
          "woken here, for the next decision"),
    Array("ipi_context_wakeup_list", "ipi_context_wakeup_list[%d]", "ipi_count", "context", CONTEXT_NUMBER,
          "woken here by another CPU"),
]

# Behind the arrays.
LAST = [
    number("remainder", "2^-30 ns", "what the last decision's tick conversion left over, for the next one", REMAINDER),
]
LAST_PLACE = len(SINGLE) + ROOM * len(ARRAYS)

RECORD_WORDS, BLOCK_WORDS = len(RECORD), LAST_PLACE + len(LAST)
assert (RECORD_WORDS, BLOCK_WORDS) == (26, 666)

# For tools/records.py: the fields of the structs, and what stands in the block as a record of its own.
CONTEXT = [(word.name, word.kind) for word in RECORD]
STATS = [(word.name, word.kind) for word in STATISTICS]
BLOCK = [(word.name, word.kind) for word in FRONT] + [("stats", "record")] + [(word.name, word.kind) for word in BACK]
LISTS = [("queue", "List Entry"), ("timers", "List Timer"), ("local_wakeup_list", "List ℕ"),
         ("ipi_context_wakeup_list", "List ℕ")]
WIDTH = {"record": len(STATS)}
COUNTS = [word.name for word in COUNT_WORDS]


def array_place(array):
    return len(SINGLE) + ROOM * ARRAYS.index(array)


def length(cpus, contexts):
    return len(SIZES) + RECORD_WORDS * contexts + BLOCK_WORDS * cpus


def record_place(context):
    return len(SIZES) + RECORD_WORDS * context


def block_place(contexts, cpu):
    return len(SIZES) + RECORD_WORDS * contexts + BLOCK_WORDS * cpu


class Operation(NamedTuple):
    name: str  # the kernel's function
    takes: bool  # whether it names a context
    result: str
    says: str


class Call(NamedTuple):
    name: str
    takes: tuple  # its arguments behind what is lent
    reads: bool  # whether it leaves what is lent as it is
    result: str
    says: str
    gives: str = "answer"  # the struct of the header that it answers with, or "number"
    lent: tuple = ("image",)
    kept: tuple = ()  # what of it is only read, where something else is written


OPERATIONS = [
    Operation("tick", False, "0 no switch is due, else as 2", "the timer's tick: counts it, and switches on the third"),
    Operation("switch", False, "1 Switched, 2 AllContextsIdle", "who is in charge is decided anew"),
    Operation("direct_switch_to", True, "as 2", "the named context gets the rest of the slice, or else as 2"),
    Operation("unblock_context", True, "1 if it was soft-blocked, else 0",
              "the named context is woken and put on a wake-up list"),
    Operation("drain_ipi_context_wakeups", False, "0", "names on the interrupt list go behind those on the local list"),
    Operation("block", True, "1 if it was runnable, else 0", "the named context becomes Blocked"),
    Operation("hard_block", True, "as 6", "the named context becomes Stopped"),
]

# Calls that have no operation number and are no function of the kernel.
CALLS = [
    Call("plain_call", ("operation", "cpu", "time", "context"), False, "the operation's",
         "the operation of that number by the plain engine, slowly: the same answer and the same image"),
    Call("unblock_group", ("cpu", "time", "mask"), False, "how many of them were soft-blocked",
         "operation 4 for every context x whose bit x is set in the mask, by rising number; refused, for none"),
    Call("total_weight", ("cpu",), True, "the sum",
         "adds up the weights of the CPU's queue entries, also of those whose context is gone, and the priority's weight "
         "of the context in charge if it is active"),
    Call("ask", ("cpu", "time"), True, "as 2", "what a switch at that time would answer, and leave on that CPU", "asked"),
    Call("commit", ("cpu", "time", "refusal", "result", "in_charge", "current", "v"), False, "as 2",
         "operation 2, if what `ask` would answer now is this reply, in all five words"),
    Call("call_in_window", ("operation", "cpu", "time", "context"), False, "the operation's",
         "the operation of that number; an accepted decision adds its record to the window", lent=("image", "window")),
    Call("share", ("contexts", "context"), True, "the sum",
         "adds up the times of the context in the window, which is checked for that many contexts", lent=("window",)),
    Call("share_of_all", ("contexts",), True, "the sum", "the same of all contexts", lent=("window",)),
    Call("humblest", ("cpu", "time", "context"), True, "none: found, and the priority",
         "the largest priority with which the context, put last on the CPU's local list, would be in charge after a switch "
         "at that time", "humblest"),
    Call("rival", ("cpu", "time", "writer", "rival", "rounds"), True, "none: forced, and the choice",
         "whether the writer can force itself into charge at the end of 1 to 6 rounds, whatever the rival picks, and its "
         "first winning choice if it is in charge", "game"),
    Call("apart", ("one", "other"), True, "1 if so, else 0",
         "whether no context is named by both CPUs, in any roles together: current, in charge, idle, queued, timed, on "
         "a list"),
    Call("run", (), False, "none: how many calls were made, or 2^64 - 1",
         "`ronthuyal_call` for each call of a list, one after the other", "number", ("image", "calls", "answers"),
         ("calls",)),
]

# A window's words.
WINDOW_CAPACITY = 256
WINDOW = [("count", 0, 1), ("contexts", 1, WINDOW_CAPACITY), ("times", 1 + WINDOW_CAPACITY, WINDOW_CAPACITY)]
WINDOW_WORDS = 1 + 2 * WINDOW_CAPACITY

REFUSALS = [
    "fewer than two words, or a size out of bounds",
    "the length is not the one that the sizes give",
    "a word, or the call's time, outside its range",
    "the structure is broken",
    "no such operation; CPU absent or not below C; for operations 3, 4, 6 and 7, for groups, for `humblest` and for `rival` "
    "a context gone or not below N, for `humblest` also one that is queued or in charge",
    "a lock is not free",
    "operation 3 while the idle context is current, to another context",
    "operations 1 to 3: the time is over 2^52 - 1 ns past the CPU's `schedule_time`",
    "a queue, timer set or list would get its 65th item",
]
# Those of a call without a number; 10 to 12 are the cue board's. A window has 1 and 3 of its own.
MORE_REFUSALS = {
    13: "a commit: the switch would be accepted now, and what it gives is not the reply",
    14: "writer against rival: rounds outside 1 to 6, or writer and rival the same",
}


class Rule(NamedTuple):
    name: str  # as in the enum of crates/answer
    says: str
    when: str  # after wake-ups and charging


# Why a decision left whom in charge, from 1; 0 is that of a call that makes none.
RULES = [
    Rule("FirstEligible", "first eligible entry", "some ready entry is eligible, and not 2 or 3"),
    Rule("HolderDeadline", "holder kept by its deadline",
         "some ready entry is eligible, the holder is runnable and eligible, and its deadline is before that of the "
         "first such entry"),
    Rule("HolderSlice", "holder kept by its slice", "the same with equal deadlines and more slice left"),
    Rule("HolderAlone", "holder alone eligible", "the holder is runnable and eligible, no ready entry is eligible"),
    Rule("HolderVtime", "holder with least virtual time",
         "nobody is eligible, the holder is runnable, and no ready entry has a smaller vtime (also if it waits alone)"),
    Rule("HolderLateDeadline", "holder kept by deadline with nobody eligible",
         "nobody is eligible, the holder is runnable, some ready entry has a smaller vtime, and the holder's vd is at "
         "most that of the first one with the least"),
    Rule("EntryVtime", "entry with least virtual time", "nobody is eligible, some entry is ready, and not 5 or 6"),
    Rule("Stolen", "stolen", "nobody waits, and this turn stole somebody"),
    Rule("Idle", "idle", "nobody waits, and it stole nobody"),
]

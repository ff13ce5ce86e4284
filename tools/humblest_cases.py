"""Cases of the humblest priority (document 02, No. 12), worked out by hand from document 01's steps. A context that is
woken comes in at V or its own virtual time, with a full slice and a deadline a whole slice on: 9·2^30 over the weight of
its priority. The weights of the kernel's table are 88,761 at priority 0, 1277 at 19, 1024 at 20, 820 at 21, 36 at 35, 29
at 36 and 15 at 39."""
from case import Case
from layout import SLICE_MAX
from refused_cases import FULL, READ, WRITTEN, keyless, many
from switch_cases import BLOCKED, TURN, TURN_VTIME, at_idle, lent, start, victim, worked_example
from ask_cases import LATE, REFUSED

NONE = (0, 0, 0)
# Who is tried; its id is the least of those that wait.
WRITER, OTHER = 3, 4


def whole(weight):
    return SLICE_MAX // weight


def holder(deadline):
    """The holder has used a turn and is within its share all the same, as V is there too; less of its slice is left than
    of the slice of one that comes in."""
    return start().block(0, v=TURN_VTIME).record(2, vd=TURN_VTIME + deadline)


def waiting(deadline):
    """Nobody is in charge, and the other waits for that deadline."""
    return at_idle().queue(0, (OTHER, deadline, 0))


def twice(second, vtime=7):
    """Nobody is in charge and nobody within its share. The other has two entries: its later one, which has had least, is
    passed over if the scan still holds its lock for the first. Where the writer comes in between, it does not."""
    machine = at_idle().queue(0, (OTHER, 1000, 10), (OTHER, second, 5))
    return machine.record(WRITER, vtime=vtime)


def absent(machine):
    return machine.block(1, present=0, current_ctxt=0, sched_ctxt=0, idle_ctxt=0, steal_counter=0)


def blocked_holder():
    return start().record(2, **BLOCKED)


def found(title, machine, priority, cpu=0, time=TURN, context=WRITER):
    return case(title, machine, (0, 1, priority), cpu, time, context)


def none(title, machine, cpu=0, time=TURN, context=WRITER):
    return case(title, machine, NONE, cpu, time, context)


def refused(title, machine, number, cpu=0, time=TURN, context=WRITER, length=None):
    return case(title, machine, (number, 0, 0), cpu, time, context, length)


def case(title, machine, answer, cpu, time, context, length=None):
    length = machine.length() if length is None else length
    words = {place: word for place, word in machine.words.items() if place < length}
    return Case(title, ("h", cpu, time, context), length, words, answer, {}, True)


CASES = [
    "the humblest priority: against the holder",
    found("it has had more than its share", start(), 39),
    found("a deadline of priority 39", holder(whole(15)), 39),
    found("of priority 20: less of the slice is left", holder(whole(1024)), 20),
    found("one less", holder(whole(1024) - 1), 19),
    found("one more than that of 19", holder(whole(1277) + 1), 19),
    found("of priority 0", holder(whole(88_761)), 0),
    none("earlier than any", holder(whole(88_761) - 1)),
    found("V and not its own time, which is less", holder(whole(1024) - 1).record(WRITER, vtime=TURN_VTIME - 1), 19),
    none("its own time, which is more: it is not within its share", holder(whole(15)).record(WRITER, vtime=TURN_VTIME + 1)),
    found("the priority that is stored does not matter", holder(whole(1024)).record(WRITER, prio=3), 20),
    "the humblest priority: against one that waits",
    found("a deadline of priority 20, and the smaller id", waiting(whole(1024)), 20),
    found("the same, and the larger id", waiting(whole(1024)), 19, context=5),
    found("one more", waiting(whole(1024) + 1), 20, context=5),
    none("earlier than any", waiting(whole(88_761) - 1)),
    found("who waits is blocked", waiting(0).record(OTHER, **BLOCKED), 39),
    found("idle in charge, and nobody waits", at_idle(), 39),
    found("on the other CPU", waiting(0), 39, cpu=1),
    "the humblest priority: untidy machines on which smaller numbers fail",
    found("36 to 39 work", twice(300_000_000), 39),
    found("21 to 39", twice(10_000_000), 39),
    none("none, where the other's second entry is behind all", twice(whole(15) + 8)),
    found("0 to 39, where it has had least", twice(300_000_000, vtime=5), 39),
    "the humblest priority: the local list",
    found("the context is on it already", start().local(0, WRITER), 39),
    found("63 names", at_idle().local(0, *[1] * (FULL - 1)), 39),
    none("64 names", at_idle().local(0, *[1] * FULL)),
    none("one before it that comes first", at_idle().local(0, OTHER).record(OTHER, prio=0), context=5),
    "the humblest priority: one that cannot run",
    none("blocked", start().record(WRITER, **BLOCKED)),
    found("blocked, with a timer that comes due", start().record(WRITER, has_wake=1, wake=TURN, **BLOCKED)
          .timers(0, (TURN, WRITER)), 39),
    none("read by another CPU", start().record(WRITER, **READ)),
    none("written by another CPU", start().record(WRITER, **WRITTEN)),
    none("its address space is written", start().record(WRITER, addr_space=2)),
    none("it may not run here", start().record(WRITER, sched_affinity=2)),
    none("no user context", start().record(WRITER, userspace=0)),
    none("current here, lent by the one in charge", lent()),
    "the humblest priority: idle contexts",
    found("idle, where nobody can run", blocked_holder(), 39, context=0),
    none("idle, where the holder can", start(), context=0),
    found("an absent CPU names nobody", absent(blocked_holder()), 39, context=0),
    "the humblest priority: a switch that is refused",
    none("6: the queue is locked", start().block(0, queue_locked=1)),
    none("6: the holder is read", start().record(2, **READ)),
    none("6: idle is written", start().record(0, **WRITTEN)),
    found("elapsed 2^52 - 1", start(), 39, time=LATE - 1),
    none("8: elapsed 2^52", start(), time=LATE),
    none("9: the queue is full", start().queue(0, *many(5))),
    none("9: no room for the holder", keyless()),
    "the humblest priority: 5",
    refused("queued here", waiting(10), 5, context=OTHER),
    refused("queued on the other CPU", victim(WRITER), 5),
    refused("the last entry of a full queue", start().queue(1, *many(5)[:-1], (WRITER, 1000, 0)), 5),
    refused("in charge here", start(), 5, context=2),
    refused("idle in charge here", at_idle(), 5, context=0),
    refused("in charge of the other CPU", start(), 5, context=1),
    refused("gone", start().gone(WRITER), 5),
    refused("not below N", start(), 5, context=6),
    refused("context 2^64 - 1", start(), 5, context=2**64 - 1),
    refused("CPU 2 of two", start(), 5, cpu=2),
    refused("CPU 2^64 - 1", start(), 5, cpu=2**64 - 1),
    refused("an absent CPU", absent(start()), 5, cpu=1),
    refused("in charge here, and every lock taken", start().block(0, queue_locked=1).record(2, **WRITTEN), 5, context=2),
    refused("the worked example", worked_example(), 5, time=2_250_000, context=1),
    "the humblest priority: 1 to 4",
    refused("no words", start(), 1, length=0),
    refused("one word", start(), 1, length=1),
    refused("one word more", start(), 2, length=start().length() + 1),
    *[refused(title, machine, number, **call) for title, machine, number, call in REFUSED if number <= 4],
    refused("priority 40, and the context is in charge", start().record(WRITER, prio=40), 3, context=2),
]

"""Cases of the image and of operations 4 to 7. The answers and changed words beside each case are worked out by hand
from document 01."""
from case import Case, Machine
from layout import ID_MAX, NUMBER_MAX, SLICE_MAX

SHAPE = Machine(2, 3)
LENGTH = SHAPE.length()

# Two CPUs whose idle contexts, 0 and 2, are current and in charge; context 1, the writer, runnable at priority 20.
EXAMPLE = (SHAPE.record(0, debug_id=7).record(1, debug_id=8, userspace=1, prio=20).record(2, debug_id=9)
           .block(0, present=1).block(1, present=1, current_ctxt=2, sched_ctxt=2, idle_ctxt=2).words)


def writer(**fields):
    return {SHAPE.of(1, field): value for field, value in fields.items()}


def on(cpu, **fields):
    return {SHAPE.on(cpu, field): value for field, value in fields.items()}


GONE = writer(gone=1, userspace=0, prio=0)
ABSENT = on(1, present=0, current_ctxt=0, sched_ctxt=0, idle_ctxt=0)
BLOCKED = writer(status=1)
DONE = (0, 1, 0, writer(status=1))


def queued(ident, weight=1024, context=1):
    fields = {"key.vd": 1, "key.rem_slice": 1, "key.ctxt_id": ident, "weight": weight, "context_ref": context}
    return {**on(0, queue_count=1), **{SHAPE.on(0, "queue[0]." + field): value for field, value in fields.items()}}


def timers(*pairs, cpu=0):
    slots = {SHAPE.on(cpu, "timers[%d].%s" % (slot, field)): value for slot, pair in enumerate(pairs)
             for field, value in zip(("wake", "context_ref"), pair)}
    return {**on(cpu, timers_count=len(pairs)), **slots}


def listed(cpu, name, count, *contexts, start=0):
    """The list of that name, its slots from `start` on being these contexts."""
    slots = {SHAPE.on(cpu, "%s[%d]" % (name, start + slot)): context for slot, context in enumerate(contexts)}
    return {SHAPE.on(cpu, count): start + len(contexts), **slots}


def local(cpu, *contexts, **more):
    return listed(cpu, "local_wakeup_list", "local_count", *contexts, **more)


def ipi(cpu, *contexts):
    return listed(cpu, "ipi_context_wakeup_list", "ipi_count", *contexts)


def drained(*contexts):
    """The interrupt list of CPU 0 after so many names were taken off it."""
    return {**ipi(0, *[0] * len(contexts)), **on(0, ipi_count=0)}


def case(title, changes, expected, operation=6, cpu=0, time=0, context=1, length=LENGTH):
    words = {place: word for place, word in {**EXAMPLE, **changes}.items() if place < length}
    refusal, result, interrupt, changed = expected
    return Case(title, (operation, cpu, time, context), length, words, (refusal, result, interrupt), changed, True)


def refused(number):
    return number, 0, 0, {}


CASES = [
    "refusal 1: fewer than 2 words, or a size out of bounds",
    case("no words", {}, refused(1), length=0),
    case("one word", {}, refused(1), length=1),
    case("no CPU", {0: 0}, refused(1)),
    case("five CPUs", {0: 5}, refused(1)),
    case("no context", {1: 0}, refused(1)),
    case("65 contexts", {1: 65}, refused(1)),
    "refusal 2: the length",
    case("one word less", {}, refused(2), length=LENGTH - 1),
    case("one word more", {}, refused(2), length=LENGTH + 1),
    case("64 contexts in a length of three", {1: 64}, refused(2)),
    case("a wrong length and priority 40", {0: 1, **writer(prio=40)}, refused(2)),
    "refusal 3: ranges",
    case("priority 39", writer(prio=39), DONE),
    case("priority 40", writer(prio=40), refused(3)),
    case("status 5", writer(status=5), (0, 0, 0, {})),
    case("status 6", writer(status=6), refused(3)),
    case("a mark of 2", writer(running=2), refused(3)),
    case("a 32-bit id", writer(debug_id=ID_MAX), DONE),
    case("an id over 32 bits", writer(debug_id=ID_MAX + 1), refused(3)),
    case("CPU word C", writer(cpu_id=2), DONE),
    case("CPU word C + 1", writer(cpu_id=3), refused(3)),
    case("a full slice", writer(rem_slice=SLICE_MAX), DONE),
    case("more than a full slice", writer(rem_slice=SLICE_MAX + 1), refused(3)),
    case("any mask", writer(sched_affinity=2**64 - 1), DONE),
    case("any steal counter", on(0, steal_counter=2**64 - 1), DONE),
    case("vtime 2^62 - 1", writer(vtime=NUMBER_MAX), DONE),
    case("vtime 2^62", writer(vtime=NUMBER_MAX + 1), refused(3)),
    case("a wake with its mark", writer(has_wake=1, wake=5), DONE),
    case("a wake without its mark", writer(wake=5), refused(3)),
    case("a key's deadline without its mark", writer(queue_key_vd=1), refused(3)),
    case("a key's slice without its mark", writer(queue_key_rem_slice=1), refused(3)),
    case("lock 3", writer(lock=3), refused(3)),
    case("state 3", on(0, state=3), refused(3)),
    case("count 65", on(0, queue_count=65), refused(3)),
    case("weight 14", queued(8, weight=14), refused(3)),
    case("weight 15", queued(8, weight=15), DONE),
    case("weight 88,761", queued(8, weight=88761), DONE),
    case("weight 88,762", queued(8, weight=88762), refused(3)),
    case("an entry of context N", queued(8, context=3), refused(3)),
    case("a word of an unused slot", {SHAPE.on(0, "queue[0].key.vd"): 1}, refused(3)),
    case("a word of an absent block", {**ABSENT, **on(1, v=1)}, refused(3)),
    case("a gone record with a word", {**GONE, **writer(vtime=1)}, refused(3)),
    case("time 2^62 - 1", {}, DONE, time=NUMBER_MAX),
    case("time 2^62", {}, refused(3), time=NUMBER_MAX + 1),
    "refusal 4: structure",
    case("ids that do not differ", writer(debug_id=7), refused(4)),
    case("such ids, one gone", {**GONE, **writer(debug_id=7)}, refused(4)),
    case("such ids, and priority 40", writer(debug_id=7, prio=40), refused(3)),
    case("one in charge that is gone", {**GONE, **on(0, sched_ctxt=1)}, refused(4)),
    case("context 0 gone, and an absent block, whose words are 0: it has no structure",
         {**ABSENT, SHAPE.of(0, "gone"): 1, **on(0, current_ctxt=2, sched_ctxt=2, idle_ctxt=2)}, DONE),
    case("an entry with its context's id", queued(8), DONE),
    case("an entry with another id", queued(9), refused(4)),
    case("an entry with an id over 32 bits", queued(2**32), refused(3)),
    case("two timers that rise", timers((5, 0), (5, 1)), DONE),
    case("two equal timers", timers((5, 1), (5, 1)), refused(4)),
    case("three timers of three contexts", timers((5, 2), (6, 1), (7, 0)), DONE),
    case("two timers of one context, neighbours", timers((5, 1), (6, 1)), refused(4)),
    case("with another between them", timers((5, 1), (6, 0), (7, 1)), refused(4)),
    case("with two between them, the first and the last", timers((4, 2), (5, 1), (6, 0), (7, 2)), refused(4)),
    case("two of a gone one", {**GONE, **timers((5, 1), (6, 0), (7, 1))}, refused(4), context=0),
    case("one of a gone one", {**GONE, **timers((5, 1), (6, 0))}, (0, 1, 0, {SHAPE.of(0, "status"): 1}), context=0),
    case("one in the set of each CPU", {**timers((5, 1)), **timers((6, 1), cpu=1)}, DONE),
    case("two in the set of the other CPU", timers((5, 1), (6, 0), (7, 1), cpu=1), refused(4)),
    case("two in an absent block, whose words are 0", {**ABSENT, **timers((5, 1), (6, 1), cpu=1)}, refused(3)),
    case("two timers of one context, and priority 40", {**timers((5, 1), (6, 1)), **writer(prio=40)}, refused(3)),
    case("two timers of one context, and no such CPU", timers((5, 1), (6, 1)), refused(4), cpu=2),
    "refusals 5 and 6: the CPU and the context",
    case("CPU 2 of two", {}, refused(5), cpu=2),
    case("CPU 2^64 - 1", {}, refused(5), cpu=2**64 - 1),
    case("an absent CPU", ABSENT, refused(5), cpu=1),
    case("context 3 of three", {}, refused(5), context=3),
    case("a gone context", GONE, refused(5)),
    case("a lock that is read", writer(lock=1), refused(6)),
    case("a lock that is written", writer(lock=2), refused(6)),
    case("no such CPU, and that lock", writer(lock=2), refused(5), cpu=2),
    case("ids that do not differ, and no such CPU", writer(debug_id=7), refused(4), cpu=2),
    "operations 6 and 7",
    case("block, runnable", {}, DONE),
    case("block, blocked", BLOCKED, (0, 0, 0, {})),
    case("hard_block, runnable", {}, (0, 1, 0, writer(status=2)), operation=7),
    case("hard_block, blocked", BLOCKED, (0, 0, 0, {}), operation=7),
    "operation 4",
    case("blocked", BLOCKED, (0, 1, 0, {**writer(status=0), **local(0, 1)}), operation=4),
    case("runnable already: listed too, and false", {}, (0, 0, 0, local(0, 1)), operation=4),
    case("its wake stays", {**BLOCKED, **writer(has_wake=1, wake=5)},
         (0, 1, 0, {**writer(status=0), **local(0, 1)}), operation=4),
    case("stopped", writer(status=2), (0, 0, 0, {}), operation=4),
    case("last on this CPU", {**BLOCKED, **writer(cpu_id=1)},
         (0, 1, 0, {**writer(status=0), **local(0, 1)}), operation=4),
    case("last on another CPU", {**BLOCKED, **writer(cpu_id=2)},
         (0, 1, 1, {**writer(status=0), **ipi(1, 1)}), operation=4),
    case("last on an absent CPU", {**ABSENT, **BLOCKED, **writer(cpu_id=2)},
         (0, 1, 0, {**writer(status=0), **local(0, 1)}), operation=4),
    case("63 names", {**BLOCKED, **local(0, *[1] * 63)},
         (0, 1, 0, {**writer(status=0), **local(0, 1, start=63)}), operation=4),
    case("64 names", {**BLOCKED, **local(0, *[1] * 64)}, refused(9), operation=4),
    case("64 names, stopped: no insertion", {**writer(status=2), **local(0, *[1] * 64)}, (0, 0, 0, {}), operation=4),
    case("64 local names, last on another CPU", {**BLOCKED, **writer(cpu_id=2), **local(0, *[1] * 64)},
         (0, 1, 1, {**writer(status=0), **ipi(1, 1)}), operation=4),
    case("64 names of that CPU", {**BLOCKED, **writer(cpu_id=2), **ipi(1, *[1] * 64)}, refused(9), operation=4),
    "operation 5",
    case("nothing to drain", {}, (0, 0, 0, {}), operation=5),
    case("the context is ignored", {}, (0, 0, 0, {}), operation=5, context=99),
    case("two names behind one", {**local(0, 1), **ipi(0, 2, 1)},
         (0, 0, 0, {**local(0, 2, 1, start=1), **drained(2, 1)}), operation=5),
    case("one name behind 63", {**local(0, *[1] * 63), **ipi(0, 1)},
         (0, 0, 0, {**local(0, 1, start=63), **drained(1)}), operation=5),
    case("one name behind 64", {**local(0, *[1] * 64), **ipi(0, 1)}, refused(9), operation=5),
    case("none behind 64", local(0, *[1] * 64), (0, 0, 0, {}), operation=5),
]


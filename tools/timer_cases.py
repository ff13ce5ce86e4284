"""Due timers whose context cannot be read (document 02, No. 2), and beside them those that can. Beside each case stands
what is said of its answer: the timers here after the call, in their order, and who is woken."""
from case import Case
from refused_cases import FULL, READ, WRITTEN
from switch_cases import BLOCKED, SHAPE, TURN, TURN_VTIME, at_idle, lent, of, on, start

LATER = 9_000_000  # not due
SOON = TURN + 1  # the last that is due


def asleep(machine, context, wake=TURN, **lock):
    """The context waits for this wake."""
    return machine.record(context, **BLOCKED, has_wake=1, wake=wake, **lock)


def awake(context):
    return {of(context, "status"): 0, of(context, "has_wake"): 0, of(context, "wake"): 0}


def sleeps(context, wake=TURN):
    return {of(context, "status"): 1, of(context, "has_wake"): 1, of(context, "wake"): wake}


def left(*timers, shape=SHAPE):
    """The set of CPU 0 after the call; the slot behind its last is empty."""
    words = {shape.on(0, "timers_count"): len(timers)}
    for slot, (wake, context) in enumerate(timers + ((0, 0),)[:FULL - len(timers)]):
        words |= {shape.on(0, "timers[%d].wake" % slot): wake, shape.on(0, "timers[%d].context_ref" % slot): context}
    return words


def case(title, machine, result, after, operation=2, time=TURN, context=0, whole=False):
    call = (operation, 0, time, context)
    return Case(title, call, machine.length(), machine.words, (0, result, 0), after, whole)


# The holder, alone, runs on: charged for its turn, V moved to its vtime and then by the turn over its weight.
STAYS = {on(0, "sched_ctxt"): 2, of(2, "vtime"): TURN_VTIME, on(0, "v"): 2 * TURN_VTIME}
# The woken one is eligible, the holder late: it is queued, and V gains the turn's ticks over the weight of both.
WINS = {on(0, "v"): TURN_VTIME // 2, of(2, "has_queue_key"): 1}
LEAVES = {on(0, "sched_ctxt"): 0, of(2, "is_active"): 0}

CASES = [
    "due timers: of a context that another CPU writes",
    case("it goes back into the set, the context sleeps on",
         asleep(start(), 3, **WRITTEN).timers(0, (TURN, 3)), 2, left((TURN, 3)) | sleeps(3) | STAYS),
    case("due at the time + 1", asleep(start(), 3, SOON, **WRITTEN).timers(0, (SOON, 3)), 2,
         left((SOON, 3)) | sleeps(3, SOON) | STAYS),
    case("though the context has another wake", asleep(start(), 3, LATER, **WRITTEN).timers(0, (TURN, 3)), 2,
         left((TURN, 3)) | sleeps(3, LATER) | STAYS),
    case("though the context is runnable", start().record(3, **WRITTEN).timers(0, (TURN, 3)), 2,
         left((TURN, 3)) | STAYS),
    case("before those that are not due",
         asleep(start(), 3, **WRITTEN).timers(0, (TURN, 3), (TURN + 2, 2), (LATER, 4)), 2,
         left((TURN, 3), (TURN + 2, 2), (LATER, 4)) | STAYS),
    "due timers: of the one in charge here",
    case("the holder runs on while its timer is due", start().timers(0, (TURN, 2)), 2, left((TURN, 2)) | STAYS),
    case("the holder stops, with that wake", asleep(start(), 2).timers(0, (TURN, 2)), 1,
         left((TURN, 2)) | sleeps(2) | LEAVES),
    case("with another wake, which supersedes it", asleep(start(), 2, LATER).timers(0, (TURN, 2)), 1,
         left((LATER, 2)) | sleeps(2, LATER) | LEAVES),
    case("with none", start().record(2, **BLOCKED).timers(0, (TURN, 2)), 1, left((TURN, 2)) | LEAVES),
    case("idle in charge", at_idle().timers(0, (TURN, 0)), 2, left((TURN, 0)) | {on(0, "sched_ctxt"): 0}),
    case("and it is left for another", at_idle().queue(0, (3, 10, 0)).timers(0, (TURN, 0)), 1,
         left((TURN, 0)) | {on(0, "sched_ctxt"): 3}),
    "due timers: of one that can be read, as before",
    case("lock 0: served", asleep(start(), 3).timers(0, (TURN, 3)), 1,
         left() | awake(3) | WINS | {on(0, "sched_ctxt"): 3}),
    case("lock 0, another wake: dropped", asleep(start(), 3, LATER).timers(0, (TURN, 3)), 2,
         left() | sleeps(3, LATER) | STAYS),
    case("lock 1: the source itself puts it back", asleep(start(), 3, **READ).timers(0, (TURN, 3)), 2,
         left((TURN, 3)) | sleeps(3) | STAYS),
    case("lock 1, another wake: dropped", asleep(start(), 3, LATER, **READ).timers(0, (TURN, 3)), 2,
         left() | sleeps(3, LATER) | STAYS),
    case("lock 1, runnable: dropped", start().record(3, **READ).timers(0, (TURN, 3)), 2, left() | STAYS),
    case("the current one that is not in charge: served",
         asleep(lent().record(2, **BLOCKED), 3).timers(0, (TURN, 3)), 1,
         left() | awake(3) | {on(0, "sched_ctxt"): 3, on(0, "current_ctxt"): 3}),
    case("idle that is not in charge: dropped", start().timers(0, (TURN, 0)), 2, left() | STAYS),
    case("one in charge of another CPU: dropped", start().timers(0, (TURN, 1)), 2, left() | STAYS),
    case("a gone one: dropped", start().timers(0, (TURN, 3)).gone(3), 2, left() | STAYS),
    "due timers: several",
    case("two unreadable ones and a readable one between them",
         asleep(asleep(asleep(start(), 3, TURN - 2, **WRITTEN), 4, TURN - 1), 5, **WRITTEN)
         .timers(0, (TURN - 2, 3), (TURN - 1, 4), (TURN, 5)), 1,
         left((TURN - 2, 3), (TURN, 5)) | sleeps(3, TURN - 2) | awake(4) | sleeps(5) | WINS | {on(0, "sched_ctxt"): 4}),
    case("a gone one between them",
         asleep(start(), 3, **WRITTEN).timers(0, (TURN - 2, 2), (TURN - 1, 4), (TURN, 3)).gone(4), 2,
         left((TURN - 2, 2), (TURN, 3)) | sleeps(3) | STAYS),
    "due timers: other calls",
    case("a due tick", start().block(0, pit_ticks=2).timers(0, (TURN, 2)), 2, left((TURN, 2)) | STAYS, operation=1),
    case("a direct switch that cannot be made", start().record(4, **BLOCKED).timers(0, (TURN, 2)), 2,
         left((TURN, 2)) | STAYS, operation=3, context=4),
    case("an undue tick looks at none", start().timers(0, (TURN, 2), (TURN, 3)), 0, {on(0, "pit_ticks"): 1},
         operation=1, whole=True),
    case("nor does a direct switch back", lent().timers(0, (TURN, 2), (TURN, 4)), 1,
         left((TURN, 2), (TURN, 4)) | {on(0, "current_ctxt"): 2}),
    case("the timers of another CPU stay", start().timers(1, (1, 2), (2, 3)), 2,
         {on(1, "timers_count"): 2} | STAYS),
]

"""A timer put in removes every other timer of its context on that CPU (document 02, No. 4). Beside each case stands what
is said of its answer: the timers here after the call, in their order."""
from refused_cases import FULL, READ, WRITTEN
from switch_cases import BLOCKED, TURN, at_idle, lent, of, on, start
from timer_cases import LATER, LEAVES, SOON, STAYS, asleep, case, left, sleeps

FAR = 2**40  # later than LATER
NEXT = TURN + 2  # the first that is not due
STOPPED = dict(status=2)


def stops(wake=LATER, machine=None):
    """The holder has stopped with this wake."""
    return asleep(machine or start(), 2, wake)


def superseded(title, timers, after, wake=LATER, **call):
    """The holder stops with this wake; idle comes in charge."""
    return case(title, stops(wake).timers(0, *timers), 1, left(*after) | sleeps(2, wake) | LEAVES, **call)


# 64 contexts, of which each has a timer; context 3 is blocked, so that a direct switch to it is a decision.
WIDE = start(FULL).record(3, **BLOCKED)


def all_but(*own):
    """64 timers that are not due, but for these."""
    others = [context for context in range(FULL) if context not in [context for _, context in own]]
    return tuple(sorted([*own, *[(FAR + context, context) for context in others]]))


def wide(title, timers, after, machine=None, result=1, operation=2):
    machine = (machine or stops(machine=WIDE)).block(0, pit_ticks=2).timers(0, *timers)
    return case(title, machine, result, left(*after, shape=WIDE), operation=operation, context=3)


CASES = [
    "the newest timer: of a holder that stops with a wake",
    superseded("a due timer 1000, and wake 5000", [(1000, 2)], [(5000, 2)], 5000, time=2000),
    superseded("due at the time + 1", [(SOON, 2)], [(LATER, 2)]),
    superseded("not due, and earlier", [(NEXT, 2)], [(LATER, 2)]),
    superseded("later than the new wake", [(FAR, 2)], [(LATER, 2)]),
    superseded("not due, and a wake that has passed", [(LATER, 2)], [(1, 2)], 1),
    superseded("earlier, and a wake that has passed", [(1, 2)], [(2, 2)], 2),
    superseded("that wake itself, not due: once", [(LATER, 2)], [(LATER, 2)]),
    superseded("that wake itself, due: once", [(SOON, 2)], [(SOON, 2)], SOON),
    superseded("no other timer", [], [(LATER, 2)]),
    superseded("timers of others stay, of that wake too", [(NEXT, 2), (NEXT, 4), (LATER, 1), (LATER, 3), (FAR, 5)],
               [(NEXT, 4), (LATER, 1), (LATER, 2), (LATER, 3), (FAR, 5)]),
    superseded("and where it moves to the front", [(NEXT, 4), (LATER, 3), (FAR, 2)], [(1, 2), (NEXT, 4), (LATER, 3)], 1),
    superseded("or to the end", [(NEXT, 2), (LATER, 3), (FAR, 4)], [(LATER, 3), (FAR, 4), (FAR + 1, 2)], FAR + 1),
    case("a hard block too", stops().record(2, **STOPPED).timers(0, (NEXT, 2)), 1, left((LATER, 2)) | LEAVES),
    "the newest timer: where none is put in, none is removed",
    case("a holder that stops without a wake", start().record(2, **BLOCKED).timers(0, (LATER, 2)), 1,
         left((LATER, 2)) | LEAVES),
    case("one that runs on, and has a wake", start().record(2, has_wake=1, wake=LATER).timers(0, (NEXT, 2)), 2,
         left((NEXT, 2)) | STAYS),
    case("idle in charge, blocked with a wake", asleep(at_idle(), 0, LATER).timers(0, (NEXT, 0)), 2, left((NEXT, 0))),
    case("an undue tick", stops().timers(0, (NEXT, 2)), 0, {on(0, "pit_ticks"): 1}, operation=1, whole=True),
    case("a direct switch back", lent().record(2, has_wake=1, wake=LATER).timers(0, (NEXT, 2)), 1,
         left((NEXT, 2)) | {on(0, "current_ctxt"): 2}),
    case("block stores no timer", start().record(2, has_wake=1, wake=LATER).timers(0, (NEXT, 2)), 1,
         {of(2, "status"): 1}, operation=6, context=2, whole=True),
    "the newest timer: other calls, other sets",
    case("a due tick", stops().block(0, pit_ticks=2).timers(0, (NEXT, 2)), 1, left((LATER, 2)) | LEAVES, operation=1),
    case("a direct switch that cannot be made", stops().record(4, **BLOCKED).timers(0, (NEXT, 2)), 1,
         left((LATER, 2)) | LEAVES, operation=3, context=4),
    case("one lent the CPU is left too", stops(machine=lent()).timers(0, (NEXT, 2)), 1,
         left((LATER, 2)) | {on(0, "sched_ctxt"): 0, on(0, "current_ctxt"): 0}),
    case("that of another CPU stays", stops().timers(0, (NEXT, 2)).timers(1, (1, 2), (LATER, 3)), 1,
         left((LATER, 2)) | LEAVES | {on(1, "timers_count"): 2, on(1, "timers[0].wake"): 1,
                                      on(1, "timers[0].context_ref"): 2, on(1, "timers[1].wake"): LATER}),
    "the newest timer: what goes back removes none",
    case("lock 1, and the holder's timer", asleep(stops(), 3, **READ).timers(0, (TURN, 3), (NEXT, 2)), 1,
         left((TURN, 3), (LATER, 2)) | sleeps(3) | LEAVES),
    case("lock 1, and a timer of it on another CPU", asleep(start(), 3, **READ).timers(0, (TURN, 3)).timers(1, (LATER, 3)),
         2, left((TURN, 3)) | sleeps(3) | STAYS | {on(1, "timers_count"): 1, on(1, "timers[0].wake"): LATER}),
    case("lock 2, and the holder's timer, due", asleep(stops(), 3, **WRITTEN).timers(0, (TURN, 2), (TURN, 3)), 1,
         left((TURN, 3), (LATER, 2)) | sleeps(3) | LEAVES),
    "the newest timer: 64 timers of 64 contexts",
    *[wide("of another wake: " + name, all_but((NEXT, 2)), all_but((LATER, 2)), operation=operation)
      for operation, name in ((1, "tick"), (2, "switch"), (3, "direct_switch_to"))],
    wide("of a later wake", all_but((2 * FAR, 2)), all_but((LATER, 2))),
    wide("due", all_but((TURN, 2)), all_but((LATER, 2))),
    wide("of just its wake", all_but((LATER, 2)), all_but((LATER, 2))),
    wide("a holder that runs on", all_but((LATER, 2)), all_but((LATER, 2)), WIDE, 2),
    wide("a holder that stops without a wake", all_but((LATER, 2)), all_but((LATER, 2)), WIDE.record(2, **BLOCKED)),
    wide("one of them due and written", all_but((NEXT, 2), (TURN, 4)), all_but((LATER, 2), (TURN, 4)),
         stops(machine=asleep(WIDE, 4, **WRITTEN))),
    wide("one of them due and read", all_but((NEXT, 2), (TURN, 4)), all_but((LATER, 2), (TURN, 4)),
         stops(machine=asleep(WIDE, 4, **READ))),
    wide("one of them due and gone", all_but((NEXT, 2), (TURN, 4)), all_but((LATER, 2), (TURN, 4))[1:],
         stops(machine=WIDE).timers(0, *all_but((NEXT, 2), (TURN, 4))).gone(4)),
]

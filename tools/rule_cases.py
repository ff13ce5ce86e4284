"""The rule of each decision (document 02, No. 3). Beside each case stands its rule and who is in charge after it,
worked out by hand from document 01's steps: after its charge the holder, context 2, has the deadline 1000, two thirds of
its slice, and a virtual time of a turn, or V where that is later."""
from case import Case
from group_cases import group, listed, start as blocked, woken
from layout import SLICE_MAX
from refused_cases import full_queue
from switch_cases import BLOCKED, TURN, TURN_VTIME, at_idle, lent, on, start, victim

DEADLINE, LEFT = 1000, SLICE_MAX - 3 * 2**30
V = 2 * TURN_VTIME  # so late that a holder that begins at 0 is eligible after its turn


def eligible():
    """The holder will be eligible."""
    return start().block(0, v=V)


def slice_left(machine, context, rest):
    """The one entry of CPU 0 is of this context, with so much left of its slice."""
    machine = machine.record(context, rem_slice=rest, queue_key_rem_slice=rest)
    return machine.put({on(0, "queue[0].key.rem_slice"): rest})


def stopped(machine):
    """The holder has stopped, on a turn that steals."""
    return machine.record(2, **BLOCKED).block(0, steal_counter=16)


def steals(machine, *more):
    """CPU 1 has contexts 4 and 5 to give, of which this turn takes the first."""
    return machine.block(0, steal_counter=16).queue(1, (4, 10, 0), (5, 20, 0), *more)


def in_charge(context):
    return {on(0, "sched_ctxt"): context, on(0, "context_switches"): 1}


# Result and who is in charge: the holder stays, idle does.
HOLDER, IDLE = (2, in_charge(2)), (2, in_charge(0))
# What is left of the two entries.
ROBBED = {on(1, "queue_count"): 1, on(1, "queue[0].context_ref"): 5}


def won(context):
    """A context is put in charge."""
    return 1, in_charge(context)


def case(title, machine, rule, end, after=None, operation=2, context=0):
    result, words = end
    call = (operation, 0, TURN, context)
    return Case(title, call, machine.length(), machine.words, (0, result, 0), words | (after or {}), False, rule)


def nothing(title, machine, operation, result=1, context=0):
    """A call that makes no decision."""
    call = (operation, 0, TURN, context)
    return Case(title, call, machine.length(), machine.words, (0, result, 0), {on(0, "context_switches"): 0}, False, 0)


CASES = [
    "rule 1: the first eligible entry",
    case("the holder is late", start().queue(0, (3, 2000, 0)), 1, won(3)),
    case("of two the first in key order", start().queue(0, (3, 10, 1), (4, 20, 0), (5, 30, 0)), 1, won(4)),
    case("idle in charge", at_idle().queue(0, (3, 10, 0)), 1, won(3)),
    case("the holder is eligible, its deadline later", eligible().queue(0, (3, DEADLINE - 1, 0)), 1, won(3)),
    case("deadlines and slices are equal", slice_left(eligible().queue(0, (3, DEADLINE, 0)), 3, LEFT), 1, won(3)),
    case("deadlines are equal, the entry has more slice", eligible().queue(0, (3, DEADLINE, 0)), 1, won(3)),
    case("a due tick", eligible().block(0, pit_ticks=2).queue(0, (3, 10, 0)), 1, won(3), operation=1),
    case("a direct switch that cannot be made", start().record(4, **BLOCKED).queue(0, (3, 10, 0)), 1, won(3),
         operation=3, context=4),
    "rule 2: the holder by its deadline",
    case("before an eligible entry", eligible().queue(0, (3, DEADLINE + 1, 0)), 2, HOLDER),
    case("an entry before it is late", eligible().queue(0, (4, 10, V + 1), (3, DEADLINE + 1, 0)), 2, HOLDER),
    "rule 3: the holder by its slice",
    case("one more left than the entry has", slice_left(eligible().queue(0, (3, DEADLINE, 0)), 3, LEFT - 1), 3, HOLDER),
    case("the entry has none", slice_left(eligible().queue(0, (3, DEADLINE, 0)), 3, 0), 3, HOLDER),
    "rule 4: the holder alone eligible",
    case("nobody else waits", eligible(), 4, HOLDER),
    case("an entry of an earlier deadline is late", eligible().queue(0, (3, 10, V + 1)), 4, HOLDER),
    case("an eligible entry is not ready", eligible().queue(0, (3, 10, 0)).record(3, sched_affinity=2), 4, HOLDER),
    "rule 5: the holder by its virtual time",
    case("nobody else waits", start(), 5, HOLDER),
    case("an entry of the same virtual time and an earlier deadline", start().queue(0, (3, 10, TURN_VTIME)), 5, HOLDER),
    case("an entry of a later one", start().queue(0, (3, 10, TURN_VTIME + 1)), 5, HOLDER),
    case("and by its deadline too: 5, not 6", start().queue(0, (3, DEADLINE + 1, TURN_VTIME)), 5, HOLDER),
    case("an entry of a smaller one is not ready", start().queue(0, (3, 10, 200)).record(3, lock=1), 5, HOLDER),
    "rule 6: the holder by its deadline, nobody eligible",
    case("an entry of a smaller virtual time and a later deadline", start().queue(0, (3, DEADLINE + 1, 200)), 6,
         HOLDER),
    case("the deadlines are equal", start().queue(0, (3, DEADLINE, 200)), 6, HOLDER),
    case("of the least virtual time the first", start().queue(0, (3, 10, 300), (4, DEADLINE, 200), (5, 2000, 200)), 6,
         HOLDER),
    "rule 7: the entry of the least virtual time",
    case("its deadline is earlier", start().queue(0, (3, DEADLINE - 1, 200)), 7, won(3)),
    case("of the least virtual time the first", start().queue(0, (3, 10, 300), (4, 20, 200), (5, 30, 200)), 7, won(4)),
    case("idle in charge", at_idle().queue(0, (3, 10, 5)), 7, won(3)),
    case("the holder has stopped", start().record(2, **BLOCKED).queue(0, (3, 10, 5)), 7, won(3)),
    "rule 8: stolen",
    case("idle in charge", at_idle().block(0, steal_counter=2).queue(1, (3, 10, 0)), 8, won(3),
         {on(1, "queue_count"): 0}),
    case("the holder has stopped", stopped(steals(start())), 8, won(4), ROBBED),
    case("an entry here is not ready", steals(at_idle().queue(0, (3, 10, 0)).record(3, sched_affinity=2)), 8, won(4),
         ROBBED),
    case("the own idle context, queued elsewhere", stopped(start().queue(1, (0, 10, 0), (3, 20, 0))), 8, won(0),
         {on(1, "queue_count"): 1, on(1, "queue[0].context_ref"): 3}),
    "a theft beside a winner or a runnable holder is not 8",
    case("the first eligible entry won", steals(start().queue(0, (3, 10, 0))), 1, won(3), ROBBED),
    case("from idle", steals(at_idle().queue(0, (3, 10, 0))), 1, won(3), ROBBED),
    case("the holder alone eligible", steals(eligible()), 4, HOLDER, ROBBED),
    case("the holder by its virtual time", victim(3, 4), 5, HOLDER, {on(1, "queue_count"): 1, on(0, "queue_count"): 1}),
    case("the holder by its deadline", steals(eligible().queue(0, (3, DEADLINE + 1, 0)), (5, 30, 0)), 2, HOLDER,
         {on(1, "queue_count"): 2, on(0, "queue_count"): 2}),
    case("with nobody eligible", steals(start().queue(0, (3, DEADLINE, 200)), (5, 30, 0)), 6, HOLDER,
         {on(1, "queue_count"): 2, on(0, "queue_count"): 2}),
    case("the entry of the least virtual time won", steals(start().queue(0, (3, 10, 200))), 7, won(3), ROBBED),
    "rule 9: idle",
    case("it stays: AllContextsIdle", at_idle(), 9, IDLE),
    case("it is put in charge: Switched", start().record(2, **BLOCKED), 9, won(0)),
    case("there is somebody to steal, on a turn that does not", at_idle().queue(1, (3, 10, 0)), 9, IDLE,
         {on(1, "queue_count"): 1}),
    case("a stealing turn finds nobody it may take",
         stopped(start().queue(1, (3, 10, 0), (4, 20, 0)).record(3, lock=1).record(4, sched_affinity=2)), 9, won(0),
         {on(1, "queue_count"): 2}),
    case("the entry here is of a context that is written", at_idle().queue(0, (3, 10, 0)).record(3, lock=2), 9, IDLE),
    "untidy machines: by what the scan found",
    case("2 by the entry's record, not its key", eligible().queue(0, (3, 10, 0)).record(3, vd=DEADLINE + 1), 2, HOLDER),
    case("3 too", eligible().queue(0, (3, 10, 0)).record(3, vd=DEADLINE, rem_slice=LEFT - 1), 3, HOLDER),
    case("1 though the key is later", eligible().queue(0, (3, DEADLINE + 1, 0)).record(3, vd=10), 1, won(3)),
    case("6 by the key", start().queue(0, (3, DEADLINE, 200)).record(3, vd=10), 6, HOLDER),
    case("7 though the record is later", start().queue(0, (3, 10, 200)).record(3, vd=DEADLINE + 1), 7, won(3)),
    case("an eligible entry of a context that the scan has locked as late: 7",
         start().block(0, v=100).queue(0, (3, 10, 200), (3, 20, 50)), 7, won(3)),
    "no decision: 0",
    nothing("a direct switch back", lent(), 2),
    nothing("in a due tick", lent().block(0, pit_ticks=2), 1),
    nothing("after a direct switch that could not be", lent().record(4, **BLOCKED), 3, context=4),
    nothing("a direct switch", start().queue(0, (3, 10, 0)), 3, context=3),
    nothing("to the current context", start(), 3, context=2),
    nothing("an undue tick", start().queue(0, (3, 10, 0)), 1, result=0),
    nothing("operation 4", start().record(3, **BLOCKED), 4, context=3),
    nothing("operation 5", start(), 5, result=0),
    nothing("operation 6", start(), 6, context=3),
    nothing("operation 7", start(), 7, context=3),
    group("a group", blocked(), [1, 2], 2, 0, woken(1, 2), listed(1, 2))._replace(rule=0),
    Case("a refused switch: 9", (2, 0, TURN, 0), full_queue().length(), full_queue().words, (9, 0, 0), {}, True, 0),
    Case("8", (2, 0, 2**52, 0), start().length(), start().words, (8, 0, 0), {}, True, 0),
]

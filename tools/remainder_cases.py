"""Cases of the carried remainder (document 02, No. 8). Ticks and remainders beside each case are worked out by hand:
1 ns is 2^30 = 477·2,250,000 + 491,824, and 3,375,000 ns are one and a half ticks, 1,610,612,736 in their scale, with
nothing left over. All other cases have a remainder of 0."""
from case import Case
from group_cases import group, listed, refused as group_refused, start as blocked, woken
from layout import NUMBER_MAX, REMAINDER_MAX, SLICE_MAX, TURN_MAX
from refused_cases import full_local, full_queue, keyless
from switch_cases import BLOCKED, TURN, at_idle, lent, of, on, start, victim
from weight_cases import refused as weight_refused, start as weighed, total

NANOS_PER_TICK = REMAINDER_MAX + 1
NS = 2**30 % NANOS_PER_TICK  # what 1 ns leaves
TO_A_TICK = NANOS_PER_TICK - NS  # with it, 1 ns is 478 ticks and leaves nothing
HALVES = 3_375_000, 1_610_612_736  # the least turn that is no yield, and its ticks
HERE = on(0, "remainder")


def left(elapsed, carried):
    return (elapsed * 2**30 + carried) % NANOS_PER_TICK


def carries(machine, remainder=777):
    """Something on the other CPU too: it stays."""
    return machine.block(0, remainder=remainder).block(1, remainder=5)


def case(title, machine, result, after, operation=2, time=1, context=0, whole=False, rule=None):
    call = (operation, 0, time, context)
    after = after if whole else {on(1, "remainder"): machine.words.get(on(1, "remainder"), 0), **after}
    return Case(title, call, machine.length(), machine.words, (0, result, 0), after, whole, rule)


def turns(title, machine, result, after):
    """Five turns of 1 ns, each with what the last one left: 5·2^30 = 2,386·2,250,000 + 209,120."""
    carried = [NS * turn % NANOS_PER_TICK for turn in range(6)]
    assert carried[5] == 209_120
    return [case("%s, turn %d" % (title, turn + 1),
                 machine(turn).block(0, schedule_time=turn, remainder=carried[turn]), result,
                 {HERE: carried[turn + 1], **after(turn)}, time=turn + 1) for turn in range(5)]


def charged(title, carried, remainder, ticks, elapsed=HALVES[0] + 1):
    """The holder alone, with a whole slice."""
    return case(title, carries(start(), carried), 2,
                {HERE: remainder, of(2, "rem_slice"): SLICE_MAX - ticks, of(2, "vtime"): ticks // 1024},
                time=elapsed)


def holder(turn):
    """It has nothing left of its slice, and is eligible: V gains all ticks, by a total weight of 1."""
    return start().record(2, rem_slice=0).block(0, v=[0, 477, 954, 1431, 1908][turn], total_weight=1)


def kept(title, machine, result, changed, operation, context=0, time=TURN):
    """No decision: the words that change, and the remainder is none of them."""
    return case(title, carries(machine), result, changed, operation, time, context, True, 0)


def stays(title, machine, result, operation, context=0):
    return case(title, carries(machine), result, {HERE: 777, on(0, "context_switches"): 0}, operation, TURN, context,
                rule=0)


def refused(title, machine, refusal, operation=2, cpu=0, time=TURN, context=3):
    return Case(title, (operation, cpu, time, context), machine.length(), machine.words, (refusal, 0, 0), {}, True)


def absent():
    return start().block(1, present=0, current_ctxt=0, sched_ctxt=0, idle_ctxt=0, steal_counter=0)


CASES = [
    "the carried remainder: five turns of 1 ns",
    *turns("idle stays", lambda turn: at_idle(), 2, lambda turn: {on(0, "v"): 0, on(0, "sched_ctxt"): 0}),
    *turns("the holder stays, V gains 2,386 in all", holder, 2,
           lambda turn: {on(0, "v"): [477, 954, 1431, 1908, 2386][turn], on(0, "sched_ctxt"): 2}),
    "the carried remainder: one tick more",
    charged("nothing carried", 0, NS, HALVES[1] + 477),
    charged("777", 777, NS + 777, HALVES[1] + 477),
    charged("one less than a tick needs", TO_A_TICK - 1, REMAINDER_MAX, HALVES[1] + 477),
    charged("just what a tick needs", TO_A_TICK, 0, HALVES[1] + 478),
    charged("2,249,999", REMAINDER_MAX, NS - 1, HALVES[1] + 478),
    # 1,610,914,815 = 1,573,158·1024 + 1023, and 824,592 over: with 1,425,408 it is 1,573,159·1024.
    case("one of virtual time and of V too", carries(start(), 1_425_408), 2,
         {HERE: 0, of(2, "vtime"): 1_573_159, on(0, "v"): 2 * 1_573_159, of(2, "rem_slice"): SLICE_MAX - 1_610_914_816},
         time=3_375_633),
    case("not with one less", carries(start(), 1_425_407), 2,
         {HERE: REMAINDER_MAX, of(2, "vtime"): 1_573_158, on(0, "v"): 2 * 1_573_158,
          of(2, "rem_slice"): SLICE_MAX - 1_610_914_815}, time=3_375_633),
    case("the slice is used up by it", carries(start().record(2, rem_slice=HALVES[1] + 478), TO_A_TICK), 2,
         {HERE: 0, of(2, "rem_slice"): SLICE_MAX}, time=HALVES[0] + 1),
    case("and is not without", carries(start().record(2, rem_slice=HALVES[1] + 478), TO_A_TICK - 1), 2,
         {HERE: REMAINDER_MAX, of(2, "rem_slice"): 1}, time=HALVES[0] + 1),
    case("a yield goes by nanoseconds", carries(start(), REMAINDER_MAX), 2,
         {HERE: left(HALVES[0] - 1, REMAINDER_MAX), of(2, "rem_slice"): SLICE_MAX}, time=HALVES[0] - 1),
    case("no time, 2,249,999: no tick", carries(start(), REMAINDER_MAX), 2, {HERE: REMAINDER_MAX}, time=0),
    case("a clock gone back", carries(start()).block(0, schedule_time=5), 2,
         {HERE: 777, on(0, "schedule_time"): 4}, time=4),
    case("elapsed 2^52 - 1", carries(start(), REMAINDER_MAX), 2, {HERE: left(TURN_MAX, REMAINDER_MAX)}, time=TURN_MAX),
    "the carried remainder: every decision stores it",
    case("an entry wins from idle", carries(at_idle().queue(0, (3, 10, 0)).block(0, total_weight=1), TO_A_TICK), 1,
         {HERE: 0, on(0, "v"): 478}, rule=1),
    case("the holder loses", carries(start().queue(0, (3, 10, 0)), TO_A_TICK), 1, {HERE: 0, on(0, "sched_ctxt"): 3},
         rule=1),
    case("the holder has stopped", carries(start().record(2, **BLOCKED)), 1, {HERE: NS + 777, on(0, "v"): 0}, rule=9),
    case("it has stopped, and an entry wins",
         carries(start().queue(0, (3, 10, 0)).record(2, **BLOCKED).block(0, total_weight=1025), TO_A_TICK), 1,
         {HERE: 0, on(0, "total_weight"): 1, on(0, "v"): 478}, rule=1),
    case("idle in charge is not charged, and stores it", carries(at_idle().record(0, rem_slice=9)), 2,
         {HERE: NS + 777, of(0, "rem_slice"): 9, of(0, "vtime"): 0}, rule=9),
    case("a total weight of 0", carries(start().block(0, total_weight=0).record(2, rem_slice=0), TO_A_TICK), 2,
         {HERE: 0, on(0, "v"): 0}),
    case("stolen", carries(at_idle().block(0, steal_counter=2).queue(1, (3, 10, 0))), 1,
         {HERE: NS + 777, on(0, "sched_ctxt"): 3}, rule=8),
    case("the holder stays beside a theft", carries(victim(3, 4)), 2, {HERE: NS + 777, on(1, "queue_count"): 1}),
    case("a due tick", carries(start().block(0, pit_ticks=2)), 2, {HERE: NS + 777}, operation=1),
    case("a direct switch that cannot be made", carries(start().record(3, **BLOCKED)), 2, {HERE: NS + 777},
         operation=3, context=3),
    case("lent, and the one in charge has stopped", carries(lent().record(2, **BLOCKED)), 1, {HERE: NS + 777}),
    "the carried remainder: calls that leave it",
    kept("an undue tick", start(), 0, {on(0, "pit_ticks"): 1}, 1),
    kept("a direct switch to the current context", start(), 1, {}, 3, context=2),
    stays("a direct switch", start(), 1, 3, context=3),
    stays("a direct switch back", lent(), 1, 2),
    stays("in a due tick", lent().block(0, pit_ticks=2), 1, 1),
    stays("after a direct switch that could not be", lent().record(4, **BLOCKED), 1, 3, context=4),
    kept("operation 4", start().record(3, **BLOCKED), 1,
         {of(3, "status"): 0, on(0, "local_count"): 1, on(0, "local_wakeup_list[0]"): 3}, 4, context=3),
    kept("operation 5", start(), 0, {}, 5),
    kept("operation 6", start(), 1, {of(3, "status"): 1}, 6, context=3),
    kept("operation 7", start(), 1, {of(3, "status"): 2}, 7, context=3),
    group("a group", carries(blocked()), [1, 2], 2, 0, woken(1, 2), listed(1, 2)),
    total("a sum of weights", carries(weighed()), 1024),
    "the carried remainder: refused calls leave it",
    refused("5: no such CPU", carries(start()), 5, cpu=2),
    refused("6: the queue", carries(start().block(0, queue_locked=1)), 6),
    refused("7: from idle", carries(at_idle()), 7, 3),
    refused("8: a turn over 2^52 - 1", carries(start(), REMAINDER_MAX), 8, time=TURN_MAX + 1),
    refused("9: the queue, by a wake-up", carries(full_queue()), 9),
    refused("9: the queue, by the holder", carries(keyless()), 9),
    refused("9: the local list", carries(full_local(), REMAINDER_MAX), 9, 3, context=3),
    "the carried remainder: its range",
    case("2,249,999", carries(at_idle(), REMAINDER_MAX), 2, {HERE: NS - 1}),
    refused("2,250,000", carries(start(), REMAINDER_MAX + 1), 3),
    refused("2^62 - 1", carries(start(), NUMBER_MAX), 3),
    refused("2^64 - 1", carries(start(), 2**64 - 1), 3),
    case("2,249,999 on the other CPU", start().block(1, remainder=REMAINDER_MAX), 2, {HERE: NS}),
    refused("2,250,000 on the other CPU", start().block(1, remainder=REMAINDER_MAX + 1), 3),
    refused("an absent CPU's is 1", absent().block(1, remainder=1), 3),
    refused("2,249,999", absent().block(1, remainder=REMAINDER_MAX), 3),
    refused("2,250,000, and ids that do not differ", carries(start(), REMAINDER_MAX + 1).record(3, debug_id=12), 3),
    refused("2,250,000, and no such operation", carries(start(), REMAINDER_MAX + 1), 3, operation=8),
    *[refused("2,250,000: operation %d" % operation, carries(start(), REMAINDER_MAX + 1), 3, operation)
      for operation in (1, 3, 4, 5, 6, 7)],
    group_refused("2,250,000: a group", carries(blocked(), REMAINDER_MAX + 1), [1, 2], 3),
    weight_refused("2,250,000: a sum of weights", carries(weighed(), REMAINDER_MAX + 1), 3),
]

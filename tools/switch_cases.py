"""Cases of operations 1 to 3: document 01's that are not starred, the traps in the Rust, and the steps that decide.
Beside each case stands what document 01 says of its answer."""
from case import Case, Machine
from layout import SLICE_MAX

# Three ticks of 2,250,000 ns: 3·2^30 in the scale of ticks, and so much of virtual time for a weight of 1024.
TURN, TURN_VTIME = 6_750_000, 3 * 2**20
BLOCKED = dict(status=1)
SHAPE = Machine(2, 6)
of, on = SHAPE.of, SHAPE.on


def start(contexts=6):
    """Two CPUs, whose idle contexts are 0 and 1. Context 2, the holder, is in charge and current on CPU 0 with a whole
    slice; 3, 4 and 5 are runnable and not queued. The next decision does not steal."""
    machine = Machine(2, contexts)
    for context in range(contexts):
        machine = machine.record(context, debug_id=10 + context, prio=20, sched_affinity=2**64 - 1,
                                 userspace=int(context > 1), addr_space=int(context > 1))
    machine = machine.record(1, running=1, currently_scheduled=1)
    machine = machine.record(2, running=1, currently_scheduled=1, vd=1000, rem_slice=SLICE_MAX, is_active=1)
    machine = machine.block(1, present=1, current_ctxt=1, sched_ctxt=1, idle_ctxt=1, steal_counter=1)
    return machine.block(0, present=1, current_ctxt=2, sched_ctxt=2, steal_counter=1, state=2, total_weight=1024)


def at_idle():
    """The same with idle in charge and current on CPU 0."""
    machine = start().record(2, running=0, currently_scheduled=0, is_active=0)
    return machine.record(0, running=1, currently_scheduled=1).block(0, current_ctxt=0, sched_ctxt=0, total_weight=0,
                                                                     state=0)


def lent():
    """Context 2 in charge of CPU 0, 3 current there by a direct switch."""
    return start().record(2, running=0).record(3, running=1).block(0, current_ctxt=3)


def case(title, machine, result, after, operation=2, cpu=0, time=TURN, context=0, whole=False):
    call = (operation, cpu, time, context)
    return Case(title, call, machine.length(), machine.words, (0, result, 0), after, whole)


def worked_example():
    machine = Machine(1, 2).record(0, currently_scheduled=1).record(1, debug_id=1, userspace=1, prio=20,
                                                                    sched_affinity=1)
    return machine.block(0, present=1, steal_counter=1).queue(0, (1, 9_437_184, 0))


def worked(words):
    return {Machine(1, 2).on(0, field): word for field, word in words.items()}


def victim(*contexts):
    """A decision that steals on CPU 0, and these contexts queued on CPU 1."""
    entries = [(context, 10 * slot + 10, 0) for slot, context in enumerate(contexts)]
    return start().block(0, steal_counter=16).queue(1, *entries)


CASES = [
    "operations 1 to 3: document 01's cases",
    case("the worked example", worked_example(), 1, worked(dict(sched_ctxt=1, current_ctxt=1, v=1_048_576)),
         time=2_250_000),
    case("the steal counter at 2^64 - 1", start().block(0, steal_counter=2**64 - 1), 2, {on(0, "steal_counter"): 0}),
    case("the same in a due tick", start().block(0, steal_counter=2**64 - 1, pit_ticks=2), 2,
         {on(0, "steal_counter"): 0}, operation=1),
    case("priority 39", start().record(2, prio=39), 2, {}),
    case("elapsed 2^52 - 1", start(), 2, {on(0, "schedule_time"): 2**52 - 1}, time=2**52 - 1),
    case("elapsed 2^52 - 1 from 5 on", start().block(0, schedule_time=5), 2, {}, time=2**52 + 4),
    case("elapsed 2^52 - 1, undue tick", start(), 0, {on(0, "pit_ticks"): 1}, operation=1, time=2**52 - 1, whole=True),
    case("elapsed 2^52 - 1, direct switch", start(), 1, {on(0, "current_ctxt"): 3}, operation=3, time=2**52 - 1,
         context=3),
    case("a clock gone back", start().block(0, schedule_time=5), 2,
         {on(0, "schedule_time"): 4, of(2, "rem_slice"): SLICE_MAX}, time=4),
    case("a runnable holder robs no queue of length 1", victim(3), 2,
         {on(1, "queue_count"): 1, on(0, "queue_count"): 0}),
    case("and one of length 2", victim(3, 4), 2,
         {on(1, "queue_count"): 1, on(0, "queue_count"): 1, on(0, "queue[0].context_ref"): 3,
          on(1, "queue[0].context_ref"): 4}),
    "traps: keeping the holder",
    case("the CPU is marked Idle though it runs", start(), 2,
         {on(0, "state"): 0, on(0, "sched_ctxt"): 2, on(0, "current_ctxt"): 2, of(2, "running"): 1,
          of(2, "vtime"): TURN_VTIME, of(2, "rem_slice"): SLICE_MAX - 3 * 2**30}),
    case("before another with a later deadline", start().queue(0, (3, 2000, 200)), 2,
         {on(0, "state"): 0, on(0, "sched_ctxt"): 2, on(0, "v"): 200 + TURN_VTIME // 2, on(0, "queue_count"): 1}),
    "traps: a lock taken during the scan",
    case("the context of the best ineligible entry is passed over where it is eligible",
         start().block(0, v=100).queue(0, (3, 10, 200), (3, 20, 50)), 1,
         {on(0, "sched_ctxt"): 3, on(0, "v"): 200 + 3 * 2**30 // 3072, on(0, "queue_count"): 2,
          on(0, "queue[0].key.vd"): 20}),
    case("without the first entry it wins by the second", start().block(0, v=100).queue(0, (3, 20, 50)), 1,
         {on(0, "sched_ctxt"): 3, on(0, "v"): 100 + TURN_VTIME // 2, on(0, "queue_count"): 1}),
    case("nor can it be stolen", victim(3, 4, 5).queue(0, (3, 2000, 200)), 2,
         {on(0, "sched_ctxt"): 2, on(1, "queue_count"): 2, on(1, "queue[0].context_ref"): 3,
          on(1, "queue[1].context_ref"): 5, on(0, "queue_count"): 2, of(4, "has_queue_key"): 1}),
    "traps: an entry skipped for a late vtime is not cleaned up",
    case("a gone context", start().queue(0, (3, 10, 2**22)).gone(3), 2,
         {on(0, "queue_count"): 1, on(0, "queue[0].context_ref"): 3, on(0, "total_weight"): 2048}),
    case("a blocked one", start().queue(0, (3, 10, 2**22)).record(3, **BLOCKED), 2,
         {on(0, "queue_count"): 1, of(3, "has_queue_key"): 1, of(3, "is_active"): 1}),
    case("a gone context in time", start().queue(0, (3, 10, 0)).gone(3), 2,
         {on(0, "queue_count"): 0, on(0, "total_weight"): 1024}),
    case("a blocked one in time", start().queue(0, (3, 10, 0)).record(3, **BLOCKED), 2,
         {on(0, "queue_count"): 0, on(0, "total_weight"): 1024, of(3, "has_queue_key"): 0, of(3, "is_active"): 0}),
    "traps: a victim's published length is tested, then its true one",
    case("published 1, true 3", victim(3, 4, 5).block(1, queue_len=1), 2,
         {on(1, "queue_count"): 3, on(1, "queue_len"): 1}),
    case("published 3, true 1", victim(3).block(1, queue_len=3), 2, {on(1, "queue_count"): 1, on(1, "queue_len"): 3}),
    case("published 2, true 3", victim(3, 4, 5).block(1, queue_len=2), 2,
         {on(1, "queue_count"): 2, on(1, "queue_len"): 2}),
    case("published as not stealable", victim(3, 4, 5).block(1, stealable=0), 2, {on(1, "queue_count"): 3}),
    "traps: a direct switch back",
    case("does not reset pit ticks", lent().block(0, pit_ticks=2), 1,
         {on(0, "pit_ticks"): 2, on(0, "current_ctxt"): 2, on(0, "context_switches"): 0, on(0, "schedule_time"): 0}),
    case("nor in a due tick", lent().block(0, pit_ticks=2), 1, {on(0, "pit_ticks"): 3, on(0, "current_ctxt"): 2},
         operation=1),
    case("nor after a direct switch that could not be", lent().record(4, **BLOCKED).block(0, pit_ticks=1), 1,
         {on(0, "pit_ticks"): 1, on(0, "current_ctxt"): 2}, operation=3, context=4),
    case("a decision does", lent().record(2, **BLOCKED).block(0, pit_ticks=2), 1,
         {on(0, "pit_ticks"): 0, on(0, "context_switches"): 1}),
    "traps: an idle context that is left",
    case("runnable without a key: on the local list", at_idle().queue(0, (3, 10, 0)), 1,
         {on(0, "sched_ctxt"): 3, on(0, "current_ctxt"): 3, on(0, "local_count"): 1,
          on(0, "local_wakeup_list[0]"): 0}),
    case("not runnable: not there", at_idle().record(0, status=2).queue(0, (3, 10, 0)), 1,
         {on(0, "sched_ctxt"): 3, on(0, "local_count"): 0}),
    case("the next decision drops it", start().local(0, 0), 2,
         {on(0, "local_count"): 0, on(0, "queue_count"): 0}),
    "ticks",
    case("the first of three is undue", start(), 0, {on(0, "pit_ticks"): 1}, operation=1, whole=True),
    case("the second too", start().queue(0, (3, 10, 0)).block(0, pit_ticks=1), 0, {on(0, "pit_ticks"): 2}, operation=1,
         whole=True),
    case("the third is due", start().queue(0, (3, 10, 0)).block(0, pit_ticks=2), 1,
         {on(0, "pit_ticks"): 0, on(0, "sched_ctxt"): 3, on(0, "context_switches"): 1}, operation=1),
    case("a context that is not there is ignored", start(), 0, {on(0, "pit_ticks"): 1}, operation=1, context=99,
         whole=True),
    "direct switches",
    case("to a ready context", start().block(0, pit_ticks=1), 1,
         {on(0, "current_ctxt"): 3, on(0, "sched_ctxt"): 2, on(0, "pit_ticks"): 1, on(0, "context_switches"): 0,
          of(2, "running"): 0,
          of(3, "running"): 1, of(3, "cpu_id"): 1, of(3, "switch_time"): TURN}, operation=3, context=3),
    case("to the current one", start(), 1, {}, operation=3, context=2, whole=True),
    case("back to the one in charge", lent(), 1,
         {on(0, "current_ctxt"): 2, on(0, "local_count"): 1, on(0, "local_wakeup_list[0]"): 3}, operation=3,
         context=2),
    case("on to a third", lent(), 1,
         {on(0, "current_ctxt"): 4, on(0, "sched_ctxt"): 2, on(0, "local_wakeup_list[0]"): 3}, operation=3, context=4),
    case("to a blocked one: a decision", start().record(3, **BLOCKED), 2,
         {on(0, "current_ctxt"): 2, on(0, "context_switches"): 1}, operation=3, context=3),
    case("to one that runs elsewhere: a decision", start(), 2, {on(0, "context_switches"): 1}, operation=3, context=1),
    case("to one that is not allowed here: a decision", start().record(3, sched_affinity=2), 2,
         {on(0, "context_switches"): 1}, operation=3, context=3),
    "decisions",
    case("idle stays where nothing waits", at_idle(), 2, {on(0, "sched_ctxt"): 0, on(0, "state"): 0, on(0, "v"): 0}),
    case("a stopped holder leaves to idle", start().record(2, **BLOCKED), 1,
         {on(0, "sched_ctxt"): 0, on(0, "current_ctxt"): 0, on(0, "v"): 0, on(0, "total_weight"): 0,
          of(2, "is_active"): 0}),
    case("its wake becomes a timer", start().record(2, **BLOCKED, has_wake=1, wake=9_000_000), 1,
         {on(0, "timers_count"): 1, on(0, "timers[0].wake"): 9_000_000, on(0, "timers[0].context_ref"): 2}),
    case("the first eligible entry wins, the holder is queued", start().queue(0, (3, 10, 5), (4, 20, 0), (5, 30, 0)), 1,
         {on(0, "sched_ctxt"): 4, on(0, "queue_count"): 3, on(0, "queue[2].context_ref"): 2, of(2, "has_queue_key"): 1,
          of(4, "has_queue_key"): 0, on(0, "queue_len"): 3}),
    case("every name on the local list is served", at_idle().local(0, 3, 4, 5), 1,
         {on(0, "sched_ctxt"): 3, on(0, "queue_count"): 2, on(0, "queue[0].context_ref"): 4,
          on(0, "queue[1].context_ref"): 5,
          on(0, "local_count"): 1, on(0, "local_wakeup_list[0]"): 0, on(0, "total_weight"): 3072}),
    case("a locked one is put back", at_idle().local(0, 3, 4).record(3, lock=1), 1,
         {on(0, "sched_ctxt"): 4, on(0, "local_count"): 2, on(0, "local_wakeup_list[0]"): 3,
          on(0, "local_wakeup_list[1]"): 0}),
    case("a due timer whose context is written elsewhere goes back (document 02, No. 2)",
         start().record(3, **BLOCKED, has_wake=1, wake=TURN, lock=2).timers(0, (TURN, 3)), 2,
         {on(0, "timers_count"): 1, of(3, "status"): 1}),
    case("idle robs a queue of length 1", at_idle().block(0, steal_counter=2).queue(1, (3, 10, 0)), 1,
         {on(0, "sched_ctxt"): 3, on(1, "queue_count"): 0, on(1, "queue_len"): 0, on(1, "stealable"): 0}),
    case("not on an odd counter", at_idle().queue(1, (3, 10, 0)), 2,
         {on(0, "sched_ctxt"): 0, on(1, "queue_count"): 1, on(0, "steal_counter"): 2}),
]

"""Corners of a decision (docs/PLAIN.md), where an engine that looks through all entries could most easily part from one
that goes by their order; each by `ronthuyal_call` and by `ronthuyal_plain_call`. Beside each case stands what is worked
out by hand: rule, who is in charge, V, how many entries are left, and the total weight."""
from case import Case, Machine
from layout import SLICE_MAX
from refused_cases import FULL, READ, WRITTEN
from switch_cases import BLOCKED, TURN, TURN_VTIME, at_idle, of, on, start, victim

X, Y, Z = 3, 4, 5
HOLDER, IDLE = 2, 0
WHOLE = SLICE_MAX // 1024  # the deadline of one that enters at V 0


def weights(machine, *values):
    """The entries of CPU 0 have these weights, and the total is their sum."""
    slots = {on(0, "queue[%d].weight" % slot): weight for slot, weight in enumerate(values)}
    return machine.put(slots).block(0, total_weight=sum(values), published_weight=sum(values))


def told(rule, in_charge, v, left, weight, before=IDLE):
    words = dict(sched_ctxt=in_charge, v=v, queue_count=left, queue_len=left, total_weight=weight)
    return rule, int(in_charge == before) + 1, {on(0, field): word for field, word in words.items()}


def corner(title, machine, end, after=None, time=0, operation=2):
    """A switch before any time has passed, where nothing else is said."""
    rule, result, words = end
    call = (operation, 0, time, 0)
    return Case(title, call, machine.length(), machine.words, (0, result, 0), words | (after or {}), False, rule)


def refused(title, machine, refusal, operation=2, cpu=0, time=0, context=0):
    return Case(title, (operation, cpu, time, context), machine.length(), machine.words, (refusal, 0, 0), {}, True)


def named(title, machine, operation, after):
    """A call that names X."""
    return Case(title, (operation, 0, 0, X), machine.length(), machine.words, (0, 1, 0), after, False)


def idle_with(*entries):
    return at_idle().queue(0, *entries)


def full(*names):
    """Two entries of X, under the key of its record and under the one with which it enters, and 62 of Z, which is
    locked; these names are on the local list."""
    others = [(Z, WHOLE + 1 + slot, 0) for slot in range(FULL - 2)]
    return idle_with((X, 5, 0), (X, WHOLE, 0), *others).record(Z, **READ).local(0, *names)


def late(vtime):
    """X is blocked and queued with this virtual time; the holder's is that of its turn, which is late."""
    return start().queue(0, (X, 10, vtime)).record(X, **BLOCKED)


def both():
    """X is queued here, and with Y on CPU 1, which this turn robs."""
    return idle_with((X, 1, 10)).block(0, steal_counter=16).queue(1, (X, 10, 0), (Y, 20, 0))


def three():
    """Of three CPUs the second has nobody and steals; the first has contexts 3 and 4 to give, the third 5 and 6."""
    machine = Machine(3, 7)
    for context in range(7):
        machine = machine.record(context, debug_id=10 + context, prio=20, sched_affinity=2**64 - 1,
                                 userspace=int(context > 2), addr_space=int(context > 2))
    for cpu in range(3):
        machine = machine.record(cpu, running=1, currently_scheduled=1)
        machine = machine.block(cpu, present=1, current_ctxt=cpu, sched_ctxt=cpu, idle_ctxt=cpu, steal_counter=16)
    return machine.queue(0, (3, 10, 0), (4, 20, 0)).queue(2, (5, 10, 0), (6, 20, 0))


def round_from_the_next():
    machine = three()
    after = {machine.on(1, "sched_ctxt"): 5, machine.on(0, "queue_count"): 2, machine.on(2, "queue_count"): 1,
             machine.on(1, "total_weight"): 1024, machine.on(2, "total_weight"): 1024}
    return Case("the victim is the next CPU, not the first", (2, 1, 0, 0), machine.length(), machine.words, (0, 1, 0),
                after, False, 8)


def asleep(machine, context, wake):
    return machine.record(context, has_wake=1, wake=wake, **BLOCKED)


CORNERS = [
    "corners: a context queued twice",
    corner("its second entry comes while its lock is taken", idle_with((X, 1, 10), (X, 2, 5)), told(7, X, 10, 1, 2048)),
    corner("it was let go when another one's came", idle_with((X, 1, 10), (Y, 2, 7), (X, 3, 5)),
           told(7, X, 5, 2, 3072)),
    corner("blocked, of two weights: the first by key is given up",
           weights(idle_with((X, 1, 0), (X, 2, 0)).record(X, **BLOCKED), 100, 30), told(9, IDLE, 0, 0, 30)),
    corner("the same, not active: none is",
           weights(idle_with((X, 1, 0), (X, 2, 0)).record(X, is_active=0, **BLOCKED), 100, 30),
           told(9, IDLE, 0, 0, 130)),
    corner("gone: both are", weights(idle_with((X, 1, 0), (X, 2, 0)).gone(X), 100, 30), told(9, IDLE, 0, 0, 0)),
    corner("both entries taken out of a full queue before the next name comes", full(X, Y),
           told(1, X, 0, FULL - 1, 65 * 1024)),
    refused("9: not if that name comes first", full(Y, X), 9),
    corner("a timer comes before a name, and so there is room", asleep(full(Y), X, 0).timers(0, (0, X)),
           told(1, X, 0, FULL - 1, 65 * 1024)),
    refused("9: the other one's timer, and its name behind it", asleep(full(X), Y, 0).timers(0, (0, Y)), 9),
    corner("queued here and elsewhere: it wins here and is not stolen", both(), told(7, X, 10, 1, 2048),
           {on(0, "queue[0].context_ref"): Y, on(1, "queue_count"): 1, on(1, "queue[0].context_ref"): X}),
    "corners: what is looked at",
    corner("a blocked one behind the first eligible stays", idle_with((Y, 1, 0), (X, 2, 0)).record(X, **BLOCKED),
           told(1, Y, 0, 1, 2048)),
    corner("one that is later than the least late so far stays",
           idle_with((Y, 1, 5), (X, 2, 8)).record(X, **BLOCKED), told(7, Y, 5, 1, 2048)),
    corner("one at that very virtual time goes", idle_with((Y, 1, 5), (X, 2, 5)).record(X, **BLOCKED),
           told(7, Y, 5, 0, 1024)),
    corner("a ready one there is not taken", idle_with((Y, 1, 5), (X, 2, 5)), told(7, Y, 5, 1, 2048)),
    corner("a blocked one later than a late holder stays", late(TURN_VTIME + 1),
           told(5, HOLDER, TURN_VTIME + TURN_VTIME // 2, 1, 2048, HOLDER), time=TURN),
    corner("one level with it goes", late(TURN_VTIME), told(5, HOLDER, 2 * TURN_VTIME, 0, 1024, HOLDER), time=TURN),
    corner("a locked one is passed over", idle_with((X, 1, 0), (Y, 2, 0)).record(X, **READ), told(1, Y, 0, 1, 2048)),
    "corners: wake-ups, placing and stealing",
    corner("a due timer of a locked context stays, and names go back in their order",
           asleep(idle_with(), Y, 1).record(Y, **WRITTEN).timers(0, (1, Y)).record(X, **READ).record(Z, **READ)
           .local(0, Z, X, Z), told(9, IDLE, 0, 0, 0),
           {on(0, "timers_count"): 1, on(0, "local_count"): 3, on(0, "local_wakeup_list[0]"): Z,
            on(0, "local_wakeup_list[1]"): X, on(0, "local_wakeup_list[2]"): Z}),
    corner("a timer and a name enter, and are placed by their keys",
           asleep(idle_with((Z, WHOLE + 5, 0)), Y, 1).timers(0, (1, Y)).local(0, X), told(1, X, 0, 2, 3072),
           {on(0, "queue[0].context_ref"): Y, on(0, "queue[1].context_ref"): Z, on(0, "timers_count"): 0}),
    corner("a holder that lost is placed between two entries",
           start().queue(0, (X, 10, 0), (Y, 2000, 0)), told(1, X, TURN_VTIME // 3, 2, 3 * 1024, HOLDER),
           {on(0, "queue[0].context_ref"): HOLDER, on(0, "queue[1].context_ref"): Y}, time=TURN),
    corner("one locked is not stolen", victim(X, Y, Z).record(X, **READ),
           told(5, HOLDER, TURN_VTIME + TURN_VTIME // 2, 1, 2048, HOLDER),
           {on(0, "queue[0].context_ref"): Y, on(1, "queue_count"): 2, on(1, "total_weight"): 2048}, time=TURN),
    round_from_the_next(),
    "corners: refused, and what decides nothing",
    refused("6: the queue is locked", at_idle().block(0, queue_locked=1), 6),
    refused("5: operation 8", at_idle(), 5, operation=8),
    refused("5: CPU 2 of two", at_idle(), 5, cpu=2),
    refused("3: a priority of 40", at_idle().record(X, prio=40), 3),
    corner("an undue tick", at_idle(), (0, 0, {on(0, "pit_ticks"): 1}), operation=1),
    named("block", at_idle(), 6, {of(X, "status"): 1}),
    named("hard_block", at_idle(), 7, {of(X, "status"): 2}),
    named("unblock_context", at_idle().record(X, **BLOCKED), 4, {of(X, "status"): 0, on(0, "local_wakeup_list[0]"): X}),
]


def plainly(item):
    """The same by the plain engine."""
    return item._replace(title=item.title + ", plainly", call=("p", *item.call))


CASES = [*CORNERS, "the same corners by the plain engine",
         *[plainly(item) for item in CORNERS if isinstance(item, Case)]]

"""Cases of CPUs that are apart (document 02, No. 14). What is named by whom, and so each answer, is worked out by hand."""
from case import Case, Machine
from layout import NUMBER_MAX

SHAPE = Machine(3, 64)
LAST = 63  # the last context that there can be
SHARED = 7
WAKE = 1_000


def start():
    """Of three CPUs the last is absent. CPU 0 names 0 (idle) and 2 (in charge, current), CPU 1 names 1 in all three."""
    machine = SHAPE
    for context in range(SHAPE.contexts):
        machine = machine.record(context, debug_id=100 + context)
    machine = machine.block(0, present=1, current_ctxt=2, sched_ctxt=2, idle_ctxt=0)
    return machine.block(1, present=1, current_ctxt=1, sched_ctxt=1, idle_ctxt=1)


def interrupts(machine, cpu, *names):
    copy = machine.block(cpu, ipi_count=len(names))
    return copy.slots(cpu, "ipi_context_wakeup_list[%d]", names)


# How a CPU comes to name a context besides those that it has, from its block.
ROLES = {
    "current": lambda machine, cpu, x: machine.block(cpu, current_ctxt=x),
    "in charge": lambda machine, cpu, x: machine.block(cpu, sched_ctxt=x),
    "idle": lambda machine, cpu, x: machine.block(cpu, idle_ctxt=x),
    "queued": lambda machine, cpu, x: machine.queue(cpu, (x, 10, 0)),
    "timed": lambda machine, cpu, x: machine.timers(cpu, (WAKE, x)),
    "on the local list": lambda machine, cpu, x: machine.local(cpu, x),
    "on the interrupt list": lambda machine, cpu, x: interrupts(machine, cpu, x),
}


def pair(title, machine, result, one=0, other=1):
    return Case(title, ("o", one, other), machine.length(), machine.words, (0, result, 0), {}, True)


def refused(title, machine, refusal, one=0, other=1, length=None):
    length = machine.length() if length is None else length
    words = {place: word for place, word in machine.words.items() if place < length}
    return Case(title, ("o", one, other), length, words, (refusal, 0, 0), {}, True)


def shared():
    """Each role on CPU 0 with each role on CPU 1."""
    return [pair("%s on CPU 0, %s on CPU 1" % (here, there), ROLES[there](ROLES[here](start(), 0, SHARED), 1, SHARED), 0)
            for here in ROLES for there in ROLES]


def alone():
    return [pair("%s on CPU %d, and not on the other" % (role, cpu), ROLES[role](start(), cpu, SHARED), 1)
            for role in ROLES for cpu in (0, 1)]


def full(cpu, *names):
    """64 names on both lists, and as many timers and entries."""
    machine = start().queue(cpu, *[(x, 10 + x, 0) for x in names]).timers(cpu, *[(WAKE + x, x) for x in names])
    return interrupts(machine.local(cpu, *names), cpu, *names)


ODD = [x for x in range(3, 64, 2)]
EVEN = [x for x in range(4, 64, 2)]
SIXTY_FOUR = [8] * 63 + [LAST]

CASES = [
    "CPUs that are apart",
    pair("nothing but their own", start(), 1),
    pair("the other way round", start(), 1, one=1, other=0),
    pair("the same idle", start().block(1, idle_ctxt=0), 0),
    pair("idle there is current here", start().block(0, current_ctxt=1), 0),
    *alone(),
    pair("odd ones here, even ones there", full(0, *ODD).put(full(1, *EVEN).words), 1),
    pair("the last context on both", interrupts(start(), 0, LAST).local(1, LAST), 0),
    pair("the last of 64 names", start().local(0, *SIXTY_FOUR).timers(1, (WAKE, LAST)), 0),
    pair("a gone one queued on both", start().queue(0, (SHARED, 10, 0)).queue(1, (SHARED, 10, 0)).gone(SHARED), 0),
    pair("a gone one on one list", start().local(1, SHARED).gone(SHARED), 1),
    pair("no lock is asked for", start().block(0, queue_locked=1).record(2, lock=2).record(1, lock=1), 1),
    pair("a CPU and itself", start(), 0, other=0),
    pair("the other CPU and itself", start(), 0, one=1),
    "CPUs that are not apart, role by role",
    *shared(),
    "CPUs that are apart: refused",
    refused("no words", start(), 1, length=0),
    refused("no CPUs", start().put({0: 0}), 1),
    refused("65 contexts, and CPUs 9 and 9", start().put({1: 65}), 1, one=9, other=9),
    refused("one word less", start(), 2, length=SHAPE.length() - 1),
    refused("status 6", start().record(3, status=6), 3),
    refused("V of 2^62, and an absent CPU", start().block(0, v=NUMBER_MAX + 1), 3, other=2),
    refused("ids that do not differ", start().record(3, debug_id=100), 4),
    refused("a gone one in charge, and an absent CPU", start().gone(2), 4, other=2),
    refused("the first is absent", start(), 5, one=2),
    refused("the second is absent", start(), 5, other=2),
    refused("the first is CPU 3 of three", start(), 5, one=3),
    refused("the second is CPU 3 of three", start(), 5, other=3),
    refused("the second is CPU 2^64 - 1", start(), 5, other=2**64 - 1),
    refused("both are absent", start(), 5, one=2, other=2),
]

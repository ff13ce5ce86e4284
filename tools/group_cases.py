"""Cases of `unblock_group`. The answers and changed words beside each case are worked out by hand from document 02,
No. 1."""
from case import Case, Machine
from layout import NUMBER_MAX

SHAPE = Machine(2, 7)
STOPPED = dict(status=2)
READ, WRITTEN = dict(lock=1), dict(lock=2)
ELSEWHERE = dict(cpu_id=2)  # last on CPU 1
FULL = 64


def start():
    """Two CPUs whose idle contexts, 0 and 6, are current and in charge. Contexts 1 to 4 are blocked, 5 is runnable."""
    machine = SHAPE
    for context in range(7):
        machine = machine.record(context, debug_id=20 + context, status=int(1 <= context <= 4))
    return machine.block(0, present=1).block(1, present=1, current_ctxt=6, sched_ctxt=6, idle_ctxt=6)


def absent():
    return start().block(1, present=0, current_ctxt=0, sched_ctxt=0, idle_ctxt=0)


def everybody(*local):
    """One CPU and 64 contexts: 0 is idle and runnable, the others are blocked; these names are on the local list."""
    machine = Machine(1, 64)
    for context in range(64):
        machine = machine.record(context, debug_id=context, status=int(context > 0))
    return machine.block(0, present=1).local(0, *local)


def interrupt(machine, *names):
    return machine.block(1, ipi_count=len(names)).slots(1, "ipi_context_wakeup_list[%d]", names)


def woken(*contexts):
    return {SHAPE.of(context, "status"): 0 for context in contexts}


def listed(*names, behind=0):
    slots = {SHAPE.on(0, "local_wakeup_list[%d]" % (behind + slot)): name for slot, name in enumerate(names)}
    return {SHAPE.on(0, "local_count"): behind + len(names), **slots}


def sent(*names, behind=0):
    slots = {SHAPE.on(1, "ipi_context_wakeup_list[%d]" % (behind + slot)): name for slot, name in enumerate(names)}
    return {SHAPE.on(1, "ipi_count"): behind + len(names), **slots}


def all_woken():
    """Of `everybody`: all but context 0 were blocked, and each stands at its own number on the list."""
    machine = everybody()
    changed = {machine.of(context, "status"): 0 for context in range(1, 64)}
    slots = {machine.on(0, "local_wakeup_list[%d]" % context): context for context in range(1, 64)}
    return {**changed, **slots, machine.on(0, "local_count"): 64}


def mask_of(names):
    return names if isinstance(names, int) else sum(1 << name for name in names)


def group(title, machine, names, result, interrupt, *changed, cpu=0, time=0):
    after = {place: word for part in changed for place, word in part.items()}
    return Case(title, ("g", cpu, time, mask_of(names)), machine.length(), machine.words, (0, result, interrupt), after,
                True)


def refused(title, machine, names, refusal, cpu=0, time=0, length=None):
    length = machine.length() if length is None else length
    words = {place: word for place, word in machine.words.items() if place < length}
    return Case(title, ("g", cpu, time, mask_of(names)), length, words, (refusal, 0, 0), {}, True)


CASES = [
    "groups: nobody named",
    group("an empty mask", start(), 0, 0, 0),
    group("every list full, and a lock", interrupt(start(), *[1] * FULL).local(0, *[1] * FULL).record(1, **WRITTEN), 0,
          0, 0),
    refused("CPU 2 of two", start(), 0, 5, cpu=2),
    refused("CPU 2^64 - 1", start(), 0, 5, cpu=2**64 - 1),
    refused("an absent CPU", absent(), 0, 5, cpu=1),
    refused("no words", start(), 0, 1, length=0),
    refused("one word less", start(), 0, 2, length=SHAPE.length() - 1),
    refused("time 2^62", start(), 0, 3, time=NUMBER_MAX + 1),
    refused("ids that do not differ", start().record(1, debug_id=20), 0, 4),
    "groups: woken by rising number",
    group("one name", start(), [2], 1, 0, woken(2), listed(2)),
    group("three names", start(), [4, 1, 3], 3, 0, woken(1, 3, 4), listed(1, 3, 4)),
    group("behind those that are on the list", start().local(0, 5, 5), [1, 2], 2, 0, woken(1, 2),
          listed(1, 2, behind=2)),
    group("a runnable one among them: listed, and counts 0", start().record(2, status=0), [1, 2, 3], 2, 0, woken(1, 3),
          listed(1, 2, 3)),
    group("a runnable one alone", start(), [5], 0, 0, listed(5)),
    group("one neither blocked nor runnable among them", start().record(2, **STOPPED), [1, 2, 3], 2, 0, woken(1, 3),
          listed(1, 3)),
    group("time 2^62 - 1", start(), [1, 2], 2, 0, woken(1, 2), listed(1, 2), time=NUMBER_MAX),
    group("all 64", everybody(), 2**64 - 1, 63, 0, all_woken()),
    "groups: the mark is that of any",
    group("the first one last on another CPU, the last one local", start().record(1, **ELSEWHERE), [1, 2], 2, 1,
          woken(1, 2), sent(1), listed(2)),
    group("the last one on another CPU", start().record(2, **ELSEWHERE), [1, 2], 2, 1, woken(1, 2), listed(1), sent(2)),
    group("all on another CPU", start().record(1, **ELSEWHERE).record(4, **ELSEWHERE), [1, 4], 2, 1, woken(1, 4),
          sent(1, 4)),
    group("a runnable one on another CPU", start().record(5, **ELSEWHERE), [5], 0, 1, sent(5)),
    group("a stopped one there sends none", start().record(1, **STOPPED, **ELSEWHERE), [1, 2], 1, 0, woken(2),
          listed(2)),
    group("last on an absent CPU: local", absent().record(1, **ELSEWHERE), [1, 2], 2, 0, woken(1, 2), listed(1, 2)),
    "groups: refused by the check first, by the context second",
    refused("context 7 of seven", start(), [1, 7], 5),
    refused("context 63 of seven", start(), [1, 63], 5),
    refused("all 64 bits, seven contexts", start(), 2**64 - 1, 5),
    refused("a gone one", start().gone(2), [1, 2], 5),
    refused("a lock that is read", start().record(2, **READ), [1, 2], 6),
    refused("a lock that is written", start().record(2, **WRITTEN), [1, 2], 6),
    refused("context 1 locked, context 2 gone: 5", start().record(1, **READ).gone(2), [1, 2], 5),
    refused("context 1 gone, context 2 locked", start().gone(1).record(2, **READ), [1, 2], 5),
    refused("context 1 locked, context 7 of seven", start().record(1, **WRITTEN), [1, 7], 5),
    refused("context 1 locked, an absent CPU", absent().record(1, **READ), [1], 5, cpu=1),
    refused("context 2 gone, ids that do not differ", start().gone(2).record(1, debug_id=20), [1, 2], 4),
    group("a gone one and a locked one that are not named", start().record(1, **READ).gone(2), [3, 4], 2, 0,
          woken(3, 4), listed(3, 4)),
    "groups: room",
    group("62 names and two more", start().local(0, *[5] * 62), [1, 2], 2, 0, woken(1, 2), listed(1, 2, behind=62)),
    refused("63 names and two more", start().local(0, *[5] * 63), [1, 2], 9),
    refused("63 names, a blocked one and a runnable one", start().local(0, *[5] * 63), [1, 5], 9),
    group("63 names, a blocked one and a stopped one", start().local(0, *[5] * 63).record(2, **STOPPED), [1, 2], 1, 0,
          woken(1), listed(1, behind=63)),
    group("64 names and a stopped one", start().local(0, *[5] * FULL).record(2, **STOPPED), [2], 0, 0),
    group("63 names, two more, one of them on another CPU", start().local(0, *[5] * 63).record(2, **ELSEWHERE), [1, 2],
          2, 1, woken(1, 2), listed(1, behind=63), sent(2)),
    refused("room here, none on the other CPU", interrupt(start(), *[5] * FULL).record(2, **ELSEWHERE), [1, 2], 9),
    refused("63 names there and two more",
            interrupt(start(), *[5] * 63).record(1, **ELSEWHERE).record(2, **ELSEWHERE), [1, 2, 3], 9),
    refused("one name and all 64", everybody(1), 2**64 - 1, 9),
    refused("no room, and a locked one", start().local(0, *[5] * FULL).record(2, **READ), [1, 2], 6),
    refused("no room, and a gone one", start().local(0, *[5] * FULL).gone(2), [1, 2], 5),
]

"""Refusals 5 to 9 of operations 1 to 3, by document 01's table, each with the image kept."""
from case import Case
from switch_cases import BLOCKED, TURN, at_idle, lent, start

NAMES = {1: "tick", 2: "switch", 3: "direct_switch_to"}
READ, WRITTEN = dict(lock=1), dict(lock=2)
FULL = 64


def refused(title, machine, refusal, operation, cpu=0, time=TURN, context=3):
    return Case(title, (operation, cpu, time, context), machine.length(), machine.words, (refusal, 0, 0), {}, True)


def accepted(title, machine, result, operation, time=TURN, context=3):
    return Case(title, (operation, 0, time, context), machine.length(), machine.words, (0, result, 0), {}, False)


def each(title, machine, refusal, **call):
    """The same call by all three operations; the tick is due, a direct switch goes to context 3."""
    due = machine.block(0, pit_ticks=2)
    return [refused("%s: %s" % (title, NAMES[operation]), due, refusal, operation, **call) for operation in (1, 2, 3)]


def many(context):
    """64 entries of one context."""
    return [(context, 10 + slot, 0) for slot in range(FULL)]


def full_queue():
    """A name is to come into a full queue. Context 3 cannot be switched to, so that it is a decision in any case."""
    return start().queue(0, *many(5)).record(3, **BLOCKED).local(0, 4)


def full_local():
    """Context 4, lent the CPU, goes on a full local list when it is left."""
    machine = start().record(2, running=0).record(4, running=1).block(0, current_ctxt=4)
    return machine.local(0, *[5] * FULL)


def keyless():
    """The winner has no key: its entry stays where the holder goes into a full queue."""
    machine = start().queue(0, *many(5)).record(5, has_queue_key=0, queue_key_vd=0, queue_key_rem_slice=0)
    return machine.record(3, **BLOCKED)


def flat(items):
    return [case for item in items for case in (item if isinstance(item, list) else [item])]


CASES = flat([
    "refusal 5: no such operation",
    refused("operation 0", start(), 5, 0),
    refused("operation 8", start(), 5, 8),
    refused("operation 2^64 - 1", start(), 5, 2**64 - 1),
    refused("operation 0, and every lock taken", start().block(0, queue_locked=1).record(2, **WRITTEN), 5, 0),
    "refusal 5: no such CPU or context",
    each("CPU 2 of two", start(), 5, cpu=2),
    each("CPU 2^64 - 1", start(), 5, cpu=2**64 - 1),
    each("an absent CPU", start().block(1, present=0, current_ctxt=0, sched_ctxt=0, idle_ctxt=0, steal_counter=0), 5,
         cpu=1),
    refused("direct switch to context 6 of six", start(), 5, 3, context=6),
    refused("to context 2^64 - 1", start(), 5, 3, context=2**64 - 1),
    refused("to a gone one", start().gone(3), 5, 3),
    accepted("switch: the context is ignored", start(), 2, 2, context=2**64 - 1),
    "refusal 6: locks",
    each("the queue", start().block(0, queue_locked=1), 6),
    each("the current context, read", lent().record(3, **READ), 6, context=4),
    each("the current context, written", lent().record(3, **WRITTEN), 6, context=4),
    each("the one in charge, read", lent().record(2, **READ), 6),
    each("the one in charge, written", lent().record(2, **WRITTEN), 6),
    each("the idle context, read", start().record(0, **READ), 6),
    each("the idle context, written", start().record(0, **WRITTEN), 6),
    each("the address space of one in charge that is not current", lent().record(2, addr_space=2), 6, context=4),
    refused("undue tick: the queue", start().block(0, queue_locked=1), 6, 1),
    refused("undue tick: the idle context", start().record(0, **READ), 6, 1),
    refused("direct switch: the named context, read", start().record(3, **READ), 6, 3),
    refused("written", start().record(3, **WRITTEN), 6, 3),
    refused("its address space", start().record(3, addr_space=2), 6, 3),
    accepted("switch: the named context is ignored", start().record(3, **WRITTEN), 2, 2),
    accepted("the address space of one in charge and current", start().record(2, addr_space=2), 2, 2),
    accepted("another CPU's queue", start().block(1, queue_locked=1), 2, 2),
    accepted("another CPU's idle context", start().record(1, **WRITTEN), 2, 2),
    refused("no such CPU, and the queue", start().block(0, queue_locked=1), 5, 2, cpu=2),
    "refusal 7: direct switch from idle",
    refused("to another context", at_idle(), 7, 3),
    refused("to one that is blocked", at_idle().record(3, **BLOCKED), 7, 3),
    accepted("to itself", at_idle(), 1, 3, context=0),
    refused("and a lock", at_idle().record(3, **READ), 6, 3),
    refused("and a turn too long", at_idle(), 7, 3, time=2**52),
    "refusal 8: a turn over 2^52 - 1",
    each("2^52", start(), 8, time=2**52),
    each("2^52 from 5 on", start().block(0, schedule_time=5), 8, time=2**52 + 5),
    refused("an undue tick", start(), 8, 1, time=2**52),
    refused("a direct switch to itself", start(), 8, 3, time=2**52, context=2),
    refused("priority 40 before it", start().record(2, prio=40), 3, 2, time=2**52),
    refused("a lock before it", start().block(0, queue_locked=1), 6, 2, time=2**52),
    "refusal 9: no room",
    each("the queue, by a wake-up", full_queue(), 9),
    each("the queue, by the holder", keyless(), 9),
    each("the local list", full_local(), 9),
    accepted("an undue tick puts nothing in", full_queue(), 0, 1),
    accepted("a full queue that the winner leaves", start().queue(0, *many(5)), 1, 2),
    accepted("a full local list of names that are dropped", start().local(0, *[0] * FULL), 2, 2),
    refused("a turn too long before it", full_queue(), 8, 2, time=2**52),
])

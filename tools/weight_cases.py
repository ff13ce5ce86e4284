"""Cases of `total_weight`. The sums beside each case are worked out by hand from document 02, No. 7, with the weights of
the kernel's table: 88,761 at priority 0, 1024 at 20, 15 at 39."""
from case import Case, Machine
from layout import NUMBER_MAX

SHAPE = Machine(3, 6)
IDLE, HOLDER = 0, 2
MOST, USUAL, LEAST = 88_761, 1024, 15
STOPPED, BLOCKED, WRITTEN = dict(status=2), dict(status=1), dict(lock=2)
FULL = 64


def start():
    """Of three CPUs the last is absent. Context 0 is idle on CPU 0, where 2 is in charge, current and active; context 1
    is idle, current and in charge on CPU 1. All have priority 20, and the totals that are stored are wrong."""
    machine = SHAPE
    for context in range(6):
        machine = machine.record(context, debug_id=30 + context, prio=20)
    machine = machine.record(HOLDER, is_active=1)
    machine = machine.block(0, present=1, current_ctxt=HOLDER, sched_ctxt=HOLDER, idle_ctxt=IDLE, total_weight=7)
    return machine.block(1, present=1, current_ctxt=1, sched_ctxt=1, idle_ctxt=1, total_weight=9)


def queued(*entries, cpu=0, machine=None):
    """Entries (context, weight), by rising deadlines."""
    machine = machine or start()
    copy = machine.queue(cpu, *[(context, 10 + slot, 0) for slot, (context, _) in enumerate(entries)])
    return copy.slots(cpu, "queue[%d].weight", [weight for _, weight in entries])


def idle():
    """Idle is in charge on CPU 0 too."""
    return start().record(HOLDER, is_active=0).block(0, sched_ctxt=IDLE, current_ctxt=IDLE)


def total(title, machine, result, cpu=0):
    return Case(title, ("w", cpu), machine.length(), machine.words, (0, result, 0), {}, True)


def refused(title, machine, refusal, cpu=0, length=None):
    length = machine.length() if length is None else length
    words = {place: word for place, word in machine.words.items() if place < length}
    return Case(title, ("w", cpu), length, words, (refusal, 0, 0), {}, True)


CASES = [
    "weights added up: the context in charge",
    total("alone, of priority 20", start(), USUAL),
    total("of priority 0", start().record(HOLDER, prio=0), MOST),
    total("of priority 39", start().record(HOLDER, prio=39), LEAST),
    total("not active: it does not count", start().record(HOLDER, is_active=0), 0),
    total("active and blocked", start().record(HOLDER, **BLOCKED), USUAL),
    total("active and stopped", start().record(HOLDER, **STOPPED), USUAL),
    total("stopped and not active", start().record(HOLDER, is_active=0, **STOPPED), 0),
    total("idle", idle(), 0),
    total("idle that is active", idle().record(IDLE, is_active=1, prio=39), LEAST),
    total("another is current, and active", start().block(0, current_ctxt=3).record(3, is_active=1, prio=0), USUAL),
    "weights added up: entries",
    total("two, and the one in charge", queued((3, LEAST), (4, MOST)), LEAST + MOST + USUAL),
    total("two, and idle in charge", queued((3, LEAST), (4, MOST), machine=idle()), LEAST + MOST),
    total("two, and one in charge that is not active",
          queued((3, LEAST), (4, MOST), machine=start().record(HOLDER, is_active=0)), LEAST + MOST),
    total("by the entry's weight, not by the priority", queued((3, 500)).record(3, prio=0), 500 + USUAL),
    total("of one that is not active", queued((3, LEAST)).record(3, is_active=0), LEAST + USUAL),
    total("of one that is blocked", queued((3, LEAST)).record(3, **BLOCKED), LEAST + USUAL),
    total("of a gone one", queued((3, 700)).gone(3), 700 + USUAL),
    total("of gone ones first, between and last",
          queued((3, 100), (5, 20), (4, 40), (3, 80)).gone(3).gone(4), 100 + 20 + 40 + 80 + USUAL),
    total("three of one context", queued((3, 20), (3, 40), (3, 80)), 20 + 40 + 80 + USUAL),
    total("of the one in charge itself", queued((HOLDER, 20)), 20 + USUAL),
    total("64 of the greatest weight", queued(*[(3, MOST)] * FULL).record(HOLDER, prio=0), 65 * MOST),
    "weights added up: of the CPU that is named",
    total("CPU 0", queued((4, 40), cpu=1, machine=queued((3, 20))), 20 + USUAL),
    total("CPU 1", queued((4, 40), cpu=1, machine=queued((3, 20))), 40, cpu=1),
    total("a stored total as large as can be", start().block(0, total_weight=NUMBER_MAX), USUAL),
    total("no lock is asked for", start().block(0, queue_locked=1).record(HOLDER, **WRITTEN).record(IDLE, **WRITTEN),
          USUAL),
    "weights added up: refused",
    refused("no words", start(), 1, length=0),
    refused("one word", start(), 1, length=1),
    refused("no CPUs", start().put({0: 0}), 1),
    refused("65 contexts, and CPU 9", start().put({1: 65}), 1, cpu=9),
    refused("one word less", start(), 2, length=SHAPE.length() - 1),
    refused("one word more, and CPU 9", start(), 2, cpu=9, length=SHAPE.length() + 1),
    refused("status 6", start().record(3, status=6), 3),
    refused("an entry of weight 14", queued((3, 14)), 3),
    refused("an entry of weight 88,762, and an absent CPU", queued((3, MOST + 1)), 3, cpu=2),
    refused("a total of 2^62", start().block(0, total_weight=NUMBER_MAX + 1), 3),
    refused("ids that do not differ", start().record(3, debug_id=30), 4),
    refused("a gone one in charge, and an absent CPU", start().gone(HOLDER), 4, cpu=2),
    refused("an absent CPU", start(), 5, cpu=2),
    refused("CPU 3 of three", start(), 5, cpu=3),
    refused("CPU 2^64 - 1", start(), 5, cpu=2**64 - 1),
]

"""Cases of asking and committing (document 02, No. 9). The five numbers of each reply are worked out by hand from
document 01's steps: refusal, result, in charge, current and V. A turn of 6,750,000 ns is TURN_VTIME of virtual time for
a total weight of 1024."""
from case import Case
from layout import NUMBER_MAX, SLICE_MAX
from refused_cases import FULL, READ, WRITTEN, full_local, full_queue, keyless, many
from switch_cases import BLOCKED, TURN, TURN_VTIME, at_idle, lent, on, start, victim, worked_example

LATE = 2**52  # past the schedule time 0 of a CPU
DAY = 2_250_000  # the time of the worked example
EXAMPLE = (0, 1, 1, 1, 1_048_576)
# The holder waits alone: V becomes its virtual time, and gains the turn.
KEPT = (0, 2, 2, 2, 2 * TURN_VTIME)
IDLE, BACK = (0, 2, 0, 0, 0), (0, 1, 2, 2, 0)
# Context 3 wins before the holder, at half the weight each; alone it has all of it.
WON, WOKEN = (0, 1, 3, 3, TURN_VTIME // 2), (0, 1, 3, 3, TURN_VTIME)
CROWDED = (0, 1, 5, 5, TURN_VTIME // 65)


def refusal(number):
    return number, 0, 0, 0, 0


def waiting():
    return start().queue(0, (3, 10, 0))


def parted():
    """Context 3 has the CPU of the one in charge, which may not run there and so stays in charge only."""
    return lent().record(2, sched_affinity=2)


def crowded():
    """A queue of 64: the winner leaves it before the holder comes, so there is room, but not for certain."""
    return start().queue(0, *many(5))


# What a switch at the end of a turn gives.
ACCEPTED = [
    ("the holder stays", start(), KEPT),
    ("another wins", waiting(), WON),
    ("idle stays", at_idle(), IDLE),
    ("idle is left", at_idle().queue(0, (3, 10, 0)), WOKEN),
    ("a switch back, without a decision", lent(), BACK),
    ("current is another than in charge", parted(), (0, 2, 2, 3, 2 * TURN_VTIME)),
    ("one that is stolen", victim(3, 4).record(2, **BLOCKED), (0, 1, 3, 3, TURN_VTIME)),
    ("a full queue", crowded(), CROWDED),
]

REFUSED = [
    ("no CPUs", start().put({0: 0}), 1, {}),
    ("a sixth context that the length has no place for", start().put({1: 7}), 2, {}),
    ("a time of 2^62", start(), 3, dict(time=NUMBER_MAX + 1)),
    ("priority 40", start().record(3, prio=40), 3, {}),
    ("ids that do not differ", start().record(3, debug_id=10), 4, {}),
    ("CPU 2 of two", start(), 5, dict(cpu=2)),
    ("CPU 2^64 - 1", start(), 5, dict(cpu=2**64 - 1)),
    ("the queue is locked", start().block(0, queue_locked=1), 6, {}),
    ("the holder is read", start().record(2, **READ), 6, {}),
    ("idle is written", start().record(0, **WRITTEN), 6, {}),
    ("elapsed 2^52", start(), 8, dict(time=LATE)),
    ("no room in the queue", full_queue(), 9, {}),
    ("no room on the local list", full_local(), 9, {}),
    ("no room for the holder", keyless(), 9, {}),
]


def ask(title, machine, reply, cpu=0, time=TURN, length=None):
    length = machine.length() if length is None else length
    words = {place: word for place, word in machine.words.items() if place < length}
    return Case(title, ("a", cpu, time), length, words, reply, {}, True)


def commit(title, machine, reply, cpu=0, time=TURN, answer=None, length=None):
    """Accepted with the reply's result if no answer is named."""
    length = machine.length() if length is None else length
    words = {place: word for place, word in machine.words.items() if place < length}
    refused = answer is not None
    expected = (answer, 0, 0) if refused else (0, reply[1], 0)
    return Case(title, ("c", cpu, time, *reply), length, words, expected, {}, refused)


def but(reply, place, word):
    return reply[:place] + (word,) + reply[place + 1:]


CASES = [
    "asking: what a switch would give",
    ask("the worked example", worked_example(), EXAMPLE, time=DAY),
    *[ask(title, machine, reply) for title, machine, reply in ACCEPTED],
    ask("the other CPU", waiting(), (0, 2, 1, 1, 0), cpu=1),
    ask("a clock gone back: the holder yields", start().block(0, schedule_time=5, v=7),
        (0, 2, 2, 2, 7 + SLICE_MAX // 1024), time=4),
    ask("elapsed 2^52 - 1, idle", at_idle(), IDLE, time=LATE - 1),
    "asking: refused, and all else 0",
    ask("no words", start(), refusal(1), length=0),
    ask("one word", start(), refusal(1), length=1),
    ask("one word more", start(), refusal(2), length=start().length() + 1),
    *[ask(title, machine, refusal(number), **call) for title, machine, number, call in REFUSED],
    "committing: the same reply",
    commit("the worked example", worked_example(), EXAMPLE, time=DAY),
    *[commit(title, machine, reply) for title, machine, reply in ACCEPTED],
    commit("the other CPU", waiting(), (0, 2, 1, 1, 0), cpu=1),
    commit("asked at another time", at_idle(), IDLE, time=TURN + 1),
    commit("asked of another image", at_idle().record(3, status=2).block(1, pit_ticks=1), IDLE),
    "committing: 13, every word kept",
    commit("another refusal", waiting(), but(WON, 0, 13), answer=13),
    commit("another result", waiting(), but(WON, 1, 2), answer=13),
    commit("another in charge", waiting(), but(WON, 2, 2), answer=13),
    commit("another current", waiting(), but(WON, 3, 2), answer=13),
    commit("V one less", waiting(), but(WON, 4, WON[4] - 1), answer=13),
    commit("V 2^64 - 1", waiting(), but(WON, 4, 2**64 - 1), answer=13),
    commit("in charge and current changed for each other", parted(), (0, 2, 3, 2, 2 * TURN_VTIME), answer=13),
    commit("the time of V has gone on", waiting(), WON, time=2 * TURN, answer=13),
    commit("all 0", start(), refusal(0), answer=13),
    commit("the reply of the other CPU", waiting(), (0, 2, 1, 1, 0), answer=13),
    commit("a late call's reply", start(), refusal(8), answer=13),
    commit("a commit's own number", start(), refusal(13), answer=13),
    commit("a full queue", crowded(), but(CROWDED, 4, 0), answer=13),
    commit("a switch back", lent(), but(BACK, 4, 1), answer=13),
    "committing: the switch's own numbers come first",
    commit("no words", start(), KEPT, answer=1, length=0),
    commit("one word more", start(), KEPT, answer=2, length=start().length() + 1),
    *[commit("%s: a reply of before" % title, machine, KEPT, answer=number, **call)
      for title, machine, number, call in REFUSED],
    *[commit("%s: as it was asked" % title, machine, refusal(number), answer=number, **call)
      for title, machine, number, call in REFUSED],
    commit("late, and another refusal was asked", start(), refusal(6), time=LATE, answer=8),
    commit("no room, and all 0", full_queue(), refusal(0), answer=9),
]

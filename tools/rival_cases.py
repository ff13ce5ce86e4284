"""Cases of writer against rival (document 02, No. 13). Forced and choice are those of the same search over the kernel's
own calls; those of one round, and what a title says, are worked out by hand from document 01's steps."""
from ask_cases import REFUSED
from case import Case
from layout import NUMBER_MAX
from refused_cases import READ, WRITTEN, full_local, full_queue
from switch_cases import BLOCKED, TURN, at_idle, lent, start, worked_example

YIELD, WAKE = 1_000_000, 4_500_000
GO_ON, YIELDS, BLOCKS = 1, 2, 3
HOLDER, OTHER = 2, 3  # who is in charge of CPU 0 at the start, and another


def game(title, machine, answer, rounds=1, cpu=0, time=0, writer=HOLDER, rival=OTHER, length=None):
    length = machine.length() if length is None else length
    words = {place: word for place, word in machine.words.items() if place < length}
    return Case(title, ("r", cpu, time, writer, rival, rounds), length, words, answer, {}, True)


def wins(title, machine, choice, **call):
    return game(title, machine, (0, 1, choice), **call)


def loses(title, machine, **call):
    return game(title, machine, (0, 0, 0), **call)


def refused(title, machine, number, **call):
    return game(title, machine, (number, 0, 0), **call)


def against(case, *args, **call):
    """The other one is the writer, and the holder its rival."""
    return case(*args, writer=OTHER, rival=HOLDER, **call)


def asleep(wake):
    """The other one sleeps on a timer of CPU 0."""
    return start().record(OTHER, has_wake=1, wake=wake, **BLOCKED).timers(0, (wake, OTHER))


def waiting(vd=10, vtime=0):
    return start().queue(0, (OTHER, vd, vtime))


def late(before, machine=start()):
    """A call so many ns before the last time."""
    time = NUMBER_MAX - before
    return dict(machine=machine.block(0, schedule_time=time), time=time)


def absent(machine):
    return machine.block(1, present=0, current_ctxt=0, sched_ctxt=0, idle_ctxt=0, steal_counter=0)


def both():
    """Idle in charge; the other one's deadline comes before that of context 2."""
    return at_idle().queue(0, (OTHER, 10, 0), (HOLDER, 20, 0))


CASES = [
    "writer against rival: the first winning choice of a writer in charge",
    *[wins("alone, %d rounds: go on" % rounds, start(), GO_ON, rounds=rounds) for rounds in range(1, 7)],
    wins("the rival wakes before the end of a go on: yield", asleep(WAKE), YIELDS),
    wins("at the time of the yield's switch, 1 ns beyond what comes due", asleep(YIELD + 2), YIELDS),
    loses("1 ns beyond it, which comes due", asleep(YIELD + 1)),
    wins("two rounds, and it wakes in the second if the writer yields twice: block", asleep(YIELD + YIELD // 2), BLOCKS,
         rounds=2),
    wins("three rounds", asleep(YIELD + YIELD // 2), GO_ON, rounds=3),
    loses("a rival that waits comes in", waiting()),
    loses("and is kept for two rounds", waiting(), rounds=2),
    wins("not for three", waiting(), GO_ON, rounds=3),
    wins("nor for four, if the writer yields", waiting(), YIELDS, rounds=4),
    loses("for five", waiting(), rounds=5),
    loses("and six", waiting(), rounds=6),
    wins("a rival that is not eligible: one round", waiting(vtime=2**22), GO_ON),
    loses("two", waiting(vtime=2**22), rounds=2),
    wins("three", waiting(vtime=2**22), GO_ON, rounds=3),
    wins("the other CPU's idle context is the writer there", start(), GO_ON, cpu=1, writer=1),
    "writer against rival: the rival is in charge",
    against(wins, "a writer with the earlier deadline cannot be kept off", waiting(), 0),
    against(wins, "nor for two rounds", waiting(), 0, rounds=2),
    against(loses, "for three it can", waiting(), rounds=3),
    against(loses, "for four", waiting(), rounds=4),
    against(wins, "not for five", waiting(), 0, rounds=5),
    against(wins, "nor six", waiting(), 0, rounds=6),
    against(loses, "the rival's deadline is the earlier: it goes on", waiting(2000, 200)),
    against(wins, "but not for two rounds", waiting(2000, 200), 0, rounds=2),
    against(loses, "the writer sleeps for longer than a yield", asleep(YIELD + 2)),
    against(wins, "it wakes in time, whatever the rival picks", asleep(YIELD + 1), 0),
    *[against(loses, "the writer is not queued, %d rounds" % rounds, start(), rounds=rounds) for rounds in (1, 6)],
    against(wins, "a rival that is blocked already: operation 6 gives false, which is no refusal",
            waiting().record(HOLDER, **BLOCKED), 0),
    against(loses, "the writer is current by a direct switch: the rival, in charge, chooses", lent()),
    "writer against rival: neither is in charge, and the round is a go on",
    against(wins, "idle, and the writer waits", at_idle().queue(0, (OTHER, 10, 0)), 0),
    against(wins, "idle, and the writer comes before the rival", both(), 0),
    against(loses, "which comes in the next round", both(), rounds=2),
    loses("idle, and the rival comes before the writer", both()),
    wins("two rounds", both(), 0, rounds=2),
    against(wins, "the writer wakes at the end of the go on", at_idle().record(OTHER, has_wake=1, wake=TURN, **BLOCKED)
            .timers(0, (TURN, OTHER)), 0),
    against(loses, "2 ns later", at_idle().record(OTHER, has_wake=1, wake=TURN + 2, **BLOCKED)
            .timers(0, (TURN + 2, OTHER))),
    loses("a third one stays", start(), writer=3, rival=4, rounds=6),
    loses("in charge of the other CPU only", start(), writer=1, rounds=6),
    against(wins, "stolen from the other CPU while idle is in charge", at_idle().block(0, steal_counter=16)
            .queue(1, (OTHER, 10, 0)), 0),
    "writer against rival: a branch in which a call is refused is lost",
    wins("a go on that ends at the last time", choice=GO_ON, **late(TURN)),
    wins("1 ns later it is refused: yield", choice=YIELDS, **late(TURN - 1)),
    wins("a yield that ends at the last time", choice=YIELDS, **late(YIELD)),
    loses("1 ns later every choice is refused", **late(YIELD - 1)),
    loses("at the last time", **late(0)),
    wins("the second round begins at the first one's switch", choice=YIELDS, rounds=2, **late(2 * YIELD)),
    loses("1 ns later", rounds=2, **late(2 * YIELD - 1)),
    wins("a go on, then a yield", choice=GO_ON, rounds=2, **late(TURN + YIELD)),
    against(wins, "the rival cannot keep the writer off", choice=0, **late(TURN, waiting())),
    against(loses, "but by a go on that is refused", **late(TURN - 1, waiting())),
    loses("6: the queue is locked", start().block(0, queue_locked=1)),
    loses("6: the writer is read", start().record(HOLDER, **READ)),
    loses("6: idle is written", start().record(0, **WRITTEN)),
    wins("elapsed 2^52 - 1", start(), GO_ON, time=2**52 - 1 - TURN),
    wins("8: elapsed 2^52, but not by a yield", start(), YIELDS, time=2**52 - TURN),
    loses("9: the queue is full", full_queue(), rival=4),
    loses("9: the local list is full", full_local(), rival=4),
    "writer against rival: 14",
    refused("no rounds", start(), 14, rounds=0),
    refused("7 rounds", start(), 14, rounds=7),
    refused("2^64 - 1 rounds", start(), 14, rounds=2**64 - 1),
    refused("the writer is the rival", start(), 14, rival=HOLDER),
    refused("both, and the queue is locked", start().block(0, queue_locked=1), 14, rival=HOLDER, rounds=0),
    "writer against rival: 5 comes before 14",
    refused("CPU 2 of two", start(), 5, cpu=2),
    refused("CPU 2^64 - 1", start(), 5, cpu=2**64 - 1),
    refused("an absent CPU", absent(start()), 5, cpu=1),
    refused("the writer is gone", start().gone(4), 5, writer=4),
    refused("the rival is gone", start().gone(4), 5, rival=4),
    refused("the writer is not below N", start(), 5, writer=6),
    refused("the rival is not below N", start(), 5, rival=6),
    refused("writer 2^64 - 1", start(), 5, writer=2**64 - 1),
    refused("rival 2^64 - 1", start(), 5, rival=2**64 - 1),
    refused("no rounds on CPU 2 of two", start(), 5, cpu=2, rounds=0),
    refused("7 rounds, and the rival is gone", start().gone(4), 5, rival=4, rounds=7),
    refused("the writer is the rival, and gone", start().gone(4), 5, writer=4, rival=4),
    refused("the worked example has two contexts", worked_example(), 5, writer=1, rival=2),
    "writer against rival: 1 to 4 come before 5",
    refused("no words", start(), 1, length=0),
    refused("one word", start(), 1, length=1),
    refused("one word more", start(), 2, length=start().length() + 1),
    *[refused(title, machine, number, cpu=2, rounds=0, **call) for title, machine, number, call in REFUSED
      if number <= 4],
]

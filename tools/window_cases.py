"""Cases of a call in a window, and of what is asked of a window (document 02, No. 11). The window's words are worked out
by hand: what a decision adds is the context in charge before it and the time since the CPU's schedule time."""
from case import Case
from layout import NUMBER_MAX
from refused_cases import READ, full_queue
from switch_cases import BLOCKED, TURN, at_idle, lent, of, on, start, victim

COUNT, CONTEXTS, TIMES, SIZE, CAPACITY = 0, 1, 257, 513, 256
LONGEST = 2**52 - 1
ANY = 2**64 - 1  # in the slots that are not used


def window(*records, count=None, unused=0):
    """Its words, of records (context, time)."""
    words = {place: unused for place in range(1, SIZE)}
    words[COUNT] = len(records) if count is None else count
    for slot, (context, time) in enumerate(records):
        words[CONTEXTS + slot], words[TIMES + slot] = context, time
    return words


def many(count):
    """Records of which no two neighbours are the same in either number."""
    return [(slot % 5, 1000 + slot) for slot in range(count)]


def written(slot, context, time):
    return {COUNT: slot + 1, CONTEXTS + slot: context, TIMES + slot: time}


def moved(records, context, time):
    """What changes in a full window: every slot takes the next one's record."""
    return {place: word for place, word in window(*records[1:], (context, time)).items() if place}


def call(title, machine, words, after, operation=2, cpu=0, time=TURN, context=3, answer=None, result=2, size=SIZE,
         image=None, rule=None):
    """Accepted with that result if no answer is named; `after` are all the words of the window that change."""
    expected = (0, result, 0) if answer is None else (answer, 0, 0)
    whole = answer is not None or image is not None
    words = {place: word for place, word in words.items() if place < size}
    return Case(title, ("d", operation, cpu, time, context), machine.length(), machine.words, expected, image or {}, whole,
                rule, (size, words), after)


def share(title, result, words, contexts, context=None, answer=0, size=SIZE):
    """Of all, where no context is named."""
    named = ("t", contexts) if context is None else ("s", contexts, context)
    words = {place: word for place, word in words.items() if place < size}
    return Case(title, named, 0, {}, (answer, result, 0), {}, True, 0, (size, words), {})


UNDUE = {on(0, "pit_ticks"): 1}
WRONG = [
    ("a window of 512 words", window(), 1, dict(size=SIZE - 1)),
    ("a window of 514 words", window(), 1, dict(size=SIZE + 1)),
    ("a window without words", window(), 1, dict(size=0)),
    ("a count of 257", window(*many(CAPACITY), count=CAPACITY + 1), 1, {}),
    ("a count of 2^64 - 1", window(count=ANY), 1, {}),
    ("a record of context 6 of six", window((2, 5), (6, 5)), 3, {}),
    ("a record of 2^52 ns", window((2, LONGEST + 1)), 3, {}),
    ("the last of 256 records too long", window(*many(CAPACITY - 1), (2, LONGEST + 1)), 3, {}),
    ("a count of 257, and a record of context 6", window((6, 5), count=CAPACITY + 1), 1, {}),
]

ONE = window((5, 7))
ADDED = written(1, 2, TURN)

CASES = [
    "a call in a window: what a decision adds",
    call("an empty window", start(), window(), written(0, 2, TURN)),
    call("its unused words are any, and the others stay", start(), window(unused=ANY), written(0, 2, TURN)),
    call("so behind a record", start(), window((5, 7), unused=ANY), ADDED),
    call("the holder before the call, not who wins", start().queue(0, (3, 10, 0)), ONE, ADDED, result=1),
    call("idle before the call", at_idle().queue(0, (3, 10, 0)), ONE, written(1, 0, TURN), result=1),
    call("idle stays", at_idle(), ONE, written(1, 0, TURN)),
    call("the other CPU", start().block(1, schedule_time=50), ONE, written(1, 1, TURN - 50), cpu=1),
    call("one is stolen", victim(3, 4).record(2, **BLOCKED), ONE, ADDED, result=1),
    call("a due tick", start().block(0, pit_ticks=2), ONE, ADDED, operation=1),
    call("a direct switch that decides", start().record(3, **BLOCKED), ONE, ADDED, operation=3),
    call("no time", start().block(0, schedule_time=TURN), ONE, written(1, 2, 0)),
    call("a clock gone back", start().block(0, schedule_time=5), ONE, written(1, 2, 0), time=4),
    call("2^52 - 1 ns", at_idle(), ONE, written(1, 0, LONGEST), time=LONGEST),
    call("a record of 2^52 - 1 ns of context 5", start(), window((5, LONGEST)), ADDED),
    call("a record of 255", start(), window(*many(254)), written(254, 2, TURN)),
    call("the last free slot", start(), window(*many(255)), written(255, 2, TURN)),
    call("the 257th: the oldest leaves", start(), window(*many(CAPACITY)), moved(many(CAPACITY), 2, TURN)),
    call("a full window of one record", start(), window(*[(2, TURN)] * CAPACITY), {}),
    "a call in a window: no decision, no record",
    call("an undue tick", start(), ONE, {}, operation=1, result=0, image=UNDUE),
    call("an undue tick, unused words are any", start(), window(unused=ANY), {}, operation=1, result=0, image=UNDUE),
    call("an undue tick, a full window", start(), window(*many(CAPACITY)), {}, operation=1, result=0, image=UNDUE),
    call("a direct switch", start(), ONE, {}, operation=3, result=1),
    call("a switch back", lent(), ONE, {}, result=1),
    call("operation 4", start().record(3, **BLOCKED), ONE, {}, operation=4, result=1),
    call("operation 5", start(), ONE, {}, operation=5, result=0, image={}),
    call("operation 6", start(), ONE, {}, operation=6, result=1, image={of(3, "status"): 1}),
    call("operation 7", start(), ONE, {}, operation=7, result=1, image={of(3, "status"): 2}),
    "a call in a window: the call's own number comes first",
    call("operation 8", start(), ONE, {}, operation=8, answer=5),
    call("CPU 2 of two", start(), ONE, {}, cpu=2, answer=5),
    call("CPU 2^64 - 1", start(), ONE, {}, cpu=2**64 - 1, answer=5),
    call("elapsed 2^52", start(), ONE, {}, time=LONGEST + 1, answer=8),
    call("no room in the queue", full_queue(), ONE, {}, answer=9),
    call("no CPUs, a count of 257", start().put({0: 0}), window(count=257), {}, answer=1),
    call("2^64 - 1 contexts", start().put({1: 2**64 - 1}), ONE, {}, answer=1),
    call("a seventh context that the length has no place for", start().put({1: 7}), window((6, 5)), {}, answer=2),
    call("a time of 2^62, a count of 257", start(), window(count=257), {}, time=NUMBER_MAX + 1, answer=3),
    call("the holder is read, a record of context 6", start().record(2, **READ), window((6, 5)), {}, answer=6),
    call("elapsed 2^52, a window of 512 words", start(), window(), {}, time=LONGEST + 1, answer=8, size=SIZE - 1),
    call("no room, a record of context 6", full_queue(), window((6, 5)), {}, answer=9),
    "a call in a window: then the window's, and neither is changed",
    *[call("%s: a switch" % title, start(), words, {}, answer=number, **more) for title, words, number, more in WRONG],
    *[call("%s: an undue tick" % title, start(), words, {}, operation=1, answer=number, **more)
      for title, words, number, more in WRONG],
    *[call("%s: operation 6" % title, start(), words, {}, operation=6, answer=number, **more)
      for title, words, number, more in WRONG],
    call("context 6 of seven is one", start(7), window((6, 5)), ADDED),
    call("a record that is not counted", start(), window((2, 5), (6, 5), (2, LONGEST + 1), count=1), ADDED),
    "shares in a window",
    share("none of an empty one", 0, window(unused=ANY), 6, 2),
    share("none at all in an empty one", 0, window(), 6),
    share("one of three contexts", 5 + 40, window((2, 5), (3, 600), (2, 40), (0, 7)), 6, 2),
    share("one that has none", 0, window((2, 5), (3, 600), (2, 40), (0, 7)), 6, 1),
    share("of all", 5 + 600 + 40 + 7, window((2, 5), (3, 600), (2, 40), (0, 7)), 6),
    share("a record that is not counted", 5, window((2, 5), (2, 40), count=1), 6, 2),
    share("256 of the longest, one context", CAPACITY * LONGEST, window(*[(2, LONGEST)] * CAPACITY), 6, 2),
    share("256 of the longest, of all", CAPACITY * LONGEST, window(*[(2, LONGEST)] * CAPACITY), 6),
    share("255 records", sum(1000 + slot for slot in range(255)), window(*many(255)), 5),
    share("the 256th counts", sum(1000 + slot for slot in range(256)), window(*many(256)), 5),
    share("every fifth of 256", sum(1000 + slot for slot in range(4, 256, 5)), window(*many(256)), 5, 4),
    share("a context that is not below N", 0, window((2, 5), (3, 600)), 4, 4),
    share("context 2^64 - 1", 0, window((2, 5), (3, 600)), 4, 2**64 - 1),
    share("N of 2^64 - 1", 600, window((2, 5), (2**63, 600)), 2**64 - 1, 2**63),
    share("no contexts, no records", 0, window(), 0),
    *[share("%s: of all" % title, 0, words, 6, answer=number, **more) for title, words, number, more in WRONG],
    *[share("%s: of context 2" % title, 0, words, 6, 2, answer=number, **more) for title, words, number, more in WRONG],
    *[share("%s: of context 6" % title, 0, words, 6, 6, answer=number, **more) for title, words, number, more in WRONG],
    share("a record of context 3 of three", 0, window((2, 5), (3, 600)), 3, 2, answer=3),
]

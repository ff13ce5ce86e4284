"""A case of crates/cases, and a machine to make its image of."""
import re
from typing import NamedTuple

from layout import (ARRAYS, LAST, LAST_PLACE, RECORD, RECORD_WORDS, SINGLE, SLICE_MAX, array_place, block_place, length,
                    record_place)

RECORD_PLACES = {word.name: place for place, word in enumerate(RECORD)}
BLOCK_PLACES = {word.name: place for place, word in [*enumerate(SINGLE), *enumerate(LAST, LAST_PLACE)]}
COLUMNS = {array.item: array_place(array) for array in ARRAYS}


class Case(NamedTuple):
    title: str
    # operation, CPU, time, context, with "d" in a window, with "p" by the plain engine; "g", CPU, time, mask; "w", CPU;
    # "a", CPU, time; "c", CPU, time, reply; "s", contexts, context; "t", contexts; "h", CPU, time, context;
    # "r", CPU, time, writer, rival, rounds; "o", two CPUs
    call: tuple
    length: int
    words: dict
    answer: tuple  # refusal, result, interrupt mark; of "a" the five numbers, of "h" refusal, found and priority,
    # of "r" refusal, forced and choice
    after: dict  # words after the call
    whole: bool  # whether these are all the words that it changes
    rule: int | None = None  # of a decision, where it is worked out by hand
    window: tuple | None = None  # its length and words
    added: dict | None = None  # its words that the call changes


class Machine:
    """Each change is made on a copy, so that a machine can be the start of several."""

    def __init__(self, cpus, contexts):
        self.cpus, self.contexts, self.words = cpus, contexts, {0: cpus, 1: contexts}

    def length(self):
        return length(self.cpus, self.contexts)

    def of(self, context, field):
        """The place of a record's word."""
        return record_place(context) + RECORD_PLACES[field]

    def on(self, cpu, field):
        """The place of a block's word: a single one, or one of an array, as `queue[3].key.vd`."""
        start = block_place(self.contexts, cpu)
        if field in BLOCK_PLACES:
            return start + BLOCK_PLACES[field]
        slot = re.search(r"\[(\d+)\]", field)
        return start + COLUMNS[field.replace(slot.group(), "[%d]")] + int(slot.group(1))

    def put(self, words):
        copy = Machine(self.cpus, self.contexts)
        copy.words = {**self.words, **words}
        return copy

    def record(self, context, **fields):
        return self.put({self.of(context, field): value for field, value in fields.items()})

    def block(self, cpu, **fields):
        return self.put({self.on(cpu, field): value for field, value in fields.items()})

    def slots(self, cpu, array, values):
        return self.put({self.on(cpu, array % slot): value for slot, value in enumerate(values)})

    def queue(self, cpu, *entries):
        """Entries (context, vd, vtime) of weight 1024 with a whole slice, in the order of their keys; total weight and
        what the CPU publishes of its queue follow. The first entry of a context is the one that its record agrees with."""
        weight = self.words.get(self.on(cpu, "total_weight"), 0) + 1024 * len(entries)
        copy = self.block(cpu, queue_count=len(entries), queue_len=len(entries), stealable=int(bool(entries)),
                          total_weight=weight, published_weight=weight)
        for slot, (context, vd, vtime) in enumerate(entries):
            entry = {"key.vd": vd, "key.rem_slice": SLICE_MAX, "key.ctxt_id": self.words[self.of(context, "debug_id")],
                     "vtime": vtime, "weight": 1024, "context_ref": context}
            copy = copy.put({copy.on(cpu, "queue[%d].%s" % (slot, field)): value for field, value in entry.items()})
            if not copy.words.get(copy.of(context, "has_queue_key")):
                copy = copy.record(context, vtime=vtime, vd=vd, rem_slice=SLICE_MAX, is_active=1, has_queue_key=1,
                                   queue_key_vd=vd, queue_key_rem_slice=SLICE_MAX)
        return copy

    def timers(self, cpu, *pairs):
        copy = self.block(cpu, timers_count=len(pairs)).slots(cpu, "timers[%d].wake", [wake for wake, _ in pairs])
        return copy.slots(cpu, "timers[%d].context_ref", [context for _, context in pairs])

    def local(self, cpu, *names):
        copy = self.block(cpu, local_count=len(names))
        return copy.slots(cpu, "local_wakeup_list[%d]", names)

    def gone(self, context):
        return self.put({record_place(context) + word: 0 for word in range(2, RECORD_WORDS)}).record(context, gone=1)

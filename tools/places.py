#!/usr/bin/env python3
"""Writes what follows from the lists of tools/layout.py outside of the crates: places, tables and exports of the Rust
libraries (tools/rust_layout.py), include/ronthuyal.h, and the tables of docs/IMAGE.md between their marks.

Run it from the root of the repository after a list changes."""
import os
import re

import rust_layout
from layout import (ANY, ARRAYS, BLOCK_WORDS, CALLS, LAST, LAST_PLACE, MORE_REFUSALS, OPERATIONS, RECORD, RECORD_WORDS,
                    REFUSALS, RULES, SINGLE, SIZES, STATE, STATUS, WINDOW, WINDOW_CAPACITY, WINDOW_WORDS, array_place)
from rust_layout import BY, LIMITS, call_shape, constant, last

HEADER = """/* The scheduling decisions of the Redox kernel over a machine image: docs/IMAGE.md says what each word is.
   %s. */
#ifndef RONTHUYAL_H
#define RONTHUYAL_H

#define RONTHUYAL_VERSION "%s"

#include <stddef.h>
#include <stdint.h>

#ifdef __cplusplus
extern "C" {
#endif

/* What a call answers. refusal 0: the call was made, and the words hold the next image. Else every word is kept, and
   result, interrupt and rule are 0. interrupt is 1 if a wake-up went to another CPU. rule is the number of the rule by
   which a decision left whom in charge, 0 where nothing was decided. */
struct ronthuyal_answer {
    uint64_t refusal;
    uint64_t result;
    uint64_t interrupt;
    uint64_t rule;
};

/* image points to length words that nobody else uses during the call. Any words, operation, CPU, time and context are
   answered. */
struct ronthuyal_answer ronthuyal_call(uint64_t *image, size_t length, uint64_t operation, uint64_t cpu,
                                       uint64_t time, uint64_t context);
"""


NOTES = {
    "plain_call": """
/* ronthuyal_call by the plain engine, which looks through all entries each time and builds the next image afresh: the
   same answer and the same words, slowly. */
""",
    "unblock_group": """
/* No operation: unblocks every context x whose bit x is set in mask, by rising number, or, refused, none. result is
   how many of them were soft-blocked, interrupt is 1 if a wake-up of any of them went to another CPU. */
""",
    "total_weight": """
/* No operation, and no time: result is the weight of the CPU, added up from its queue entries, also of those whose
   context is gone, and the context in charge if it is active. The image is left as it is. */
""",
    "ask": """
/* What a switch at that time would answer, and leave on that CPU: who is in charge, who is current, and V. Where it
   would be refused all but the refusal is 0. */
struct ronthuyal_asked {
    uint64_t refusal;
    uint64_t result;
    uint64_t in_charge;
    uint64_t current;
    uint64_t v;
};

/* No operation: asks. The image is left as it is. */
""",
    "commit": """
/* No operation: makes the switch if it gives what was asked, in all five words. Else the refusal is the switch's own,
   or 13 where it would be accepted and gives something else. */
""",
    "call_in_window": """
/* The operation of that number, with the window of that CPU's last decisions: window points to RONTHUYAL_WINDOW_WORDS
   words that nobody else uses during the call. An accepted decision adds the context in charge before it and the
   nanoseconds since the one before; of 256 records the oldest leaves. The call's own refusal comes first, then the
   window's, 1 or 3, and then neither image nor window is changed. */
""",
    "share": """
/* The nanoseconds of one context in a window, and of all, as the result. contexts is the image's number of contexts,
   for which the window is checked. */
""",
    "share_of_all": "",
    "humblest": """
/* The largest priority number that gets the CPU. found is 1 if there is one, else 0, and then priority is 0 too; so it is
   where the call is refused. */
struct ronthuyal_humblest {
    uint64_t refusal;
    uint64_t found;
    uint64_t priority;
};

/* No operation: of a context that is neither queued nor in charge, the largest of the priorities 0 to 39 with which it
   would be in charge after a switch at that time, were it stored and the context put last on the CPU's local list. The
   image is left as it is. */
""",
    "rival": """
/* Writer against rival. forced is 1 if the writer can force itself into charge; choice is its first winning one, 1 go on,
   2 yield, 3 block, where it can and has the first choice, else 0. Where the call is refused both are 0. */
struct ronthuyal_game {
    uint64_t refusal;
    uint64_t forced;
    uint64_t choice;
};

/* No operation: 1 to 6 rounds, in each of which the one in charge of the CPU chooses if it is the writer or the rival:
   go on (a switch after 6,750,000 ns), yield (after 1,000,000) or block (asleep until 4,500,000, and a switch after
   1,000,000). Anyone else goes on. Whether the writer can be in charge at the end whatever the rival picks; a branch in
   which a call is refused is lost. The image is left as it is. */
""",
    "apart": """
/* No operation, and no time: result is 1 if no context is named by both CPUs, in any roles together. Then a switch of
   the one and a switch of the other give the same in either order, if neither is on a stealing turn and all four calls
   are accepted. The image is left as it is. */
""",
    "run": """
/* No operation: calls has four words for each call (operation, CPU, time, context), and answers gets four for each
   (refusal, result, interrupt, rule). The calls are made one after the other, each as ronthuyal_call makes it; a
   refused one changes no word of the image, and the run goes on. Returns how many calls were made. Where calls_length
   is no multiple of four, or answers_length another length, nothing is written, and 2^64 - 1 is returned. */
""",
}


def c_call(name, takes, reads=False, gives="answer", lent=("image",), kept=()):
    start = "%s ronthuyal_%s(" % ("uint64_t" if gives == "number" else "struct ronthuyal_" + gives, name)
    words = ["%s%s, size_t %s" % ("const uint64_t *" if reads or lend in kept else "uint64_t *", lend,
                                  "length" if at == 0 else lend + "_length") for at, lend in enumerate(lent)]
    words += ["uint64_t " + word for word in takes]
    lines = [start]
    for word in (", ".join(words) + ");").split(", "):
        if len(lines[-1] + word) + 1 > 120:
            lines.append(" " * len(start))
        lines[-1] += word + ("" if word.endswith(";") else ", ")
    return "\n".join(line.rstrip() for line in lines)


def header():
    calls = [c_call(operation.name, ("cpu", "time", "context") if operation.takes else ("cpu", "time"))
             for operation in OPERATIONS]
    calls += [NOTES[call.name] + c_call(*call_shape(call)) for call in CALLS]
    out = [HEADER % (BY, open("VERSION").read().strip()) + "\n".join(calls), ""]

    def enum(title, pairs):
        rows = ["    RONTHUYAL_%s = %d" % (constant(name), number) for name, number in pairs]
        return ["/* %s */" % title, "enum {", ",\n".join(rows), "};", ""]

    def prefixed(prefix, items, start=0):
        return [(prefix + "_" + constant(item), start + at) for at, item in enumerate(items)]

    out += enum("Operations.", prefixed("OP", [operation.name for operation in OPERATIONS], 1))
    out += enum("Results of tick, switch and direct_switch_to.",
                [("RESULT_NOT_DUE", 0), ("RESULT_SWITCHED", 1), ("RESULT_ALL_CONTEXTS_IDLE", 2)])
    out += enum("Rules of a decision.", [("RULE_NONE", 0)] + prefixed("RULE", [rule.name for rule in RULES], 1))
    out += enum("Statuses of a context.", prefixed("STATUS", STATUS))
    out += enum("States of a CPU.", prefixed("STATE", STATE))
    out += ["/* Limits. */"] + ["#define RONTHUYAL_%s UINT64_C(%d)" % row[:2] for row in LIMITS] + [""]
    out += ["/* Sizes: an image of c CPUs and n contexts has so many words, context x's record begins at so many, CPU k's block at",
            "   so many. */"]
    sizes, words, block = len(SIZES), RECORD_WORDS, BLOCK_WORDS
    out += ["#define RONTHUYAL_RECORD_WORDS %d" % words, "#define RONTHUYAL_BLOCK_WORDS %d" % block,
            "#define RONTHUYAL_LENGTH(c, n) ((size_t)%d + (size_t)%d * (n) + (size_t)%d * (c))" % (sizes, words, block),
            "#define RONTHUYAL_RECORD(x) ((size_t)%d + (size_t)%d * (x))" % (sizes, words),
            "#define RONTHUYAL_BLOCK(n, k) ((size_t)%d + (size_t)%d * (n) + (size_t)%d * (k))" % (sizes, words, block),
            ""]
    out += enum("Words of a record, from its beginning.", prefixed("CONTEXT", [word.name for word in RECORD]))
    out += enum("Words of a block, from its beginning; slot i of an array is i words behind its place.",
                prefixed("BLOCK", [word.name for word in SINGLE])
                + [("BLOCK_" + constant(array.name), array_place(array)) for array in ARRAYS]
                + prefixed("BLOCK", [word.name for word in LAST], LAST_PLACE))
    out += ["/* A window: its length, and where its words begin; of each column one for each record, oldest first. */",
            "#define RONTHUYAL_WINDOW_WORDS %d" % WINDOW_WORDS, "#define RONTHUYAL_WINDOW_CAPACITY %d" % WINDOW_CAPACITY]
    out += ["#define RONTHUYAL_WINDOW_%s %d" % (constant(name), at) for name, at, _ in WINDOW] + [""]
    return "\n".join(out + ["#ifdef __cplusplus", "}", "#endif", "", "#endif"]) + "\n"


def table(head, rows):
    return "\n".join("| %s |" % " | ".join(row) for row in [head, ["---"] * len(head)] + rows)


def broken(range, also):
    """The refusals that a broken word gives; a word without a range breaks nothing by itself."""
    return "none" if range == ANY else "3; 4: " + also if also else "3"


def tables():
    def rows(words):
        return [["%d" % at, "`%s`" % word.name, word.says, word.unit, word.range, word.default,
                 broken(word.range, word.also)]
                for at, word in words]

    head = ["word", "name", "says", "unit", "range", "default", "broken: refusal"]
    arrays = [["%d" % array_place(array), "`%s`" % array.item.replace("%d", "i"), array.says, array.unit, array.range,
               "`%s`" % array.count, broken(array.range, array.also)] for array in ARRAYS]
    operations = [["%d" % number, "`%s`" % o.name, "yes" if o.takes else "", o.says, o.result]
                  for number, o in enumerate(OPERATIONS, 1)]
    calls = [["`ronthuyal_%s(%s)`" % (call.name, ", ".join(call.lent + call.takes)), call.says, call.result]
             for call in CALLS]
    rules = [["%d" % number, rule.says, rule.when] for number, rule in enumerate(RULES, 1)]
    numbered = [*enumerate(REFUSALS, 1), *MORE_REFUSALS.items()]
    refusals = [["%d" % number, says] for number, says in numbered]
    return {"record": table(head, rows(enumerate(RECORD))),
            "block": table(head, rows(list(enumerate(SINGLE)) + last())),
            "arrays": table(["from word", "name", "says", "unit", "range", "used slots", "broken: refusal"], arrays),
            "operations": table(["operation", "the kernel's function", "takes a context", "does", "result"],
                                operations),
            "calls": table(["call", "does", "result"], calls),
            "rules": table(["rule", "name", "given exactly when, of an accepted decision"], rules),
            "refusals": table(["refusal", "given exactly when"], refusals)}


def with_tables(text):
    for name, rows in tables().items():
        begin, end = "<!-- %s: %s -->" % (name, BY.lower()), "<!-- end -->"
        text, count = re.subn(re.escape(begin) + ".*?" + re.escape(end), lambda _: begin + "\n" + rows + "\n" + end,
                              text, flags=re.S)
        assert count == 1, (name, count)
    return text


def main():
    os.makedirs("include", exist_ok=True)
    c_header = header()
    written = {"rust/image/src/places.rs": rust_layout.places(), "rust/image/src/tables.rs": rust_layout.tables(),
               "rust/sys/src/exports.rs": rust_layout.sys(c_header), "rust/ronthuyal/src/rules.rs": rust_layout.rules(),
               "include/ronthuyal.h": c_header}
    for name, text in written.items():
        with open(name, "w") as out:
            out.write(text)
    page = "docs/IMAGE.md"
    text = open(page).read()
    with open(page, "w") as out:
        out.write(with_tables(text))


main()

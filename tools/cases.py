#!/usr/bin/env python3
"""Writes crates/cases/stdin and stdout. Where a case has not all of its changed words worked out by hand, they are
those of the kernel's run (its changed build where the port departs from it); what document 01 says of them stands
beside the case and is held to that run, and so is what is worked out by hand. Run it from the root of the repository,
after harness/run has built the harness; RONTHUYAL_COMPARE names another build of its program."""
import os
import subprocess

import apart_cases
import ask_cases
import group_cases
import humblest_cases
import image_cases
import newest_cases
import plain_cases
import refused_cases
import remainder_cases
import rival_cases
import rule_cases
import switch_cases
import timer_cases
import weight_cases
import window_cases
from case import Case, Machine

KERNEL = [os.environ.get("RONTHUYAL_COMPARE", "harness/target/release/compare"), "answers"]


def numbers(*parts):
    return " ".join(str(number) for part in parts for number in part)


def pairs(words):
    return [number for pair in sorted(words.items()) for number in pair]


def listed(length, words):
    words = {place: word for place, word in words.items() if word}
    return numbers((length, len(words)), pairs(words))


def line_of(case, call):
    parts = [numbers(call)]
    if call[0] in ("d", "s", "t"):
        parts.append(listed(*case.window))
    if call[0] not in ("s", "t"):
        parts.append(listed(case.length, case.words))
    return " ".join(parts)


def list_of(items, line):
    """The titles, and a line for each case."""
    lines = []
    for item in items:
        lines += ["# " + item] if isinstance(item, str) else ["# " + item.title, line(item)]
    return "\n".join(lines) + "\n"


def asked(case, line):
    """The five numbers of the kernel's switch."""
    refusal, result, _, _, _, *changed = map(int, line.split())
    if refusal:
        return refusal, 0, 0, 0, 0
    cpu, machine = case.call[1], Machine(case.words[0], case.words[1])
    after = {**case.words, **dict(zip(changed[::2], changed[1::2]))}
    return (0, result, *(after.get(machine.on(cpu, word), 0) for word in ("sched_ctxt", "current_ctxt", "v")))


def switch_of(case):
    """What the kernel is asked for: to ask and to commit is a switch at that time, a window is not its matter, nor is by
    which engine a call is made."""
    if case.call[0] in ("d", "p"):
        return case.call[1:]
    if case.call[0] == "o":
        # It has nothing that says whether two CPUs are apart: only the checks before that are asked for.
        return "w", case.call[1]
    return (2, *case.call[1:3], 0) if case.call[0] in ("a", "c") else case.call


def window_refusal(case, contexts):
    """The number by which a window is refused."""
    length, words = case.window
    count = words.get(0, 0)
    if length != 513 or count > 256:
        return 1
    fit = (words[1 + slot] < contexts and words[257 + slot] < 2**52 for slot in range(count))
    return 0 if all(fit) else 3


def in_window(case, line):
    """A call's answer and the image's changed words, then the window's: these are worked out by hand."""
    if line.split()[0] == "0":
        number = window_refusal(case, case.words[1])
        line = "%d 0 0 0 0" % number if number else line
    before = case.window[1]
    changed = {place: word for place, word in case.added.items() if before.get(place, 0) != word}
    return " ".join([line, numbers((len(changed),), pairs(changed))]).strip()


def shared(case):
    """The sum over the records of a window."""
    number = window_refusal(case, case.call[1])
    words = case.window[1]
    slots = range(0 if number else words.get(0, 0))
    times = [words[257 + slot] for slot in slots if case.call[0] == "t" or words[1 + slot] == case.call[2]]
    return numbers((number, sum(times), 0, 0, 0))


def told(case, line):
    """What is printed, from what the kernel answers: a commit is refused by 13 if its reply is not the switch's."""
    if case.call[0] == "a":
        return numbers(asked(case, line))
    if case.call[0] == "o":
        refusal = int(line.split()[0])
        assert refusal in (0, case.answer[0]), (case.title, line)
        return numbers(case.answer, (0, 0))
    if case.call[0] == "c" and line.split()[0] == "0" and asked(case, line) != case.call[3:]:
        return "13 0 0 0 0"
    return in_window(case, line) if case.call[0] == "d" else line


def check(case, line):
    """That the kernel's answer has what the case says."""
    if case.call[0] in ("a", "h", "r"):
        assert tuple(map(int, line.split())) == case.answer, (case.title, line)
        return
    refusal, result, interrupt, rule, count, *changed = map(int, line.split())
    if case.call[0] == "d":
        decided, added = rule, changed[2 * count]
        assert bool(decided) or not added, (case.title, line)
    changed = dict(zip(changed[:2 * count:2], changed[1:2 * count:2]))
    after = {**case.words, **changed}
    assert (refusal, result, interrupt) == case.answer, (case.title, line)
    # Only operations 1 to 3 and a commit decide, and a refused call does not.
    operation = case.call[1] if case.call[0] in ("d", "p") else case.call[0]
    expected = case.rule if operation in (1, 2, 3, "c") and not refusal else 0
    assert expected in (None, rule), (case.title, rule, expected)
    for place, word in case.after.items():
        assert after.get(place, 0) == word, (case.title, place, after.get(place, 0), word)
    assert not case.whole or changed == case.after, (case.title, line)


def main():
    items = (image_cases.CASES + switch_cases.CASES + refused_cases.CASES + group_cases.CASES
             + timer_cases.CASES + newest_cases.CASES + rule_cases.CASES + weight_cases.CASES + remainder_cases.CASES
             + ask_cases.CASES + window_cases.CASES + humblest_cases.CASES
             + rival_cases.CASES + apart_cases.CASES + plain_cases.CASES)
    kernel = [item for item in items if isinstance(item, Case) and item.call[0] not in ("s", "t")]
    switches = list_of(kernel, lambda case: line_of(case, switch_of(case)))
    answers = subprocess.run(KERNEL, input=switches, capture_output=True, text=True, check=True).stdout
    lines = [line for line in answers.splitlines() if not line.startswith("#")]
    cases = [item for item in items if isinstance(item, Case)]
    answered = iter(lines)
    lines = [shared(case) if case.call[0] in ("s", "t") else told(case, next(answered)) for case in cases]
    for case, line in zip(cases, lines, strict=True):
        check(case, line)
    answered = iter(lines)
    with open("crates/cases/stdin", "w") as stdin, open("crates/cases/stdout", "w") as stdout:
        stdin.write(list_of(items, lambda case: line_of(case, case.call)))
        stdout.write(list_of(items, lambda case: next(answered)))


main()

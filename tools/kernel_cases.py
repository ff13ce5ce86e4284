#!/usr/bin/env python3
"""Calls of the kernel's own run as one antt file.

usage: kernel_cases.py [--every] LIST.. > crates/model_cases/specs/KernelCases.antt

A list is text, a line for each call, or words of 64 bits (name ending in .bin), as harness/recorded/README.md describes
them. Taken are calls of operations 1 to 3 that were accepted or found no room: of a text list all, of a .bin list those
without room and some small machines, each of another kind than those before. With --every all of them are taken: more
than one theorem can compute.
"""
import struct
import sys

from layout import length

HEAD = '''-- Calls of the kernel's own run: words before, result, words after. Written by tools/kernel_cases.py. Assumes nothing.
use Rattle.std.specs.Prelude.{◌≡◌, refl, Bool, true, false, List, [], ◌∷◌, ℕ}
use Rattle.model.specs.Opened.{opened}
use Rattle.model_cases.specs.Replay.{KernelCase, called, every_passes, zeros, sparse, same_words, replay, passes}

unfoldable pub kernel_cases : List KernelCase
kernel_cases =
'''
TAIL = '''    []

pub every_case_passes : every_passes kernel_cases ≡ true
unfolding opened kernel_cases zeros sparse same_words replay passes every_passes
every_case_passes = refl
'''


def from_text(name):
    for line in open(name):
        line = line.strip()
        if line and not line.startswith('#'):
            call, image, answer, changed = [p.strip() for p in line.split('|')]
            pairs = lambda text: [tuple(map(int, w.split(':'))) for w in text.split()]
            words = dict(pairs(image))
            yield tuple(map(int, call.split())), size_of(words), words, tuple(map(int, answer.split())), dict(pairs(changed))


def from_words(name):
    data = open(name, 'rb').read()
    words = iter(struct.unpack(f'<{len(data) // 8}Q', data))
    pairs = lambda: {next(words): next(words) for _ in range(next(words))}
    for _ in range(next(words)):
        call = tuple(next(words) for _ in range(4))
        size = next(words)
        image = pairs()
        answer = tuple(next(words) for _ in range(4))
        yield call, size, image, answer, pairs()


def size_of(words):
    return length(words.get(0, 0), words.get(1, 0))


def sparse(words, size):
    at, out = 0, []
    for i, v in sorted(words.items()):
        if v:
            out += [i - at, v]
            at = i + 1
    return ' ∷ '.join(map(str, out + [size - at])) + ' ∷ []'


def show(call, size, before, answer, changed):
    op, cpu, time, ctx = call
    after = {**before, **changed}
    full = 'true' if answer[0] else 'false'
    return f'    called {op} {cpu} {time} {ctx} {full} {answer[1]} ({sparse(before, size)})\n    ({sparse(after, size)}) ∷\n'


def main():
    out, every = [], '--every' in sys.argv
    for name in (a for a in sys.argv[1:] if a != '--every'):
        kinds = set()
        for case in (from_words if name.endswith('.bin') else from_text)(name):
            call, size, before, answer, changed = case
            if call[0] not in (1, 2, 3) or answer[0] not in (0, 9):
                continue
            kind = (call[0], answer[:3], before[0], len(changed))
            if name.endswith('.bin') and not every:
                if not answer[0] and (len(before) > 90 or kind in kinds or len(out) >= 82):
                    continue
            kinds.add(kind)
            out.append(show(*case))
    sys.stdout.write(HEAD + ''.join(out) + TAIL)


main()

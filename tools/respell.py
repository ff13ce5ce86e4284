#!/usr/bin/env python3
"""Respells the repository's own names of specs/ and proofs/ as today's Rattle spells names.

usage: tools/respell.py [TOP]

It was run once, right after port.py, at the top of the repository. A definition, a field, a constructor or a lemma of
ours is in snake case, one that is a type in upper camel case: column-insert becomes column_insert, best-below becomes
BestBelow. Functions of src/, exported names, strings and prose keep their spelling. A name that a file imports from a
library of the toolchain stays in that file. Names that would fall together with another one get the ending of TAKEN.
"""
import collections
import glob
import os
import re
import sys

WORD = r"[^\s(){}.;,@\"«»\[\]\\`:]+"
TOKEN = re.compile(r"--[^\n]*|\"(?:[^\"\\]|\\.)*\"|«[^»]*»|" + WORD + r"|:")
RUST = re.compile(r"//[^\n]*|\"(?:[^\"\\]|\\.)*\"|" + WORD + r"|:")
DECLARED = re.compile(r"^\s*(?:let |in let |in |where )*((?:(?:abbrev|unfoldable|pub) )*)(?:record |data |ruleset )?(" + WORD + r")((?: [({][^)}]*[)}])*) :( .*)?$")
# What falls together with a name that is there already, by its file's crate ("" is every crate).
TAKEN = {}
TYPE = re.compile(r"(?:^|→ )Type(?: \S+)?$")


def texts(top, *ends):
    for folder, dirs, files in os.walk(os.path.join(top, "crates")):
        dirs[:] = sorted(d for d in dirs if d not in ("out", "data"))
        for name in sorted(files):
            if name.endswith(ends):
                yield os.path.join(folder, name)


def read(path):
    with open(path, encoding="utf-8") as file:
        return file.read()


def camel(name):
    return "".join(part[:1].upper() + part[1:] for part in re.split("[-_]", name))


def own_names(top):
    """Each name of ours that has a dash, or is a type in lower case, with its new spelling."""
    found = collections.defaultdict(list)
    for path in texts(top, ".antt"):
        text = read(path)
        for line in text.splitlines():
            it = DECLARED.match(line)
            if it:
                found[it[2]].append((it[4] or "").strip())
            # fields and constructors of a line, names of a module
            for more in re.findall(r" as (" + WORD + r")$", line):
                found[more].append("")
    new = {}
    for name, kinds in found.items():
        if name.startswith(("-", "←")) or "◌" in name or not re.search(r"\w", name):
            continue
        if name[0].islower() and all(TYPE.search(it) for it in kinds):
            new[name] = camel(name)
        elif "-" in name:
            new[name] = re.sub(r"(?<=.)-(?=.)", "_", name)
    return new


def outside(text):
    """The names that a file imports from libraries of the toolchain."""
    names = set()
    for module, listed in re.findall(r"(?m)^(?:pub |ghost )?use (\S+)\.\{([^}]*)\}", text):
        own = re.match(r"Rattle\.(\w+)\.", module)
        if not own or own[1] in ("std", "core"):
            for it in listed.split(","):
                names.update(word.strip() for word in it.split(" as "))
    return names


def respelled(text, new, rust):
    kept = outside(text)

    def one(found):
        word = found[0]
        if word.startswith("//" if rust else "--"):
            return re.sub(r"`(" + WORD + r")`", lambda it: "`" + new.get(it[1], it[1]) + "`", word)
        return word if word in kept else new.get(word, word)

    return (RUST if rust else TOKEN).sub(one, text)


def main(top):
    new = own_names(top)
    for path in texts(top, ".antt", ".rt", ".edit"):
        before = read(path)
        if path.endswith(".edit"):
            lines = before.splitlines(keepends=True)
            after = "".join(it[:5] + respelled(it[5:], new, ".rt" in lines[0]) if it.startswith(("old: ", "new: ")) else it for it in lines)
        else:
            after = respelled(before, new, path.endswith(".rt"))
        if after != before:
            with open(path, "w", encoding="utf-8") as file:
                file.write(after)
            words = before_words(before, path)
            for name in sorted(a for a in words if new.get(a) in words and a not in outside(before)):
                print(f"falls together: {path}: {name} and {new[name]}")


def before_words(text, path):
    return set((RUST if path.endswith(".rt") else TOKEN).findall(text))


if __name__ == "__main__":
    main(sys.argv[1] if len(sys.argv) > 1 else ".")

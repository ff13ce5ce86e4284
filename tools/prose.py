#!/usr/bin/env python3
"""Breaks the prose of the repository's pages at 120 columns; tables, headings and code stay as they are.

usage: prose.py [--check] [FILE..]     without files: README.md, CHANGELOG.md, docs/, harness/
With --check nothing is written, and the status is 1 if a page would change."""
import glob
import re
import sys
import textwrap

WIDTH, KEPT = 120, "\ue000"
# A line must not begin with what makes it a list.
JOINT = re.compile(r" (?=[-+*] )|(?<= [-+*]) ")
ITEM = re.compile(r"(\s*)([-*]|\d+\.) ")
OTHER = re.compile(r"\s*$|#|\||<!--|    ")


def broken(text, first, later):
    kept = JOINT.sub(KEPT, re.sub(r"\s+", " ", text.strip()))
    lines = textwrap.wrap(kept, WIDTH, initial_indent=first, subsequent_indent=later, break_long_words=False,
                          break_on_hyphens=False)
    return [line.replace(KEPT, " ") for line in lines]


def page(text):
    out, part, indents, fenced = [], [], ("", ""), False

    def end():
        if part:
            out.extend(broken(" ".join(part), *indents))
            part.clear()

    for line in text.split("\n"):
        item = ITEM.match(line)
        if line.startswith("```"):
            end()
            fenced = not fenced
            out.append(line)
        elif fenced or (OTHER.match(line) and not (part and line.startswith("  ") and line.strip() and indents[1])):
            end()
            out.append(line)
        elif item:
            end()
            indents = (item.group(), " " * len(item.group()))
            part.append(line[item.end():])
        else:
            if not part:
                indents = ("", "")
            part.append(line)
    end()
    return "\n".join(out)


def main():
    words = [word for word in sys.argv[1:] if word != "--check"]
    files = words or ["README.md", "CHANGELOG.md"] + sorted(glob.glob("docs/**/*.md", recursive=True)
                                                             + glob.glob("harness/**/README.md", recursive=True))
    changed = 0
    for name in (f for f in files if "/target/" not in f):
        text = open(name).read()
        if page(text) != text:
            changed += 1
            print(name)
            if "--check" not in sys.argv:
                with open(name, "w") as out:
                    out.write(page(text))
    sys.exit(1 if changed and "--check" in sys.argv else 0)


main()

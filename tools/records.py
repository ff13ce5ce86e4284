#!/usr/bin/env python3
"""Writes what follows from the field lists of the image's records: the specs `Words`
(a record's words, and the record of the words) and `With` (a record with one field changed), and where the words of a
block stand (`places` and `Places` of percpu).

Run it from the root of the repository after a list of tools/layout.py changes."""
from layout import ARRAYS, BLOCK, CONTEXT, COUNTS, LAST, LISTS, ROOM, STATS, WIDTH


def record(fields, value, indent="    "):
    inner = "".join("%s  %s = %s;\n" % (indent, f, value(f, t)) for f, t in fields)
    return "record {\n%s%s}" % (inner, indent)


def antt_type(t, own):
    return {"bool": "Bool", "u64": "ℕ", "record": "CpuStats"}.get(t) or (own if t.startswith("enum:") else t)


def to_word(f, t):
    x = "c.%s" % f
    if t == "bool":
        return "mark %s" % x
    if t.startswith("enum:"):
        return "%s_number %s" % (t[5:], x)
    return x


def words(fn, typ, fields):
    parts, run = [], []
    for f, t in fields:
        if t == "record":
            parts.append("(%s ∷ [])" % " ∷ ".join(run))
            parts.append("stats_words c.%s" % f)
            run = []
        else:
            run.append(to_word(f, t))
    if parts:
        parts.append("(%s ∷ [])" % " ∷ ".join(run))
        body = "%s\n    ++ (%s\n    ++ %s)" % tuple(parts)
    else:
        body = " ∷\n    ".join(run) + " ∷ []"
    return "unfoldable pub %s : %s → List ℕ\n%s c =\n    %s\n" % (fn, typ, fn, body)


def of(fn, typ, fields, at=0):
    place = [at]

    def value(f, t):
        i = place[0]
        place[0] += WIDTH.get(t, 1)
        if t == "record":
            return "stats_of (part w %d %d)" % (i, WIDTH[t])
        x = "get_or w %d 0" % i
        if t == "bool":
            return "eqb (%s) 1" % x
        if t.startswith("enum:"):
            return "%s_of (%s)" % (t[5:], x)
        return x

    return "unfoldable pub %s : List ℕ → %s\n%s w =\n    %s\n" % (fn, typ, fn, record(fields, value))


def back(fn, words_fn, typ, fields):
    def value(f, t):
        x = "c.%s" % f
        if t == "bool":
            return "mark_back %s j" % x
        if t.startswith("enum:"):
            return "%s_back %s j" % (t[5:], x)
        if t == "record":
            return "stats_of_words %s j" % x
        return x

    return ("pub %s_words : (c : %s) → %s (%s c) ≡ c\nunfolding %s %s%s\n%s_words c = λ j.\n    %s\n"
            % (fn, typ, fn, words_fn, words_fn, fn, " stats_words part" if any(t == "record" for _, t in fields) else "",
               fn, record(fields, value)))


def setters(prefix, typ, fields, own):
    out = []
    for f, t in fields:
        fn = "%s_%s" % (prefix, f)
        out.append("abbrev pub %s : %s → %s → %s\n%s x c =\n    %s\n" % (
            fn, antt_type(t, own), typ, typ, fn,
            record(fields, lambda g, _: "x" if g == f else "c.%s" % g)))
    return out


def lifted(prefix, over, field, inner, typ, fields, own):
    """Setters of a record inside another: `typ` has `field`, whose setters begin with `inner`."""
    out = []
    for f, t in fields:
        fn = "%s_%s" % (prefix, f)
        out.append("abbrev pub %s : %s → %s → %s\n%s x c = %s_%s (%s_%s x c.%s) c\n" % (
            fn, antt_type(t, own), typ, typ, fn, over, field, inner, f, field))
    return out


HEAD = """-- %s Written by tools/records.py.
use Rattle.std.specs.Prelude.{ℕ, Bool, true, false, ◌≡◌, refl, List, [], ◌∷◌, ◌++◌, eqb, length, get_or}
"""


def write(path, head, imports, parts):
    with open(path, "w") as out:
        out.write(HEAD % head + "".join("use %s\n" % i for i in imports) + "\n" + "\n".join(parts))


def size(name, n):
    return "abbrev pub %s : ℕ\n%s = %d\n" % (name, name, n)


def sized(words_fn, typ, n, extra=""):
    return "pub length_%s : (c : %s) → length (%s c) ≡ %s\nunfolding %s%s\nlength_%s c = refl\n" % (
        words_fn, typ, words_fn, n, words_fn, extra, words_fn)


def places():
    """Name and number of each place of a block, and of the sizes, in order."""
    scalars = [g for f, t in BLOCK for g in ([n for n, _ in STATS] if t == "record" else [f])]
    front = scalars + COUNTS
    out = [(f, i) for i, f in enumerate(front)] + [("scalars_size", len(scalars)), ("front_size", len(front))]
    out += [(array.name, len(front) + ROOM * i) for i, array in enumerate(ARRAYS)]
    end = len(front) + ROOM * len(ARRAYS)
    out += [("columns_end", end)] + [(word.name, end + i) for i, word in enumerate(LAST)]
    return out + [("block_size", end + len(LAST))]


def consts(path, what, pairs):
    with open(path, "w") as out:
        out.write("// %s Written by tools/records.py.\n" % what
                  + "\n".join("pub const %s: usize = %d;\n" % (f.upper(), i) for f, i in pairs))


def write_places():
    columns = [array.name for array in ARRAYS]
    ends = ["scalars_size", "front_size", "columns_end", "block_size"]
    named = [(f + ("_column" if f in columns else "" if f in COUNTS + ends else "_place"), n) for f, n in places()]
    consts("crates/percpu/src/places.rt", "Where the words of a block stand, its size, and that of a column.",
           places() + [("room", ROOM)])
    consts("crates/context/src/places.rt", "Where the words of a record stand, and its size.",
           [(f, i) for i, (f, _) in enumerate(CONTEXT)] + [("record_size", len(CONTEXT))])
    with open("crates/percpu/specs/Places.antt", "w") as out:
        out.write("-- Where the words of a block stand, and its size. Written by tools/records.py.\n"
                  "use Rattle.std.specs.Prelude.{ℕ}\n\n"
                  + "\n".join("abbrev pub %s : ℕ\n%s = %d\n" % (f, f, i) for f, i in named))


def pair(crate, typ, fields, fn, enum, setter, what, size_name, uses=()):
    """Both files of a record that has one enum: `enum` names its type and the prefix of its number and inverse."""
    own = "Rattle.%s.specs." % crate
    words_fn, of_fn = fn + "_words", fn + "_of"
    declared, (enum_typ, prefix) = own + "declared.%s.{%s}" % (typ, typ), enum
    inverse = own + "%s.{%s_number, %s_of, %s_back}" % (prefix.capitalize(), prefix, prefix, prefix)
    write("crates/%s/specs/Words.antt" % crate, what[0], [declared, inverse, *uses],
          [size(size_name, len(fields)), words(words_fn, typ, fields), of(of_fn, typ, fields),
           back(of_fn, words_fn, typ, fields), sized(words_fn, typ, size_name)])
    write("crates/%s/specs/With.antt" % crate, what[1], [declared, own + "declared.%s.{%s}" % (enum_typ, enum_typ)],
          setters(setter, typ, fields, enum_typ))


def main():
    marks = "Rattle.columns.specs.Common.{mark, mark_back}"
    pair("context", "Context", CONTEXT, "context", ("Status", "status"), "with",
         ("The 26 words of a context's record, and the record of the words.",
          "A context's record with one field changed."), "record_size", [marks])
    pair("cpu_stats", "CpuStats", STATS, "stats", ("CpuState", "state"), "stats",
         ("The six words of a CPU's statistics, and the statistics of the words.",
          "A CPU's statistics with one field changed."), "stats_size")
    percpu = "Rattle.percpu.specs."
    write("crates/percpu/specs/Words.antt", "The first 21 words of a CPU's block, and the scalars of the words.",
          [percpu + "declared.PercpuBlock.{PercpuBlock}", marks,
           percpu + "Places.{scalars_size}", "Rattle.columns.specs.Blocks.{part}", "Rattle.cpu_stats.specs.declared.CpuStats.{CpuStats}",
           "Rattle.cpu_stats.specs.Words.{stats_words, stats_of, stats_of_words}"],
          [words("block_words", "PercpuBlock", BLOCK), of("block_of", "PercpuBlock", BLOCK),
           back("block_of", "block_words", "PercpuBlock", BLOCK),
           sized("block_words", "PercpuBlock", "scalars_size", " stats_words")])
    write("crates/percpu/specs/With.antt", "A CPU with one field of its block, one list, or the last word changed.",
          [percpu + "declared.PercpuBlock.{PercpuBlock}", percpu + "Cpu.{Cpu}",
           "Rattle.cpu_stats.specs.declared.CpuStats.{CpuStats}",
           "Rattle.entries.specs.declared.Entry.{Entry}", "Rattle.entries.specs.declared.Timer.{Timer}"],
          setters("block", "PercpuBlock", BLOCK, "CpuState")
          + setters("cpu", "Cpu", [("block", "PercpuBlock")] + LISTS + [(word.name, word.kind) for word in LAST], "")
          + lifted("cpu", "cpu", "block", "block", "Cpu", BLOCK, "CpuState"))
    write_places()


main()

"""The Rust files that follow from the lists of tools/layout.py, and the one table of weights of crates/weights:
places and tables of ronthuyal-image, and the calls of ronthuyal-sys. tools/places.py writes them."""
import re

from layout import (ADDR_SPACE, ANY, ARRAYS, BLOCK_WORDS, CALLS, CONTEXT_NUMBER, CONTEXTS, COUNT, CPUS, ID, ID_MAX, LAST,
                    LAST_PLACE, LOCK, MARK, MORE_REFUSALS, NUMBER, NUMBER_MAX, OPERATIONS, PRIO_MAX, RECORD, RECORD_WORDS,
                    REFUSALS, REMAINDER, REMAINDER_MAX, ROOM, RULES, SINGLE, SIZES, SLICE, SLICE_MAX, STATE, STATUS,
                    TURN_MAX, WEIGHT_MAX, WEIGHT_MIN, array_place)

BY = "Written by tools/places.py"
LIMITS = [("CPUS", CPUS, "The most CPUs."), ("CONTEXTS", CONTEXTS, "The most contexts."),
          ("ROOM", ROOM, "Room in a queue, timer set or list."),
          ("NUMBER_MAX", NUMBER_MAX, "Numbers go up to this, unless said otherwise."),
          ("ID_MAX", ID_MAX, "The greatest id."), ("SLICE_MAX", SLICE_MAX, "A whole slice, in scaled ticks."),
          ("TURN_MAX", TURN_MAX, "The most that a turn may last, in nanoseconds."),
          ("PRIO_MAX", PRIO_MAX, "The last priority, which weighs least."),
          ("WEIGHT_MIN", WEIGHT_MIN, "The least weight."), ("WEIGHT_MAX", WEIGHT_MAX, "The greatest weight."),
          ("REMAINDER_MAX", REMAINDER_MAX, "The most that a CPU carries of a tick.")]
# How the unit of a word is called in Rust; the two sorts of locks have names of their own for their values.
UNITS = {"mark": "Mark", "id": "Id", "status": "Status", "CPU + 1": "CpuPlusOne", "ns": "Nanoseconds", "mask": "Mask",
         "priority": "Priority", "virtual time": "VirtualTime", "scaled ticks": "ScaledTicks", "lock": "Lock",
         "context": "Context", "timer ticks": "TimerTicks", "entries": "Items", "timers": "Items", "names": "Items",
         "count": "Items", "weight": "Weight", "decisions": "Decisions", "state": "State", "ms": "Milliseconds",
         "2^-30 ns": "Remainder"}
RANGES = {MARK: (0, 1), NUMBER: (0, NUMBER_MAX), SLICE: (0, SLICE_MAX), ID: (0, ID_MAX), COUNT: (0, ROOM),
          REMAINDER: (0, REMAINDER_MAX)}
SCOPES = {ANY: "Any", CONTEXT_NUMBER: "Contexts", "0 to C": "Cpus"}


def constant(name):
    """AwaitingMmap and has_wake as constants are named."""
    return re.sub("(?<=[a-z])(?=[A-Z])", "_", name).upper()


def last():
    """The words behind a block's arrays, with their places."""
    return list(enumerate(LAST, LAST_PLACE))


def sentence(text):
    return text[0].upper() + text[1:] + "."


def consts(kind, rows, indent="    "):
    """Constants (name, number, what it says)."""
    out = []
    for name, number, says in rows:
        out += [indent + "/// " + says, "%spub const %s: %s = %d;" % (indent, constant(name), kind, number)]
    return out


def names(title, kind, items, says):
    head = ["    /// " + says, "    pub const %s: [%s; %d] = [" % (title, kind, len(items))]
    if len(items) == 1:
        return [head[0], head[1] + items[0] + "];"]
    return head + ["        %s," % item for item in items] + ["    ];"]


def quoted(words):
    return ['"%s"' % word.name for word in words]


def counted():
    """The arrays by the count word that speaks for them."""
    counts = list(dict.fromkeys(array.count for array in ARRAYS))
    return [(count, [constant(array.name) for array in ARRAYS if array.count == count]) for count in counts]


def columns():
    out = ["    /// The columns that each count word speaks for.",
           "    pub const COLUMNS: [(usize, &[usize]); %d] = [" % len(counted())]
    for count, arrays in counted():
        line = "        (%s, &[%s])," % (constant(count), ", ".join(arrays))
        if len(arrays) < 3 and len(line) < 88:
            out.append(line)
        else:
            out += ["        (", "            %s," % constant(count), "            &["]
            out += ["                %s," % array for array in arrays] + ["            ],", "        ),"]
    return out + ["    ];", ""]


def places():
    out = ["//! Places and names of an image's words. %s." % BY, ""]
    out += ["/// Words of a context's record.", "pub mod context {"]
    out += consts("usize", [(word.name, place, sentence(word.says)) for place, word in enumerate(RECORD)]
                  + [("words", RECORD_WORDS, "How many words a record has.")]) + [""]
    out += consts("u64", [(status, number, "A status of a context.") for number, status in enumerate(STATUS)]) + [""]
    out += names("NAMES", "&str", quoted(RECORD), "Names of the words.") + ["}", ""]
    out += ["/// Words of a CPU's block: single ones, then columns of 64, then the last ones.", "pub mod block {"]
    out += consts("usize", [(word.name, place, sentence(word.says)) for place, word in enumerate(SINGLE)]
                  + [("single", len(SINGLE), "How many single words stand before the columns.")]) + [""]
    out += consts("usize", [(array.name, array_place(array), sentence(array.says)) for array in ARRAYS]
                  + [("last", LAST_PLACE, "Where the words behind the columns begin.")]) + [""]
    out += consts("usize", [(word.name, place, sentence(word.says)) for place, word in last()]
                  + [("words", BLOCK_WORDS, "How many words a block has.")]) + [""]
    out += columns()
    out += names("NAMES", "&str", quoted(SINGLE), "Names of the single words.")
    out += names("LAST_NAMES", "&str", quoted(LAST), "Names of the words behind the columns.") + [""]
    out += names("COLUMN_NAMES", "(&str, &str)", ['("%s", "%s")' % tuple(array.item.split("[%d]")) for array in ARRAYS],
                 "Names of the columns: before and after the slot in brackets.")
    out += ["}", "", "/// What the numbers of the rules stand for.",
            "pub const RULES: [&str; %d] = [" % (len(RULES) + 1), '    "no decision",']
    out += ['    "%s",' % rule.says for rule in RULES]
    return "\n".join(out + ["];"]) + "\n"


def bounds(text):
    """A range as a reader is told it, as an expression of Rust."""
    if text in SCOPES:
        return "Range::" + SCOPES[text]
    if text in RANGES:
        return "Range::Between(%d, %d)" % RANGES[text]
    low, high = text.replace(",", "").split(" to ")
    return "Range::Between(%d, %d)" % (int(low), int(high))


def default(word):
    return {"all ones": "u64::MAX", "next free": "0", "-": "0"}.get(word.default, word.default)


def word_row(word, places_of):
    allowed, _, condition = word.range.partition("; 0 without ")
    mark = places_of + "::" + constant(condition.strip("`")) if condition else None
    unit = "AddrSpace" if word.name == "addr_space" else UNITS[word.unit]
    return ["    Word {", '        name: "%s",' % word.name, "        unit: Unit::%s," % unit,
            "        range: %s," % bounds(allowed), '        allowed: "%s",' % allowed,
            "        mark: %s," % ("Some(%s)" % mark if mark else "None"),
            "        default: %s," % default(word), '        says: "%s",' % word.says, "    },"]


def array_row(array):
    return ["    Array {", "        place: block::%s," % constant(array.name),
            "        count: block::%s," % constant(array.count), "        word: Word {",
            '            name: "%s",' % array.item.replace("%d", "i"), "            unit: Unit::%s," % UNITS[array.unit],
            "            range: %s," % bounds(array.range), '            allowed: "%s",' % array.range,
            "            mark: None,", "            default: 0,", '            says: "%s",' % array.says, "        },",
            "    },"]


def listed(says, name, kind, rows):
    """A constant that is a list of rows, each of one line or more."""
    return ["/// " + says, "pub const %s: [%s; %d] = [" % (name, kind, len(rows))] + sum(rows, []) + ["];", ""]


def strings(says, name, items):
    return listed(says, name, "&str", [['    "%s",' % item] for item in items])


def weights():
    """The kernel's table, as crates/weights has it."""
    source = open("crates/weights/src/lib.rt").read()
    table = re.search(r"static SCHED_PRIO_TO_WEIGHT: \[u64; 40\] = \[([^\]]*)\]", source).group(1)
    return [int(number) for number in re.findall(r"\d+", table)]


def wrapped(items, indent="    "):
    lines, line = [], indent
    for item in items:
        if len(line + item) + 1 > 100:
            lines.append(line.rstrip())
            line = indent
        line += item + " "
    return lines + [line.rstrip()]


def tables():
    version = open("VERSION").read().strip()
    out = ["//! Names, units, ranges and defaults of an image's words, the calls and their answers. %s." % BY, "",
           "use crate::places::{block, context};", "use crate::word::{Array, CallRow, OperationRow, Range, Unit, Word};", ""]
    out += ["/// Of the layout that these tables are of.", 'pub const VERSION: &str = "%s";' % version, ""]
    out += consts("u64", LIMITS, "") + [""]
    out += listed("The sizes, words 0 and 1.", "SIZES", "Word", [word_row(word, "") for word in SIZES])
    out += listed("A context's record.", "RECORD", "Word", [word_row(word, "context") for word in RECORD])
    out += listed("The first words of a CPU's block.", "SINGLE", "Word", [word_row(word, "block") for word in SINGLE])
    out += listed("The arrays of a CPU's block.", "ARRAYS", "Array", [array_row(array) for array in ARRAYS])
    out += listed("The words behind the arrays.", "LAST", "Word", [word_row(word, "block") for word in LAST])
    out += strings("Statuses of a context, by number.", "STATUS", STATUS)
    out += strings("States of a CPU, by number.", "STATE", STATE)
    out += strings("Values of a context's lock.", "LOCK", LOCK)
    out += strings("Values of an address space.", "ADDR_SPACE", ADDR_SPACE)
    out += listed("The operations, from number 1.", "OPERATIONS", "OperationRow",
                  [["    OperationRow {", '        name: "%s",' % o.name, "        takes_context: %s," % str(o.takes).lower(),
                    '        result: "%s",' % o.result, '        says: "%s",' % o.says, "    },"] for o in OPERATIONS])
    out += listed("The calls that have no number.", "CALLS", "CallRow",
                  [["    CallRow {", '        name: "%s",' % c.name, "        takes: &[%s]," % ", ".join(
                      '"%s"' % word for word in c.takes), "        reads: %s," % str(c.reads).lower(),
                    '        result: "%s",' % c.result, '        says: "%s",' % c.says, "    },"] for c in CALLS])
    refusals = [*enumerate(REFUSALS, 1), *MORE_REFUSALS.items()]
    out += listed("The refusals, by number.", "REFUSALS", "(u64, &str)",
                  [['    (%d, "%s"),' % (number, says)] for number, says in refusals])
    table = weights()
    out += ["/// The weight of each priority, as crates/weights has it.",
            "pub const WEIGHTS: [u64; %d] = [" % len(table)] + wrapped(["%d," % w for w in table]) + ["];"]
    return "\n".join(out) + "\n"


def struct_name(name):
    return "".join(part.capitalize() for part in name.split("_"))


def structs(header):
    """What calls answer with, as the C header has it: name, and the names of the words."""
    found = re.findall(r"struct ronthuyal_(\w+) \{\n(.*?)\};", header, re.S)
    return [(name, re.findall(r"uint64_t (\w+);", fields)) for name, fields in found]


def call_shape(call):
    """What a declaration of a call goes by."""
    return call.name, call.takes, call.reads, call.gives, call.lent, call.kept


def declaration(says, name, takes, reads=False, gives="answer", lent=("image",), kept=()):
    arguments = ["    ) -> %s;" % ("u64" if gives == "number" else struct_name(gives))]
    arguments[:0] = ["        %s: u64," % word for word in takes]
    for at, lend in reversed(list(enumerate(lent))):
        kind = "*const u64" if reads or lend in kept else "*mut u64"
        length = "length" if at == 0 else lend + "_length"
        arguments[:0] = ["        %s: %s," % (lend, kind), "        %s: usize," % length]
    return ["    /// %s" % says, "    pub fn ronthuyal_%s(" % name] + arguments


def sys(header):
    out = ["//! What the archive exports, and the structs that it answers with. %s." % BY, ""]
    for name, fields in structs(header):
        out += ["/// What a call gives: `ronthuyal_%s` of the C header." % name, "#[repr(C)]",
                "#[derive(Clone, Copy, Debug, Default, PartialEq, Eq, Hash)]", "pub struct %s {" % struct_name(name)]
        for field in fields:
            out += ["    /// The word `%s`." % field, "    pub %s: u64," % field]
        out += ["}", ""]
    out += ['unsafe extern "C" {']
    out += declaration("Any operation, by its number.", "call", ["operation", "cpu", "time", "context"])
    for number, o in enumerate(OPERATIONS, 1):
        takes = ["cpu", "time"] + (["context"] if o.takes else [])
        out += declaration("Operation %d: %s." % (number, o.says), o.name, takes)
    for call in CALLS:
        out += declaration(sentence(call.says), *call_shape(call))
    out += ["}", "", "/// The names of all exports."]
    exports = ["call"] + [o.name for o in OPERATIONS] + [call.name for call in CALLS]
    out += ["pub const EXPORTS: [&str; %d] = [" % len(exports)]
    out += ['    "ronthuyal_%s",' % name for name in exports] + ["];"]
    return "\n".join(out) + "\n"


def rules():
    out = ["//! The rules of a decision. %s." % BY, "",
           "/// By which rule a decision left whom in charge; README.md says what each means when one tunes priorities.",
           "#[derive(Clone, Copy, Debug, PartialEq, Eq, Hash)]", "#[non_exhaustive]", "pub enum Rule {"]
    for number, rule in enumerate(RULES, 1):
        out += ["    /// %s: %s." % (sentence(rule.says)[:-1], rule.when), "    %s = %d," % (rule.name, number)]
    out += ["}", "", "impl Rule {", "    /// The rule of this number; 0 is that of a call that decides nothing.",
            "    pub const fn new(number: u64) -> Option<Self> {", "        Some(match number {"]
    out += ["            %d => Self::%s," % (number, rule.name) for number, rule in enumerate(RULES, 1)]
    out += ["            _ => return None,", "        })", "    }", "}"]
    return "\n".join(out) + "\n"

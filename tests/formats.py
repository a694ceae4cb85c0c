#!/usr/bin/env python3
"""Compares docs/formats.md with the constants of crates/format and with the definitions that the model reads requests by: fields with their bits and kinds,
op numbers and names, must and may maps, the items' maps, the numbers of refusals, the rules of a transfer with their numbers and places, and the order of the model's table of requests. Of the enums of refusals and of kinds each variant must have
its line in the definition that gives its number, and no other. Then its tables of the state's words with the names
of crates/layout: regions, each field's word, each word that stands for a case, sizes and limits. Then with the C headers. WRONG has slips of the page: each is made in memory and must be found."""
import collections
import re
import subprocess
import sys
from pathlib import Path

root = Path(__file__).resolve().parent.parent
source = {name: (root / "crates/format/src" / f"{name}.rt").read_text() for name in ("maps", "op", "field", "size", "refusal", "rule")}
spec = (root / "crates/format/specs/Format.antt").read_text()
fields = (root / "crates/format/specs/Fields.antt").read_text()
ops = (root / "crates/format/specs/Ops.antt").read_text()
kinds = (root / "crates/format/specs/Kinds.antt").read_text()
numbers = (root / "crates/format/specs/Refusals.antt").read_text()
rule_numbers = (root / "crates/format/specs/Rules.antt").read_text()
transfer_checks = (root / "crates/model/specs/Transfer.antt").read_text()
model = (root / "crates/model/specs/Words.antt").read_text()
limits = {name: int(number) for name, number in re.findall(r"^(\w+) = (\d+)$", (root / "crates/model/specs/State.antt").read_text(), flags=re.M)}
layout = root / "crates/layout"
header = (root / "c/gurtxozal.h").read_text()
KINDS = {"number": 0, "handle value": 0, "64 rights": 0, "reservation id": 0, "32 bits": 1, "koid": 2}
REFUSALS = "Done Allocation InvalidHandle Busy WrongObjectType AccessDenied UnsupportedRights UnsupportedFlags UnsupportedTransfer ObjectRetired ObjectAlreadyActive ActiveHandleLimit ReservationIdExhausted ReservationTooLarge OutstandingReservation TableFull TableRetired EmptyReservation Misuse Malformed AnswerShort StalePlan".split()
# The numbers of a transfer's refusals in the order that document 01 prints, the rights rule four times and lookup once (document 02, 4)
LOOKUPS = ("NoHandle", "HandleBusy")
ORDER = [16, 17, 13, 1, 12, 2, 2, 5, 5, 5, 5, 8, 5, 8, 4, 9, 11]
TABLES = {"region.rt": "RegionNames.antt", "field.rt": "Fields.antt", "value.rt": "Values.antt", "size.rt": "Sizes.antt"}
# Where the page says the range of a word that stands for a case: the beginning of the cases' names
RANGES = {"lifecycle": ["life"], "tag": ["tag"], "class and state": ["class", "stage"], "what it is": ["kind"], "operation": ["operation"]}
# Slips of the page: a text that stands there once, and what stands there instead
WRONG = [
    ("| 1 | `tag_reserved`", "| 2 | `tag_reserved`"),
    ("| 0 | `life_active`", "| 1 | `life_active`"),
    ("| 2 | `kind_claim`", "| 3 | `kind_claim`"),
    ("| 4 | `kind_plan`", "| 3 | `kind_plan`"),
    ("what it is 1 to 4.", "what it is 1 to 3."),
    ("| 5 | `row_epoch`", "| 4 | `row_epoch`"),
    ("| 1 | `item_frame`", "| 2 | `item_frame`"),
    ("| 4,194,305 | `plan_owner`", "| 4,194,304 | `plan_owner`"),
    ("plan holds the frame, 4,194,305", "plan holds the frame, 4,194,304"),
    ("has the owner word 4,194,305 plus", "has the owner word 4,194,306 plus"),
    ("or 21 StalePlan", "or 22 StalePlan"),
    ("| 27 | drop plan | op, id | 129 |", "| 27 | drop plan | op, table | 3 |"),
    ("| tag, see the cases below |", "| tag (0 vacant, 1 TransferReserved, 2 Reserved, 3 occupied) |"),
    ("| lifecycle, see the cases below |", "| lifecycle (0 active, 2 tearing down, 1 retired) |"),
    ("| state, see the cases below |", "| state (1 new, 0 active, 2 retired) |"),
    ("| what it is, see the cases below |", "| what it is (1 claim, 2 reservation, 3 parcel) |"),
    ("0 Buffered, 1 Rendezvous,", "1 Buffered, 0 Rendezvous,"),
    ("operation (0 Move, 1 Copy)", "operation (1 Move, 0 Copy)"),
    ("| 0 Leaf, 1 RendezvousOnly,", "| 1 Leaf, 0 RendezvousOnly,"),
    ("lifecycle 0 to 2;", "lifecycle 0 to 3;"),
    ("tag 0 to 3;", "tag 1 to 3;"),
    ("operation 0 or 1,", "operation 0 or 2,"),
    ("| 0 | `index_place`", "| 1 | `index_place`"),
    ("the place of the row of rank i |", "the rank of the row in place i |"),
    ("| 7 | `region_cell`", "| 8 | `region_cell`"),
    ("| 4 | `head_epoch`", "| 3 | `head_epoch`"),
    ("every op above 28", "every op above 27"),
    ("| 28 | judge transfer | op, table, count, route;", "| 28 | judge transfer | op, table, count;"),
    ("| 9 | `copy_lacks_duplicate`", "| 8 | `copy_lacks_duplicate`"),
    ("| 17 | `copy_at_limit`", "| 18 | `copy_at_limit`"),
    ("no DUPLICATE | 5 AccessDenied", "no DUPLICATE | 8 UnsupportedTransfer"),
    ("64 (`no_item`)", "65 (`no_item`)"),
    ("2 the position of the item at fault, 3", "3 the position of the item at fault, 3"),
    ("StagedStartup | above 2 |", "StagedStartup | above 3 |"),
    ("| 5 | `entry_size`", "| 6 | `entry_size`"),
    ("the length (0 to 8)", "the length (0 to 9)"),
]


def constant(text, name):
    found = re.search(r"const %s: \S+ = ([\d_]+);" % name, text)
    return int(found.group(1).replace("_", "")) if found else None


def variants(text, name):
    """The variants of an enum, in their order, each with its number (None where it is given none). Another item than a variant is a fault."""
    found, out = re.search(r"^pub enum %s \{\n(.*?)^\}" % name, text, flags=re.S | re.M), []
    for line in re.sub(r"//.*", "", found.group(1)).splitlines() if found else ():
        item = re.fullmatch(r" {4}(\w+)(?: = (\d+))?,", line.rstrip())
        if item:
            out.append((item.group(1), int(item.group(2)) if item.group(2) else None))
        elif line.strip():
            out.append((line.strip(), "no variant"))
    return out


def cases_of(text, name):
    """The cases of a definition over an enum, in their order: its variant, and what it gives."""
    found = re.search(r"^abbrev pub %s : [^\n]*\n((?:%s [^\n]*\n)*)" % (name, name), text + "\n", flags=re.M)
    return re.findall(r"^%s (.+) = (.+)$" % name, found.group(1), flags=re.M) if found else []


def array(name):
    found = re.search(r"const %s: \[u\d+; \d+\] = \[(.*?)\];" % name, source["maps"], flags=re.S)
    return [int(n.replace("_", "")) for n in re.findall(r"[\d_]+", found.group(1))] if found else None


def definition(name):
    found = re.search(r"\n%s =(.*?)(?:\n\n|\Z)" % name, spec, flags=re.S)
    numbers = [int(n.replace("_", "")) for n in re.findall(r"\d[\d_]*", found.group(1))] if found else None
    return numbers if numbers is None or "∷" in found.group(1) else numbers[0]


def defined(text, name):
    """The number of a name that a file of names defines."""
    found = re.search(r"^%s = ([\d_]+)$" % name, text, flags=re.M)
    return int(found.group(1)) if found else None


def snake_of(name):
    """The name that a definition has for a name of the page or of the code: a number has no line before it."""
    return re.sub(r"_(\d)", r"\1", name.lower().replace(" ", "_"))


def upper(name):
    return re.sub(r"(?<=[a-z])(?=[A-Z])", "_", name).upper().replace(" ", "_")


def number_of(text, known):
    """The number of a numeral, or of names, + and *."""
    if not re.fullmatch(r"[\w +*]+", text):
        return None
    try:
        return eval(re.sub(r"(?<=\d)_(?=\d)", "", text), {"__builtins__": {}}, dict(known))
    except (NameError, SyntaxError):
        return None


def constants(name, faults, kind="u64"):
    """A file's constants. Another item than a constant, or a name given twice, is a fault."""
    text, out = re.sub(r"//.*", "", (layout / "src" / name).read_text()), {}
    for item in re.sub(r"\s+", " ", text).split(";"):
        found = re.fullmatch(r" ?pub const (\w+): %s = (.+)" % kind, item)
        if found and found.group(1) not in out:
            out[found.group(1)] = found.group(2) if kind == "usize" else number_of(found.group(2), out)
        elif item.strip() not in ("", "use crate::field"):
            faults.append(f"crates/layout/src/{name}: {item.strip()}")
    return out


def definitions(name, faults):
    """A file's definitions; each is an `abbrev`, written once."""
    text, out = re.sub(r"^(?:--|use ).*$", "", (layout / "specs" / name).read_text(), flags=re.M), {}
    for item in re.split(r"\n\s*\n", text):
        found = re.fullmatch(r"abbrev pub (\w+) : ℕ\n(\w+) = (.+)", item.strip())
        if found and found.group(1) == found.group(2) and found.group(1) not in out:
            out[found.group(1)] = number_of(found.group(3), out)
        elif item.strip():
            faults.append(f"crates/layout/specs/{name}: {item.strip()}")
    return out


def in_c(name):
    found = re.search(r"\bGURTXOZAL_%s (?:= |UINT64_C\()(0x[0-9A-F]+|\d+)" % name, header)
    return int(found.group(1), 0) if found else None


def case_words(cases):
    """The word that the page has for a case, and its number. `active`, `retired` and `new` are left out: they are said of tables and of objects."""
    for name, number in cases.items():
        kind, rest = name.lower().split("_", 1)
        plain = kind in ("life", "kind") or rest in ("vacant", "occupied")
        word = rest.replace("_", " ") if plain else "".join(part.title() for part in rest.split("_"))
        if kind in ("tag", "class", "kind", "operation", "route") or word == "tearing down":
            yield word, number


class Compare:
    """A page compared with everything else: its faults, and how many comparisons were made."""

    def __init__(self, doc):
        self.doc, self.faults, self.compared = doc, [], 0
        self.state_words = doc[doc.index("## The state's words") :]
        self.requests()
        self.state()
        self.header()

    def same(self, what, got, want):
        self.compared += 1
        if got != want:
            self.faults.append(f"{what}: {got} is not {want}")

    def find(self, pattern):
        return re.findall(pattern, self.doc, flags=re.M)

    def rows(self, *titles):
        """The rows of the tables of the state's words with these titles, a list for each table."""
        head = r"^\| %s \|\n\|(?:---\|)+\n((?:\|.*\|\n)+)" % r" \| ".join(titles)
        return [[[cell.strip() for cell in row.strip("|").split("|")] for row in rows.splitlines()] for rows in re.findall(head, self.state_words, flags=re.M)]

    def mask(self, text):
        text = re.sub(r"\(.*?\)", "", text.split(";")[0])
        return sum(1 << self.bits["op" if n in ("operation", "0") else n] for n in (x.strip() for x in text.split(",")) if n)

    def requests(self):
        """Fields, ops, items and numbers."""
        same, self.bits, field_kinds = self.same, {}, []
        largest = {1: constant(source["size"], "NUMBER_32_MAX"), 3: constant(source["size"], "ROUTE_LAST")}
        for bit, name, kind, malformed in self.find(r"^\| (\d+) \| ([^|`]+?) \| ([^|]*?) \|([^|]*)\|$"):
            name = name.split(";")[0].strip()
            self.bits[name] = int(bit)
            field_kinds.append(4 if name == "op" else 3 if name == "route" else KINDS.get(kind.split(",")[0].strip(), -1))
            same(f"the bit of field {name}", constant(source["field"], "FIELD_" + upper(name)), int(bit))
            same(f"the bit of field {name}, in the definitions", defined(fields, snake_of(name) + "_field"), int(bit))
            if field_kinds[-1] in largest:
                same(f"the largest word of field {name}", malformed.strip(), f"above {largest[field_kinds[-1]]:,}")
        same("the fields", len(self.bits), 18)
        kind_names = dict(zip("any_word number32 a_koid a_route an_op an_operation zero_word".split(), "Word Number32 Koid Route Op Operation Zero".split()))
        of_kind = dict(cases_of(kinds, "kind_number"))
        for number, (name, word) in enumerate(kind_names.items()):
            same(f"the kind {name}", defined(fields, name), number)
            same(f"the definition of the kind {word}", of_kind.get(word), name)
        same("the kinds, in their order", variants(source["field"], "FieldKind"), [(word, None) for word in kind_names.values()])
        same("the definitions of the kinds", len(cases_of(kinds, "kind_number")), len(kind_names))
        for name in ("number_32_max", "route_last", "operation_last"):
            same(f"{name} in the definitions", defined(fields, snake_of(name)), constant(source["size"], name.upper()))
        found = re.search(r"\nfield_kinds =(.*?)∷ \[\]", spec, flags=re.S)
        same("field_kinds", [defined(fields, name.strip()) for name in found.group(1).split("∷")], field_kinds)
        self.musts, self.mays, self.names = [0], [0], [""]
        for op, name, must_names, must, may_names, may in self.find(r"^\| (\d+) \| ([^|]+) \| ([^|]+) \| (\d+) \|([^|]*)\| (\d+) \|$"):
            same(f"the place of op {name}", int(op), len(self.musts))
            same(f"the must map of {name}", int(must), self.mask(must_names))
            same(f"the may map of {name}", int(may), self.mask(may_names))
            same(f"the number of {name}", constant(source["op"], "OP_" + upper(name.strip())), int(op))
            same(f"the number of {name} in the definitions", defined(ops, snake_of("op " + name.strip())), int(op))
            self.musts.append(int(must))
            self.mays.append(int(may))
            self.names.append(name.strip())
        last = len(self.musts) - 1
        same("the ops", last, 28)
        same("the ops in the definitions", len(re.findall(r"^abbrev pub ", ops, flags=re.M)), len(self.musts))
        same("op_last", defined(ops, "op_last"), last)
        same("OP_LAST", constant(source["op"], "OP_LAST"), last)
        same("the last op, as the page says", self.find(r"every op above (\d+)"), [str(last)])
        for name, want in (("must", self.musts), ("may", self.mays)):
            same(name.upper(), array(name.upper()), want)
            same(name + "s", definition(name + "s"), want)
        table = re.search(r"plain_requests =(.*?)∷ \[\]", model, flags=re.S)
        same("the order of plain_requests", re.findall(r"λ f\. (\w+)", table.group(1)), [snake_of(n) for n in self.names[1:]])
        for item, must_names, must, may_names, may in self.find(r"^\| (transfer|parcel) item \| ([^|]+) \| (\d+) \|([^|]*)\| (\d+) \|$"):
            same(f"the must map of a {item} item", int(must), self.mask(must_names))
            same(f"the may map of a {item} item", int(may), self.mask(may_names))
            for part, value in (("MUST", int(must)), ("MAY", int(may))):
                same(f"{item.upper()}_ITEM_{part}", constant(source["maps"], f"{item.upper()}_ITEM_{part}"), value)
                same(f"{item}_item_{part.lower()}", definition(f"{item}_item_{part.lower()}"), value)
        enum, of_refusal = variants(source["refusal"], "Refusal"), dict(cases_of(numbers, "number"))
        same("the number Done", constant(source["refusal"], "DONE"), 0)
        same("the number Done in the definitions", cases_of(numbers, "number_of"), [("(Ok a)", "0"), ("(Err e)", "number e")])
        for number, word in list(enumerate(REFUSALS))[1:]:
            same(f"the number {word}", dict(enum).get(word), number)
            same(f"the number {word} in the definitions", of_refusal.get(word), str(number))
        same("the refusals", [word for word, _ in enum], REFUSALS[1:])
        same("the definitions of the refusals", [word for word, _ in cases_of(numbers, "number")], REFUSALS[1:])
        for number, word in self.find(r"(?<![\d,])(\d+) (%s)\b" % "|".join(REFUSALS[1:])):
            same(f"the number {word}, on the page", int(number), REFUSALS.index(word))
        same("ANSWER_WORDS", constant(source["size"], "ANSWER_WORDS"), 72)
        same("SCAN_ENTRIES", self.find(r"the length \(0 to (\d+)\)"), [str(constant(source["size"], "SCAN_ENTRIES"))])

    def state(self):
        """The tables of the state's words: the code's constants and the definitions; the same numbers where the page says them once more, and in the model."""
        same = self.same
        regions, records = self.rows("number", "name", "region", "words")[0], self.rows("word", "name", "what it holds")
        tables = {
            "region.rt": regions,
            "field.rt": [row for record in records for row in record if row[1]],
            "value.rt": sum(self.rows("word", "name", "what it stands for"), []),
            "size.rt": sum(self.rows("number", "name", "what it is"), []),
        }
        code = {name: constants(name, self.faults) for name in TABLES}
        meant = {name: definitions(specs, self.faults) for name, specs in TABLES.items()}
        meant["value.rt"].setdefault("known_flags", limits.get("known_flags"))  # the model's own
        for name, written in tables.items():
            told = {row[1].strip("`"): int(row[0].replace(",", "")) if re.fullmatch(r"[\d,]+", row[0]) else None for row in written}
            same(f"the names of the tables for {name}, each once,", len(told), len(written))
            for word in sorted(told.keys() | {n.lower() for n in code[name]}):
                same(f"{word.upper()} of crates/layout/src/{name}", code[name].get(word.upper(), "none"), told.get(word, "none"))
            for word in sorted({snake_of(n) for n in told} | meant[name].keys()):
                same(f"{word}, the definition for {name},", meant[name].get(word, "none"), {snake_of(n): v for n, v in told.items()}.get(word, "none"))
        sizes = collections.defaultdict(int, {name: value or 0 for name, value in code["size.rt"].items()})
        same("the records with a table", len(records), 8)
        for record, size in zip(records, ("ROOT", "HEAD", "ENTRY", "SLOT", "OBJECT", "INDEX", "BLOCK", "BLOCK")):
            covered = set()
            for word, name, _ in record:
                ends = [int(n) for n in re.findall(r"\d+", word)]
                covered |= set(range(ends[0], ends[-1] + 1))
            same(f"the words of the record of {record[0][1]}", sorted(covered), list(range(sizes[size + "_SIZE"])))
            same(f"the record of {record[0][1]}", len({row[1].split("_")[0] for row in record if row[1]}), 1)
        same("the words of the row index", [(name.strip("`").split("_")[1], text.split()[1]) for _, name, text in records[5]], [("place", "place"), ("rank", "rank")])
        for name, value in constants("place.rt", self.faults, "usize").items():
            same(f"{name} of crates/layout/src/place.rt", value if name in code["field.rt"] else "no field", f"field::{name} as usize")
        said = {region: [int(n) for n in re.findall(r"\d+", words.split("table")[0])] for _, _, region, words in regions}
        for region, names in (("header", "ROOT"), ("table heads", "HEAD"), ("page entries", "ENTRY"), ("frames", "FRAME PAGE SLOT"), ("objects", "OBJECT"), ("row index", "INDEX")):
            same(f"the words of the region {region}", said.get(region), [sizes[name + "_SIZE"] for name in names.split()])
        same("the words of rows", said.get("rows"), [sizes["ROW_SIZE"], sizes["ROW_BLOCKS"], sizes["BLOCK_SIZE"]])
        permitted = dict(self.find(r"^\| (tables|frames|objects|rows|pages) \| [01] to ([\d,]+) \|$"))
        for name in ("tables", "frames", "objects", "rows", "pages"):
            same(f"the permitted {name}", permitted[name], f"{sizes[name.upper() + '_MAX']:,}")
        for name in ("tables", "frames", "objects", "rows", "batch"):
            same(f"the model's limit of {name}", limits.get("max_" + name), sizes[name.upper() + "_MAX"])
        t, f, o, r = (sizes[n + "_MAX"] for n in ("TABLES", "FRAMES", "OBJECTS", "ROWS"))
        largest = sizes["ROOT_SIZE"] + t * (sizes["HEAD_SIZE"] + sizes["PAGES_MAX"] * sizes["ENTRY_SIZE"]) + f * (1 + sizes["FRAME_SIZE"]) + sum(-(-f // n) for n in (16, 256, 4096))
        largest += o * sizes["OBJECT_SIZE"] + r * (sizes["INDEX_SIZE"] + sizes["ROW_SIZE"])
        same("the words of the largest state", self.find(r"^The largest permitted state .* has ([\d,]+) words"), [f"{largest:,}"])
        same("the slots of the largest table", sizes["SLOTS_MAX"], sizes["LAST_PAGE"] * sizes["PAGE_SIZE"] + sizes["LAST_PAGE_SIZE"])
        same("the last page", sizes["LAST_PAGE"], sizes["PAGES_MAX"] - 1)
        same("the owner word of a plan's frame, where it is said,", set(re.findall(r"(?:owner word|holds the frame,) ([\d,]+) ", self.state_words)), {f"{sizes['PLAN_OWNER']:,}"})
        same("NUMBER_32_MAX of the two crates", constant(source["size"], "NUMBER_32_MAX"), sizes["NUMBER_32_MAX"])
        self.cases({name: value for name, value in code["value.rt"].items() if value is not None})

    def cases(self, cases):
        """Wherever the page says the number of a case, or the range of a word that stands for one."""
        of = lambda kind: [value for name, value in cases.items() if name.startswith(kind.upper() + "_")]
        words = dict(case_words(cases))
        for number, word in self.find(r"(?<![\d,])(\d+) (%s)\b(?!')" % "|".join(sorted(words, key=len, reverse=True))):
            self.same(f"the number of {word}, on the page", int(number), words[word])
        for kind, states in (("life", ("active", "tearing down", "retired")), ("stage", ("new", "active", "retired"))):
            for numbers in self.find(r"(\d) %s, (\d) %s, (\d) %s\b" % states):
                self.same(f"the numbers of {', '.join(states)}, on the page", [int(n) for n in numbers], of(kind))
        for text, kinds in RANGES.items():
            found = re.findall(r"(?<![\w-])%s (\d) (?:to|or) (\d)" % text, self.state_words)
            self.same(f"how often the range of {text} is said", len(found), 1)
            for kind in kinds:
                self.same(f"the range of {kind}, on the page", [tuple(map(int, ends)) for ends in found], [(min(of(kind)), max(of(kind)))])
        for kind in ("route", "operation"):
            self.same(f"the last {kind}", constant(source["size"], upper(kind) + "_LAST"), max(of(kind)))
        self.same("the version, on the page", re.findall(r"Header: version (\d)", self.state_words), [str(cases["FORMAT_VERSION"])])

    def header(self):
        """The C header."""
        same = self.same
        for number, word in enumerate(REFUSALS):
            same(f"the header's number {word}", in_c(upper(word)), number)
        for name, bit in self.bits.items():
            same(f"the header's field {name}", in_c("FIELD_" + upper(name)), bit)
        for op, name in enumerate(self.names[1:], 1):
            same(f"the header's op {name}", in_c("OP_" + upper(name)), op)
            same(f"the header's must map of {name}", in_c("MUST_" + upper(name)), self.musts[op])
            same(f"the header's may map of {name}", in_c("MAY_" + upper(name)) or 0, self.mays[op])
        for item in ("transfer", "parcel"):
            for part in ("MUST", "MAY"):
                same(f"the header's {part} of a {item} item", in_c(f"{part}_{item.upper()}_ITEM"), constant(source["maps"], f"{item.upper()}_ITEM_{part}"))
        same("the header's words of an answer", in_c("ANSWER_WORDS"), 72)
        judged = dict((word, int(number)) for number, word in re.findall(r"(\d) the (number|position|place)\b", self.find(r"^\| 28 judge transfer \| ([^|]+) \|$")[0]))
        same("the words of a judging's answer", sorted(judged), ["number", "place", "position"])
        for word, number in judged.items():
            same(f"the header's word for the {word} of a judging", in_c("ANSWER_JUDGED_" + word.upper()), number)
        places = self.find(r"^\| (\d+) \| `(\w+)` \| [^|]+ \| (\d+) \w+(?: or (\d+) \w+)? \|$")
        same("the places", [int(place) for place, *_ in places], list(range(1, 18)))
        same("the numbers of the places, in the order that document 01 prints", [int(number) for _, _, number, _ in places], ORDER)
        for place, name, *_ in places:
            same(f"the header's place {name}", in_c("PLACE_" + name.upper()), int(place))
        same("the header's position where no item is at fault", [str(in_c("NO_ITEM"))], self.find(r"(\d+) \(`no_item`\)"))
        same("the code's position where no item is at fault", constant(source["size"], "NO_ITEM"), in_c("NO_ITEM"))
        # the rules: the code's places and refusals, the definitions of both, and the lists of checks of the model, all in the page's order; a lookup is two rules in one place
        of_page = {name: (int(place), [int(n) for n in numbers if n]) for place, name, *numbers in places}
        rules = [(name, "lookup" if name in LOOKUPS else snake_of(upper(name))) for name, _ in cases_of(rule_numbers, "number_by")]
        same("the rules of the definitions", sorted({name for _, name in rules}), sorted(of_page))
        same("the rules of the code", [name for name, _ in variants(source["rule"], "Rule")], [name for name, _ in rules])
        for which, got in (
            ("the place of the rule {} in the definitions", {rule: int(n) for rule, n in cases_of(rule_numbers, "place")}),
            ("the place of the rule {} in the code", {rule: int(n) for arm, n in re.findall(r"((?:Rule::\w+[\s|]*)+)=> (\d+),", source["rule"]) for rule in re.findall(r"Rule::(\w+)", arm)}),
        ):
            for rule, name in rules:
                same(which.format(rule), got.get(rule), of_page.get(name, (None,))[0])
        refused = {rule: REFUSALS.index(word) for arm, word in re.findall(r"((?:Rule::\w+[\s|]*)+)=> Refusal::(\w+),", source["rule"]) for rule in re.findall(r"Rule::(\w+)", arm)}
        for rule, number in cases_of(rule_numbers, "number_by"):
            same(f"the refusal of the rule {rule} in the code", refused.get(rule), int(number))
        for name, (_, numbers) in of_page.items():
            same(f"the numbers of {name}", [int(number) for (rule, number), (_, of) in zip(cases_of(rule_numbers, "number_by"), rules) if of == name], numbers)
        checks = [(int(place), int(number)) for number, place in re.findall(r" or (\d+) at (\d+)$", transfer_checks, flags=re.M)]
        same("the checks of the model", checks, [(place, number) for place, numbers in of_page.values() for number in numbers])
        for number, route in re.findall(r"(\d) ([A-Z]\w+)", self.find(r"^\| \d+ \| route \| ([^|]+) \|")[0]):
            same(f"the header's route {route}", in_c("ROUTE_" + upper(route)), int(number))
        for number, operation in re.findall(r"(\d) ([A-Z]\w+)", self.find(r"^\| transfer item \| operation \(([^)]+)\)")[0]):
            same(f"the header's operation {operation}", in_c(operation.upper()), int(number))


def main():
    page = (root / "docs/formats.md").read_text()
    told = Compare(page)
    # the functions for a kernel, which are made from the page
    made = subprocess.run([sys.executable, root / "c/make_calls.py", "--print"], capture_output=True, text=True)
    told.same("c/make_calls.py's status", made.returncode, 0)
    told.same("c/gurtxozal_calls.h, made by c/make_calls.py,", (root / "c/gurtxozal_calls.h").read_text() == made.stdout, True)
    for name in told.names[1:]:
        name = name.replace(" ", "_")
        told.same(f"the functions for {name}", [made.stdout.count(f" gurtxozal_{part}_{name}(") for part in ("put", "read")], [1, 1])
    faults, before = told.faults, set(told.faults)
    for old, new in WRONG:
        if page.count(old) != 1:
            faults.append(f"'{old}' stands {page.count(old)} times on the page: a slip cannot be made")
        elif set(Compare(page.replace(old, new)).faults) <= before:
            faults.append(f"the slip '{new}' is not found")
    for fault in faults:
        print(fault)
    print(f"{told.compared} comparisons of docs/formats.md with the code, the definitions and the C headers; {len(WRONG)} slips of the page tried")
    return 1 if faults or told.compared < 650 else 0


sys.exit(main())

#!/usr/bin/env python3
"""No field number, tag, op or page size stands as a numeral in the code: crates/*/src/*.rt, without comments and strings. The tables of names are TABLES.

What is a fault, with file, line and numeral:

  a  a field argument that is no name of crates/layout's field.rt, and one of a record's field that is no name of crates/format's. A function, a method, or a closure that has a name, has a field
     argument if it hands a parameter on as one, or each of an array's in turn; the first are layout's place_in and the methods find of request. Of an array each of its words is looked at. An
     accessor of ACCESSORS takes fields of its own record
  b  a numeral compared with, stored in, or passed as a word that stands for a case: a name of CASES, what a field of CASE_FIELDS holds, what is compared with a name of value.rt,
     and parameters that are given such a word; and one stored in a state's word by its place. The ends of a range that is asked for a word, and what a match or `matches!` asks it for, are
     compared with it
  c  an arm of a match that is a numeral, or has one, or what `matches!` asks for
  d  a numeral in an index of the state's words, but what is taken off
  e  any other numeral above 1
  f  a numeral in a constant that is made of no other
  g  a numeral above 1 in a contract, but for powers of 2

The highest word may stand everywhere.

EXCUSED has what may stand all the same: file, texts and reason. A text that excuses nothing is a fault. The test makes the wrong lines of WRONG in memory and must find each; and it must
find nothing in PLAIN.
"""
import collections
import functools
import re
import sys
from pathlib import Path

root = Path(__file__).resolve().parent.parent
TABLES = {
    "crates/layout/src/region.rt": "regions",
    "crates/layout/src/field.rt": "fields",
    "crates/layout/src/value.rt": "words that stand for a case",
    "crates/layout/src/size.rt": "sizes and limits",
    "crates/format/src/field.rt": "fields of a record, and their kinds",
    "crates/format/src/op.rt": "ops",
    "crates/format/src/refusal.rt": "numbers of document 01",
    "crates/format/src/rule.rt": "places of document 02, 4",
    "crates/format/src/maps.rt": "must and may maps",
    "crates/format/src/size.rt": "words of an answer, a scan's limits, largest words of kinds",
}
CASES = {"tag", "what", "kind", "life", "lifecycle", "stage", "class", "operation", "op", "version", "route"}
CASE_PARTS = CASES - {"kind"}  # of a struct: `kind` is an object's there, any number of 32 bits
CASE_FIELDS = {"ROOT_VERSION", "HEAD_LIFECYCLE", "SLOT_TAG", "OBJECT_CLASS", "OBJECT_STAGE", "ROW_KIND", "ITEM_OPERATION"}
HIGHEST = 2**64 - 1
STATE = {"s", "state"}  # what functions call the state's words
ONE_WORD = {"REGION_OWNER", "REGION_GROUP_16", "REGION_GROUP_256", "REGION_GROUP_4096"}  # regions whose things have one word, field 0
NO_CASES = {"KNOWN_FLAGS"}  # of value.rt
ANY_WORD = {"words", "layout", "answer", "request"}  # crates and functions that are given any word
# Functions and methods that must have a field argument, by crate; and the record whose fields it is
ACCESSORS = """layout: load save place_in
layout ROOT: root_word put_root
layout HEAD: head_word put_head
layout ENTRY: entry_word put_entry
layout SLOT: cell_word put_cell
layout OBJECT: object_word put_object
layout ROW: row_word put_row
layout ITEM: item_word put_item
ledger ITEM: word
storage ENTRY: page_word put_page put_page_link
storage SLOT: frame_word put_frame slot_word put_slot_word put_slot_link
request: find has field fields fields_found fit_one"""
RECORDS = {(line.split()[0], name): line.split(":")[0].split()[1] for line in ACCESSORS.splitlines() if " " in line.split(":")[0] for name in line.split(": ")[1].split()}
GROUPS = "free frames are counted in groups of 16, of 256 and of 4,096 (docs/formats.md, the regions)"
PARAMETERS = "creation's parameters: 4 words, 2 for each table, 6 for each object (docs/formats.md)"
ANSWER = "the places of an answer's words (docs/formats.md, \"Answers\")"
RECORD = "the words of a record whose map is known"
DOCUMENT_01 = "numbers of document 01, by name here"
HALF = "half, or the lowest bit"
BITS = "the bits of a word"
REPLAY = "the replaying program's own: its input's bytes and records, its rooms"
# What may stand: file, texts, reason. A text stands for each place where it stands, in whatever lines.
EXCUSED = [
    ("authority/src/lib.rt", ["const NONE: Rights = Rights(0);", "Rights = Rights(1);", "Rights = Rights(2);", "const PROPAGATION_MASK: u64 = 3;", "= PropagationRights(1);", "= PropagationRights(2);"], DOCUMENT_01),
    ("basket/src/main.rt", ["total(&[420, 180, 950]) == 1550", "total(&[950, 420, 180]) == 1550"], "prices of an example"),
    ("book/src/lib.rt", ["let half = n / 2;"], HALF),
    ("codec/src/lib.rt", ["const SLOT_LIMIT: u64 = 16_777_214;", "const GENERATION_LIMIT: u64 = 4_294_967_295;", "const PREFIX: u64 = 0x4800_0000_0000_0000;", "const PREFIX_MASK: u64 = 0xff00_0000_0000_0000;", "const PAYLOAD_MASK: u64 = 0x00ff_ffff_ffff_ffff;", "const GENERATION_UNIT: u64 = 0x100_0000;"], DOCUMENT_01),
    ("counts/src/lib.rt", ["exportable / 2 != 0"], HALF),
    ("create/src/lib.rt", ["4 + (b as usize) * 2", "4 + (k as usize) * 2", "4 + (t as u32) * 2", "base + (k as u32) * 6", "4 + t * 2 + o * 6", "4 + (sh.tables as usize) * 2 + (o as usize) * 6"], PARAMETERS),
    ("create/src/lib.rt", ["words::word(p, 2)", "words::word(p, 3)", "words::word(p, i + 2)", "words::word(p, i + 4)", "words::word(p, i + 5)", "words::word(p, at + 2)", "words::word(p, at + 3)", "words::word(p, at + 4)", "words::word(p, at + 5)"], PARAMETERS),
    ("create/src/lib.rt", ["Sixteens = 16,", "Hundreds = 256,", "Thousands = 4096,"], GROUPS),
    ("create/src/lib.rt", ["words::put(s, k, 0)"], "every word is 0 before creation"),
    ("frames/src/lib.rt", ["from ≤ 1000000"], "more than a scan of groups comes to: so sums stay words"),
    ("frames/src/lib.rt", ["k) from 16", "from + 16", "c * 16", "b * 16", "a * 16", "layout::region::REGION_GROUP_16, f / 16", "layout::region::REGION_GROUP_256, f / 256", "layout::region::REGION_GROUP_4096, f / 4096"], GROUPS),
    ("growth/src/lib.rt", ["+ (j as u64) + 2"], "the slot after, as a link: each plus 1"),
    ("layout/src/lib.rt", ["(f + 15) / 16", "(f + 255) / 256", "(f + 4095) / 4096"], GROUPS),
    ("lookup/src/lib.rt", ["answer_put(out, base, i + 2, x.info.kind)", "answer_put(out, base, i + 3, x.info.rights)", "answer_put(out, base, i + 4, x.info.flags)", "put_entry(out, base, 5 + k * 5, *entry)", "base 5 (entry_list", "pub fn words(self) -> [u64; 4]"], ANSWER),
    ("lookup/src/lib.rt", [".examined ≤ 256"], "the most slots that a scan looks at, format's SCAN_SLOTS (document 01)"),
    ("parcel/src/lib.rt", ["words::word(words, at + 2)", "end: at + 3,"], RECORD),
    ("replay/src/main.rt", ["const PATTERN: u64 = 0x5c5c_c5c5_5c5c_c5c5;", "const FILL: u64 = 0xa5a5_5a5a_a5a5_5a5a;", "const STATE_ROOM: usize = 16384;", "const CALL_ROOM: usize = 512;"], REPLAY),
    ("replay/src/main.rt", ["let mut bytes = [0; 8];", "bytes: &[u8; 8]"], REPLAY),
    ("replay/src/main.rt", ["1 => creation(", "2 => given(", "3 => {", "4 => {"], REPLAY),
    ("request/src/lib.rt", ["map % 2 == 1"], HALF),
    ("request/src/lib.rt", ["bit < 64"], BITS),
    ("reserve/src/lib.rt", ["answer_put(out, base, (j + 3) as usize, value.0)", "base 3 (values_at"], ANSWER),
    ("runner/src/lib.rt", ["called 20"], DOCUMENT_01),
    ("structure/src/lib.rt", ["Sixteens = 16,", "Hundreds = 256,", "sh.frames 0 16 (div_ceil sh.frames 16)", "(0..sh.frames.div_ceil(16)).all", "(g as u32) * 16, 16)", "(16 * level_size", "for i in 0..16 {", "(16 * below.size())", "(g as u32) * 16)"], GROUPS),
    ("transfer/src/lib.rt", ["words::word(words, at + 2)", "words::word(words, at + 3)", "item.at + 4"], RECORD),
    ("transfer/src/lib.rt", ["(v.0 % 64)"], BITS),
    ("transfer/src/lib.rt", ["fn judged_words(judged: Option<TransferFault>) -> [u64; 3]"], ANSWER),
    ("transfer/src/lib.rt", ["(self.0 >> (v.0 % WORD_BITS)) % 2"], HALF),
    ("wellformed/src/lib.rt", ["let _ = words::word(s, 0);"], "any word: what it holds is not used"),
]
EXCEPTIONS = [(f"crates/{file}", text, reason) for file, texts, reason in EXCUSED for text in texts]
OPERATORS = {"==", "!=", "<", ">", "<=", ">="}
OPEN, CLOSE = {"(": ")", "[": "]", "{": "}"}, {")", "]", "}"}
BEFORE_CLOSURE = {"(", "[", "{", ",", ";", "=", "=>", "&&", "||", "return", "move", "else"}
TOKEN = re.compile(
    r"(?P<number>(?:0x[0-9a-fA-F_]+?|\d[\d_]*?)(?:[ui](?:8|16|32|64|128)|usize|isize)?(?![\w]))|(?P<name>[A-Za-z_]\w*)"
    r"|(?P<sign>::|->|=>|==|!=|<=|>=|<<=|>>=|<<|>>|&&|\|\||\.\.=|\.\.|[-+*/%&|^]=|[^\s\w])"
)


class Token:
    def __init__(self, kind, text, line):
        self.kind, self.text, self.line = kind, text, line
        self.value = int(re.sub(r"([ui]\d+|[ui]size)$", "", text).replace("_", ""), 0) if kind == "number" else None


def blank(text):
    return re.sub(r"[^\n]", " ", text)


def code_of(text):
    """A source without its comments and strings, in two parts: its code and its contracts; the lines of both stay."""
    text = re.sub(r'//[^\n]*|b?"(?:[^"\\]|\\.)*"|b?\'(?:[^\'\\]|\\.)\'', lambda m: blank(m.group(0)), text)
    text = re.sub(r"\bghost use\b[^;]*;", lambda m: blank(m.group(0)), text)
    code, said, at = "", "", 0
    for found in re.finditer(r"\b(?:ensures|requires)\b[^{}]*\{", text):
        if found.start() < at:
            continue
        depth, end = 1, found.end()
        while depth and end < len(text):
            depth += {"{": 1, "}": -1}.get(text[end], 0)
            end += 1
        code += text[at : found.start()] + blank(text[found.start() : end])
        said += blank(text[at : found.start()]) + text[found.start() : end]
        at = end
    return code + text[at:], said


@functools.cache
def tokens_of(text, part=0):
    out, line, at = [], 1, 0
    code = code_of(text)[part]
    for m in TOKEN.finditer(code):
        line += code.count("\n", at, m.start())
        at = m.start()
        out.append(Token(m.lastgroup, m.group(0), line))
    return out


def ends(tokens):
    """The place of the closing bracket of each opening one."""
    out, stack = {}, []
    for at, token in enumerate(tokens):
        if token.text in OPEN and token.kind == "sign":
            stack.append(at)
        elif token.text in CLOSE and token.kind == "sign" and stack:
            out[stack.pop()] = at
    return out


def parts(tokens, closing, start, end):
    """The places from start to end, cut at the commas outside brackets."""
    out, now, at = [], [], start
    while at < end:
        if tokens[at].text == ",":
            out.append(now)
            now = []
            at += 1
            continue
        stop = closing.get(at, at)
        now += range(at, stop + 1)
        at = stop + 1
    return out + [now] if now else out


class Function:
    """A function, or a closure in one (`outer`): `name` is what it is bound to, if to anything. `same` has a local name and the name whose words it has, or in turn has: `let a = b;`, `for a in &b`."""

    def __init__(self, crate, name, params, start, end, outer=None):
        self.crate, self.name, self.params, self.start, self.end, self.outer, self.same = crate, name, params, start, end, outer, {}
        self.field, self.bits, self.cases = None, set(), {p for p in params if p in CASE_PARTS}

    def whose(self, name):
        """The function or closure whose a name is: the innermost that has it as a parameter, or else the function."""
        return self if name in self.params or self.outer is None else self.outer.whose(name)

    def first(self, name):
        """The name whose words a local name has, and the function or closure whose it is."""
        holder, seen = self.whose(name), set()
        while name not in holder.params and name in holder.same and name not in seen:
            seen.add(name)
            name = holder.same[name]
        return holder, name


Call = collections.namedtuple("Call", "target args at inside")


class Source:
    """A file: its tokens, its functions and the calls in them."""

    def __init__(self, file, text):
        self.file, self.crate = file, file.split("/")[1]
        self.tokens, self.contracts = tokens_of(text), tokens_of(text, 1)
        self.closing = ends(self.tokens)
        self.opening = {end: start for start, end in self.closing.items()}
        self.functions, self.calls = [], []
        t = self.tokens
        for at, token in enumerate(t):
            if token.text == "fn" and at + 2 < len(t) and t[at + 1].kind == "name":
                first = self.past_generics(at + 2)
                if t[first].text != "(":
                    sys.exit(f"{file}:{token.line}: a function whose parameters are not found")
                close = self.closing[first]
                body = close + 1
                while body < len(t) and t[body].text not in ("{", ";"):
                    body = self.closing.get(body, body) + 1
                self.functions.append(Function(self.crate, t[at + 1].text, self.params(first + 1, close), body, self.closing.get(body, body)))
        self.inside = {at: f for f in self.functions for at in range(f.start, f.end + 1)}
        self.closures = []
        for at in range(1, len(t)):
            if t[at].text in ("|", "||") and t[at - 1].text in BEFORE_CLOSURE and at in self.inside and not (t[at - 1].text in ("(", "{", ",") and self.in_pattern(at)):
                self.closure(at)
        self.bodies = {c.start for c in self.closures}
        self.paths = self.imports()
        for f in self.functions:
            self.locals(f)

    def params(self, start, end):
        """The names of parameters, each the first name of what stands between two commas."""
        return [next((self.tokens[p].text for p in part if self.tokens[p].kind == "name" and self.tokens[p].text != "mut"), "") for part in parts(self.tokens, self.closing, start, end)]

    def past_generics(self, at):
        """The place after `<..>`, where a name has that."""
        t, depth = self.tokens, 0
        while t[at].text == "<" or depth:
            depth += {"<": 1, ">": -1, ">>": -2}.get(t[at].text, 0)
            at = self.closing.get(at, at) + 1
        return at

    def in_pattern(self, at):
        """Whether a `|` begins an arm of a match: an arrow comes before the next comma, and no other `|`'s body."""
        p = at + 1
        while p < len(self.tokens) and self.tokens[p].text not in ("=>", ",", ";", "{", "}", ")"):
            p = self.closing.get(p, p) + 1
        return self.tokens[p].text == "=>"

    def closure(self, at):
        """Notes the closure that begins at a place: its body ends before the next comma or bracket."""
        t, close = self.tokens, at
        if t[at].text == "|":
            close = at + 1
            while t[close].text != "|":
                close = self.closing.get(close, close) + 1
        body = end = close + 1
        while end < len(t) and t[end].text not in (",", ";") and t[end].text not in CLOSE:
            end = self.closing.get(end, end) + 1
        bound = t[at - 2].text if t[at - 1].text == "=" and t[at - 2].kind == "name" else ""
        made = Function(self.crate, bound, self.params(at + 1, close) if close > at else [], body, end - 1, self.inside[at])
        self.closures.append(made)
        self.inside.update((p, made) for p in range(body, end))

    def imports(self):
        """What each imported name stands for, as a path."""
        t, out = self.tokens, {}

        def tree(at, before):
            """One path of an import, from a place on."""
            path = list(before)
            while True:
                if t[at].text == "{":
                    for part in parts(t, self.closing, at + 1, self.closing[at]):
                        tree(part[0], path)
                    return
                path += [t[at].text] if t[at].text != "self" or not path else []
                if t[at + 1].text != "::":
                    break
                at += 2
            out[t[at + 2].text if t[at + 1].text == "as" else path[-1]] = path

        for at, token in enumerate(t):
            if token.text == "use" and token.kind == "name":
                tree(at + 1, [])
        return out

    def locals(self, function):
        """Which local names have the words of another name."""
        t = self.tokens
        for at in range(function.start, function.end):
            words = [x.text for x in t[at : at + 9]]
            if words[0] == "let":
                words = [w for w in words if w != "mut"]
                if len(words) > 4 and words[2] == "=" and words[4] == ";" and re.fullmatch(r"[a-z_]\w*", words[3]):
                    function.same[words[1]] = words[3]
            elif words[0] == "for" and words[2] == "in":
                words = [w for w in words if w not in ("mut", "&")]
                if words[4] == "{" and re.fullmatch(r"[a-z_]\w*", words[3]):
                    function.same[words[1]] = words[3]

    def text(self, places):
        return [self.tokens[p].text for p in places]

    def around(self, at):
        return self.inside.get(at)

    def find_calls(self, known, methods):
        t = self.tokens
        for at, token in enumerate(t):
            opening = at + 1
            if token.kind == "name" and at + 2 < len(t) and t[at + 1].text == "::" and t[at + 2].text == "<":
                opening = self.past_generics(at + 2)
            if token.kind != "name" or opening >= len(t) or t[opening].text != "(" or at and t[at - 1].text == "fn":
                continue
            if at and t[at - 1].text == ".":
                args = [[], *parts(t, self.closing, opening + 1, self.closing[opening])]  # `self` is not looked at
                if t[opening + 1].text != "|":  # an iterator's `find` has a closure
                    self.calls += [Call((target.crate, token.text, target), args, at, self.around(at)) for target in methods.get((token.text, len(args)), ())]
                continue
            path = self.paths.get(token.text, ())
            crate = self.crate if (self.crate, token.text) in known else path[0] if len(path) == 2 else None
            if at > 1 and t[at - 1].text == "::":
                before = t[at - 2].text
                crate = self.crate if before in ("crate", "self", "Self") or re.match("[A-Z]", before) and (self.crate, token.text) in known else before
            target = known.get((crate, token.text))
            if at and t[at - 1].text != "::" and (here := self.around(at)) is not None:
                bound = [c for c in self.closures if c.name == token.text and c.end < at and (c.outer is here or c.outer.start <= here.start and here.end <= c.outer.end)]
                crate, target = (self.crate, bound[-1]) if bound else (crate, target)
            self.calls.append(Call((crate, token.text, target), parts(t, self.closing, opening + 1, self.closing[opening]), at, self.around(at)))
        self.called = collections.defaultdict(list)
        for call in self.calls:
            self.called[call.at].append(call)


def strip(source, places):
    """Without brackets around the whole, without `as` and a type behind it, and without `&` or `*` before it."""
    t = source.tokens
    while True:
        if len(places) > 2 and t[places[-2]].text == "as":
            places = places[:-2]
        elif len(places) > 1 and t[places[0]].text in ("&", "*"):
            places = places[1:]
        elif len(places) > 2 and t[places[0]].text == "(" and source.closing.get(places[0]) == places[-1]:
            places = places[1:-1]
        else:
            return places


def in_place(index):
    """Whether an index, as texts, names the place of a word that stands for a case."""
    return any(a == "place" and b in CASE_FIELDS for a, b in zip(index, index[2:]))


class Look:
    def __init__(self, texts):
        self.sources = [Source(file, text) for file, text in sorted(texts.items())]
        # methods have `self` first and are called with a dot: they are looked up by their name and the number of their parameters, and each that has these is looked at
        self.known = {(f.crate, f.name): f for source in self.sources for f in source.functions if "self" not in f.params[:1]}
        self.methods = collections.defaultdict(list)
        for f in sum((source.functions for source in self.sources), []):
            if f.params[:1] == ["self"] and f.params[1:]:
                self.methods[f.name, len(f.params)].append(f)
        self.names = {
            table: {t.text for s in self.sources if s.file == f"crates/layout/src/{table}.rt" for t, before in zip(s.tokens[1:], s.tokens) if before.text == "const"} for table in ("field", "value")
        }
        self.names["value"] -= NO_CASES
        self.names["bit"] = {t.text for s in self.sources if s.file == "crates/format/src/field.rt" for t, before in zip(s.tokens[1:], s.tokens) if before.text == "const"}
        for source in self.sources:
            source.find_calls(self.known, self.methods)
            source.pairs = list(self.pairs(source))
        self.find_accessors()
        while self.find_cases():
            pass

    def find_accessors(self):
        """Functions with a field argument: the place of a state's field, the places of a record's fields."""
        first, finds, more = self.known.get(("layout", "place_in")), [f for f in self.methods.get(("find", 2), ()) if f.crate == "request" and "bit" in f.params], True
        if first is None or "f" not in first.params or not finds:
            sys.exit("layout::place_in with a parameter f, or request's method find with a parameter bit, is not there")
        first.field = first.params.index("f")
        for find in finds:
            find.bits = {find.params.index("bit")}
        while more:
            more = False
            for source in self.sources:
                for call in source.calls:
                    target, inside = call.target[2], call.inside
                    if target and target.field is not None and len(call.args) > target.field:
                        handed = self.handed(source, call.args[target.field], inside)
                        if handed and handed[0].field is None:
                            handed[0].field, more = handed[1], True
                    for bit in list(target.bits) if target else ():
                        for word in self.each_of(source, call.args[bit]):
                            handed = self.handed(source, word, inside)
                            if handed and handed[1] not in handed[0].bits:
                                handed[0].bits.add(handed[1])
                                more = True

    @staticmethod
    def each_of(source, places):
        """An argument, or each of an array's words."""
        places = strip(source, places)
        if len(places) > 1 and source.tokens[places[0]].text == "[" and source.closing.get(places[0]) == places[-1]:
            return parts(source.tokens, source.closing, places[0] + 1, places[-1]) or [places]
        return [places]

    @staticmethod
    def handed(source, places, inside):
        """The function, and the number of its parameter, that is handed on by an argument; a closure without a name is called where it can't be seen."""
        given = source.text(strip(source, places))
        if inside is None or len(given) != 1:
            return None
        holder, name = inside.first(given[0])
        return (holder, holder.params.index(name)) if name in holder.params and holder.name else None

    @staticmethod
    def named(source, places):
        """The name of a field, given as `field::NAME` or as a name that is imported from there."""
        given = source.text(strip(source, places))
        if len(given) > 2 and given[-3:-1] == ["field", "::"]:
            return given[-1]
        return given[0] if len(given) == 1 and source.paths.get(given[0], [""])[-2:] == ["field", given[0]] else None

    def field_of(self, source, call):
        """The name of the field that an accessor's call is given."""
        target = call.target[2]
        if target is None or target.field is None or len(call.args) <= target.field:
            return None
        return self.named(source, call.args[target.field])

    def is_case(self, source, places, inside):
        """Whether an expression is a word that stands for a case."""
        places = strip(source, places)
        if not places:
            return False
        text = source.text(places)
        if len(text) > 2 and text[-3:-1] == ["value", "::"] and text[-1] in self.names["value"]:
            return True
        if len(text) == 1:
            return text[0] in CASE_PARTS or inside is not None and text[0] in inside.whose(text[0]).cases
        if text[-2] == "." and all(source.tokens[p].kind != "sign" or source.tokens[p].text == "." for p in places):
            return text[-1] in CASE_PARTS
        if text[-1] == "]":
            return in_place(text[places.index(source.opening[places[-1]]) :])
        if text[-1] == ")":
            for call in source.called[source.opening[places[-1]] - 1]:
                before = [x for p, x in zip(places, text) if p < call.at]
                if call.target[:2] == ("words", "word"):
                    return in_place(source.text(call.args[1]))
                if call.target[1] != "place_in" and all(re.fullmatch(r"\w+|::|\.", x) for x in before) and self.field_of(source, call) in CASE_FIELDS:
                    return True
        return False

    def sides(self, source, at):
        """The two operands of the operator at a place."""
        t, stop = source.tokens, {",", ";", "&&", "||", "=", "=>", "return", "if", "while", "let", "else", "!", "{", "(", "[", "..", "..=", "mut"} | OPERATORS
        left, p = [], at - 1
        while p >= 0:
            if p in source.opening and t[p].text != "}":
                left = list(range(source.opening[p], p + 1)) + left
                p = source.opening[p] - 1
            elif t[p].text in stop or t[p].text == "}" or p + 1 in source.bodies:
                break
            else:
                left = [p] + left
                p -= 1
        right, p = [], at + 1
        while p < len(t) and t[p].text not in stop - {"(", "["} and t[p].text not in CLOSE:
            end = source.closing.get(p, p)
            right += range(p, end + 1)
            p = end + 1
        return left, right

    def pairs(self, source):
        """What is compared with what, or assigned to what, with the function around it."""
        t = source.tokens
        for at, token in enumerate(t):
            if token.kind == "sign" and (token.text in OPERATORS or token.text == "="):
                left, right = self.sides(source, at)
                if token.text == "=" and ":" in source.text(left):
                    left = left[: source.text(left).index(":")]
                yield left, right, source.around(at)
            if token.text in ("contains", "min", "max") and at > 1 and t[at - 1].text == "." and t[at + 1].text == "(":
                asked = list(range(at + 2, source.closing[at + 1]))
                if token.text != "contains":
                    yield self.sides(source, at - 1)[0], asked, source.around(at)
                elif t[at - 2].text == ")":
                    low = source.opening[at - 2] + 1
                    cuts = [p for p in range(low, at - 2) if t[p].text in ("..", "..=")]
                    for end in (range(low, cuts[0]), range(cuts[0] + 1, at - 2)) if cuts else ():
                        yield list(end), asked, source.around(at)
                elif t[at - 2].text == "]":
                    for one in parts(t, source.closing, source.opening[at - 2] + 1, at - 2):
                        yield one, asked, source.around(at)
            for value, pattern in self.arms(source, at):
                values = self.tuple_of(source, value)
                for one in self.alternatives(source, pattern):
                    words = self.tuple_of(source, one)
                    for left, right in zip(values, words) if len(values) == len(words) else ((value, one),):
                        if right and t[right[0]].kind != "number":  # one that is a numeral is a fault by itself
                            yield left, right, source.around(at)

    @staticmethod
    def arms(source, at):
        """The value of the `match` or `matches!` at a place, with the pattern of each of its arms."""
        t = source.tokens
        if t[at].text == "matches" and at + 2 < len(t) and t[at + 1].text == "!":
            value, *pattern = parts(t, source.closing, at + 3, source.closing[at + 2])
            yield value, sum(pattern, [])
        elif t[at].text == "match" and t[at].kind == "name":
            body = at + 1
            while t[body].text != "{":
                body = source.closing.get(body, body) + 1
            value, p = list(range(at + 1, body)), body + 1
            while p < source.closing[body]:
                pattern, guard = [], False
                while t[p].text != "=>":
                    guard = guard or t[p].text == "if"
                    end = source.closing.get(p, p)
                    pattern += [] if guard else range(p, end + 1)
                    p = end + 1
                yield value, pattern
                p += 1
                if t[p].text == "{":
                    p = source.closing[p] + 1
                else:
                    while p < source.closing[body] and t[p].text != ",":
                        p = source.closing.get(p, p) + 1
                if t[p].text == ",":
                    p += 1

    @staticmethod
    def alternatives(source, places):
        """A pattern, cut at its `|` and at the signs of a range."""
        out, now, p = [], [], 0
        while p < len(places):
            if source.tokens[places[p]].text in ("|", "..", "..="):
                out, now, p = [*out, now], [], p + 1
                continue
            end = places.index(source.closing.get(places[p], places[p]))
            now, p = now + places[p : end + 1], end + 1
        return [one for one in [*out, now] if one]

    @staticmethod
    def tuple_of(source, places):
        """The parts of a tuple, or the whole."""
        if len(places) > 2 and source.tokens[places[0]].text == "(" and source.closing.get(places[0]) == places[-1]:
            return parts(source.tokens, source.closing, places[0] + 1, places[-1])
        return [places]

    def find_cases(self):
        """Names that hold a case: compared with one, assigned one, or given one. Whether there is a new one."""
        new = False

        def add(function, name):
            nonlocal new
            function = function and function.whose(name)
            if function is not None and name not in function.cases:
                function.cases.add(name)
                new = True

        for source in self.sources:
            for left, right, inside in source.pairs:
                for one, other in ((left, right), (right, left)):
                    one = source.text(strip(source, one))
                    if len(one) == 1 and re.fullmatch(r"[a-z_]\w*", one[0]) and one[0] not in ("true", "false", "_") and self.is_case(source, other, inside):
                        add(inside, one[0])
            for call in source.calls:
                target = call.target[2]
                if target is None or target.field is not None or ANY_WORD & {target.crate, (target.crate, target.name)}:
                    continue
                for name, arg in zip(target.params, call.args):
                    if self.is_case(source, arg, call.inside):
                        add(target, name)
        return new

    def faults(self, source):
        """Each fault of a file: the place of its numeral (or of its call), its letter and what it is."""
        t, out = source.tokens, {}

        def fault(at, letter, what):
            out.setdefault(at, (letter, what))

        def numeral(places):
            places = strip(source, places)
            return places[0] if len(places) == 1 and t[places[0]].kind == "number" else None

        def numerals(places):
            return [p for p in places if t[p].kind == "number" and t[p - 1].text != "." and t[p].value != HIGHEST]

        def index(places):
            for p in numerals(places):
                if t[p - 1].text != "-":
                    fault(p, "d", "in an index of the state's words")

        for call in source.calls:
            crate, name, target = call.target
            if target is None:
                continue
            if target.field is not None and len(call.args) > target.field:
                given = call.args[target.field]
                text = source.text(given)
                handed = self.handed(source, given, call.inside)
                region = source.text(call.args[target.params.index("k")])[-1:] if name in ("load", "save") and target.crate == "layout" else [""]
                passed = handed is not None and handed[0].field == handed[1]
                if text == ["0"] and name in ("load", "save") and (region[0] in ONE_WORD or re.fullmatch(r"[a-z_]\w*", region[0])):
                    pass
                elif not passed and not (self.field_of(source, call) in self.names["field"]):
                    for p in numerals(given) or given[:1]:
                        fault(p, "a", f"the field argument of {name}")
                record, field = RECORDS.get((target.crate, name)), self.field_of(source, call)
                if record and field and field.split("_")[0] != record:
                    fault(given[-1], "a", f"the field argument of {name}: no field of its record")
                if name in ("load", "save") and target.crate == "layout":
                    for p in numerals(call.args[target.params.index("k")]):
                        fault(p, "a", f"the region of {name}")
                if self.field_of(source, call) in CASE_FIELDS and len(call.args) > target.field + 1:
                    if (p := numeral(call.args[target.field + 1])) is not None:
                        fault(p, "b", f"stored in {self.field_of(source, call)}")
            if crate == "words" and name in ("word", "put") and any(call.args[:1]) and source.text(call.args[0])[-1] in STATE:
                index(call.args[1])
                if name == "put" and (p := numeral(call.args[2])) is not None:
                    fault(p, "b", "stored in a state's word by its place")
            for bit in target.bits:
                for word in self.each_of(source, call.args[bit]):
                    handed = self.handed(source, word, call.inside)
                    if not (handed and handed[1] in handed[0].bits) and self.named(source, word) not in self.names["bit"]:
                        for p in numerals(word) or word[:1]:
                            fault(p, "a", f"the field of a record, for {name}")
            for param, arg in zip(target.params, call.args):
                if param in target.cases | {"kind"} and (p := numeral(arg)) is not None and target.crate not in ("words", "layout"):
                    fault(p, "b", f"passed as {param} of {name}")
        for left, right, inside in source.pairs:
            for one, other in ((left, right), (right, left)):
                if (p := numeral(one)) is not None and (self.is_case(source, other, inside) or source.text(strip(source, other)) == ["kind"]):
                    fault(p, "b", f"beside {''.join(source.text(other))}")
                elif (p := numeral(one)) is not None and len(other) > 1 and t[other[0]].text in STATE and t[other[1]].text == "[":
                    fault(p, "b", "beside a state's word by its place")
        for at, token in enumerate(t):
            if token.text in CASE_PARTS and at + 3 < len(t) and t[at + 1].text == ":" and t[at + 2].kind == "number" and t[at + 3].text in (",", "}"):
                fault(at + 2, "b", f"given to {token.text}")
            if token.text == "const" and t[at - 1].text not in ("<", ","):  # no parameter
                value = range(*(next(p for p in range(at, len(t)) if t[p].text == sign) for sign in ("=", ";")))
                for p in numerals(value) if not any(re.fullmatch("[A-Z][A-Z_0-9]+", x) for x in source.text(value)) else ():
                    fault(p, "f", "in a constant outside the tables")
            for _, pattern in self.arms(source, at):
                for p in pattern:
                    if t[p].kind == "number":
                        fault(p, "c", "an arm of a match")
            if token.text in STATE and at + 3 < len(t) and t[at + 1].text == "." and t[at + 2].text in ("get", "get_mut") and t[at + 3].text == "(":
                index(range(at + 4, source.closing[at + 3]))
            if token.text == "[" and at and t[at - 1].text in STATE:
                inner = range(at + 1, source.closing[at])
                if ".." not in source.text(inner):
                    index(inner)
        for p in numerals(range(len(t))):
            if t[p].value > 1:
                fault(p, "e", "a numeral above 1")
        out = {t[p]: what for p, what in out.items()}
        said = [Token("sign", ";", 0), *source.contracts, Token("sign", ";", 0)]
        for before, token, after in zip(said, said[1:], said[2:]):
            if token.kind == "number" and 1 < token.value < HIGHEST and before.text not in (".", "^") and after.text != "^":
                out[token] = ("g", "a numeral above 1 in a contract")
        return out

    def run(self, exceptions):
        """The faults that no exception excuses, how many numerals were looked at, and how many are excused."""
        found, looked, excused = [], 0, 0
        files = {source.file: source for source in self.sources if source.file not in TABLES}
        spared = {file: set() for file in files}
        faults = {file: self.faults(source) for file, source in files.items()}
        for file, text, _ in exceptions:
            wanted, over = [t.text for t in tokens_of(text)], set()
            for tokens in (files[file].tokens, files[file].contracts) if file in files else ():
                have = [t.text for t in tokens]
                over |= {t for at in range(len(have) - len(wanted) + 1) if have[at : at + len(wanted)] == wanted for t in tokens[at : at + len(wanted)]}
            if not over & faults.get(file, {}).keys():
                found.append((file, 0, text, "-", "an exception that excuses nothing"))
            spared.setdefault(file, set()).update(over)
        for file, source in files.items():
            looked += sum(t.kind == "number" and before.text != "." for tokens in (source.tokens, source.contracts) for t, before in zip(tokens[1:], tokens))
            excused += len(spared[file] & faults[file].keys())
            found += [(file, t.line, t.text, *what) for t, what in sorted(faults[file].items(), key=lambda x: x[0].line) if t not in spared[file]]
        return found, looked, excused


# Wrong lines: file, text, what stands there instead, the letter and the numeral that must be found
WRONG = [
    ("crates/orders/src/lib.rt", "layout::cell_word(s, sh, f, j, field::SLOT_TAG) == value::TAG_VACANT", "layout::cell_word(s, sh, f, j, 0) == value::TAG_VACANT", "a", "0"),
    ("crates/growth/src/lib.rt", "storage::put_page(s, sh, e, p, field::ENTRY_BUSY, 0);", "storage::put_page(s, sh, e, p, 2, 0);", "a", "2"),
    ("crates/storage/src/lib.rt", "layout::cell_word(s, sh, fr - 1, j, f)", "layout::cell_word(s, sh, fr - 1, j, f + 1)", "a", "1"),
    ("crates/head/src/lib.rt", "TableHead {\n        life: layout::head_word(s, sh, b, field::HEAD_LIFECYCLE),", "let two = 1;\n    TableHead {\n        life: layout::head_word(s, sh, b, two),", "a", "two"),
    ("crates/runner/src/lib.rt", "let op = rq.field(field::FIELD_OP);", "let op = rq.field(0);", "a", "0"),
    ("crates/survey/src/lib.rt", "u64::from(c.tag == value::TAG_VACANT)", "u64::from(c.tag == 0)", "b", "0"),
    ("crates/lookup/src/lib.rt", "value::TAG_TRANSFER_RESERVED => Err(Refusal::Busy)", "2 => Err(Refusal::Busy)", "c", "2"),
    ("crates/ledger/src/lib.rt", "    w == value::KIND_PARCEL\n", "    w == 3\n", "b", "3"),
    ("crates/object/src/lib.rt", "stage: value::STAGE_ACTIVE,", "stage: 1,", "b", "1"),
    ("crates/head/src/lib.rt", "layout::put_head(s, sh, b, field::HEAD_LIFECYCLE, h.life);", "layout::put_head(s, sh, b, field::HEAD_LIFECYCLE, 1);", "b", "1"),
    ("crates/head/src/lib.rt", "life: value::LIFE_TEARING_DOWN,", "life: 1,", "b", "1"),
    ("crates/request/src/lib.rt", "format::op::OP_PUBLISH | format::op::OP_PREPARE_TRANSFER | format::op::OP_JUDGE_TRANSFER", "8 | format::op::OP_PREPARE_TRANSFER | format::op::OP_JUDGE_TRANSFER", "c", "8"),
    ("crates/serve/src/lib.rt", "op::OP_NEW_OBJECT => parcel::serve_new_object", "1 => parcel::serve_new_object", "c", "1"),
    ("crates/serve/src/lib.rt", "op::OP_TRIM => claim::serve_trim", "6 => claim::serve_trim", "c", "6"),
    ("crates/teardown/src/lib.rt", "*j % size::PAGE_SIZE, field::SLOT_TAG)", "*j % 64, field::SLOT_TAG)", "e", "64"),
    ("crates/transfer/src/lib.rt", "(rows.low + (x * size::ROW_BLOCKS + j + 1) * size::BLOCK_SIZE)", "(rows.low + (x * 65 + j + 1) * size::BLOCK_SIZE)", "e", "65"),
    ("crates/layout/src/lib.rt", "s[at + place::SLOT_GENERATION]", "s[at + 1]", "d", "1"),
    ("crates/layout/src/lib.rt", "words::word(s, place::ROOT_TABLES)", "words::word(s, 1)", "d", "1"),
    ("crates/book/src/lib.rt", "let half = n / 2;", "let half = n / 3;", "e", "3"),
    ("crates/head/src/lib.rt", "layout::put_head(s, sh, b, field::HEAD_CURSOR, h.cursor);", "layout::put_head(s, sh, b, field::ROOT_OBJECTS, h.cursor);", "a", "ROOT_OBJECTS"),
    ("crates/storage/src/lib.rt", "// Into the page of a link; through 0 nothing.", "const ZERO: u64 = 0;", "f", "0"),
    ("crates/teardown/src/lib.rt", "sh b life_retired 0", "sh b 2 0", "g", "2"),
    ("crates/transfer/src/lib.rt", "route == value::ROUTE_BUFFERED", "route == 0", "b", "0"),
    ("crates/ledger/src/lib.rt", "value::KIND_CLAIM => self.claim_ok", "2 => self.claim_ok", "c", "2"),
    ("crates/ledger/src/lib.rt", "value::KIND_RESERVATION..=value::KIND_PARCEL => list_ok", "1..=value::KIND_PARCEL => list_ok", "c", "1"),
    ("crates/transfer/src/lib.rt", "value::CLASS_LEAF => false,", "0 => false,", "c", "0"),
    ("crates/format/src/lib.rt", "maps::MAY.get(op as usize)", "maps::MAY.get(6)", "e", "6"),
    ("crates/format/src/lib.rt", "word <= size::ROUTE_LAST", "word <= 2", "e", "2"),
    ("crates/close/src/lib.rt", "op::OP_CLOSE, [FIELD_TABLE, FIELD_VALUE]", "op::OP_CLOSE, [FIELD_TABLE, 4]", "a", "4"),
    ("crates/lookup/src/lib.rt", "op::OP_SCAN_HANDLES, [FIELD_TABLE, FIELD_CURSOR]", "op::OP_SCAN_HANDLES, [FIELD_TABLE, Rights::NONE]", "a", "Rights"),
    ("crates/plan/src/lib.rt", "let id = rq.field(FIELD_ID);\n    use_plan", "let id = rq.field(op::OP_CLOSE);\n    use_plan", "a", "op"),
    ("crates/detach/src/lib.rt", "use format::field::FIELD_TABLE;", "const FIELD_TABLE: u64 = op::OP_CLOSE;", "a", "FIELD_TABLE"),
    ("crates/request/src/lib.rt", "self.find(bit).is_some()", "self.find(3).is_some()", "a", "3"),
    ("crates/parcel/src/lib.rt", "[FIELD_OBJECT, FIELD_RIGHTS, FIELD_FLAGS]", "[FIELD_OBJECT, 5, FIELD_FLAGS]", "a", "5"),
    ("crates/request/src/lib.rt", "fits(format::field::FIELD_ROUTE, FieldKind::Route)", "fits(12, FieldKind::Route)", "a", "12"),
    ("crates/counts/src/lib.rt", "matches!(stage, value::STAGE_NEW | value::STAGE_RETIRED)", "matches!(stage, value::STAGE_NEW | 2)", "c", "2"),
    ("crates/counts/src/lib.rt", "(value::KIND_CLAIM..=value::KIND_PARCEL).contains(&kind)", "(2..=value::KIND_PARCEL).contains(&kind)", "b", "2"),
    ("crates/layout/src/lib.rt", "object: s[at + place::SLOT_OBJECT],", "object: *s.get(at + 2).unwrap_or(&0),", "d", "2"),
    ("crates/ledger/src/lib.rt", "let p = self.word(s, sh, field::ITEM_PAGE);", "let p = self.word(s, sh, 1);", "a", "1"),
    ("crates/ledger/src/lib.rt", "let f = item.word(s, sh, field::ITEM_FRAME);", "let f = item.word(s, sh, 0);", "a", "0"),
    ("crates/ledger/src/lib.rt", "let p = item.word(s, sh, field::ITEM_PAGE);", "let p = item.word(s, sh, field::HEAD_MASK);", "a", "HEAD_MASK"),
    ("crates/ledger/src/lib.rt", "self.is_named(s, sh, b, k, value::TAG_RESERVED)", "self.is_named(s, sh, b, k, 1)", "b", "1"),
    ("crates/ledger/src/lib.rt", "if t == value::TAG_RESERVED {", "if t == 1 {", "b", "1"),
    ("crates/ledger/src/lib.rt", "a == value::OPERATION_MOVE && k ==", "a == 0 && k ==", "b", "0"),
    ("crates/teardown/src/lib.rt", "== value::TAG_OCCUPIED)", "== 1)", "b", "1"),
]
PLAIN = """// 64 of 65
pub fn f(t: HandleValue, s: &mut [u64]) -> u64
    requires { length s.now < 2 ^ 64 }
    ensures words { result ≡ (parts s.new).2.0 }
{
    let two = "64"; // 63
    s[0..1].len() as u64 + t.0 + u64::MAX
}
"""


def main():
    texts = {str(p.relative_to(root)): p.read_text() for p in root.glob("crates/*/src/*.rt")}
    look = Look(texts)
    found, looked, excused = look.run(EXCEPTIONS)
    lost = []
    for line in ACCESSORS.splitlines():
        crate, names = line.split()[0].strip(":"), line.split(": ")[1]
        for name in names.split():
            named = [f for source in look.sources for f in source.functions if (f.crate, f.name) == (crate, name)]
            lost += [f"{crate}::{name} has no field argument"] if not named or any(f.field is None and not f.bits for f in named) else []
    changed = {**texts, "crates/words/src/plain.rt": PLAIN}
    for file, old, new, _, _ in WRONG:
        if changed.get(file, "").count(old) != 1:
            lost.append(f"'{old}' stands {changed.get(file, '').count(old)} times in {file}: a wrong line cannot be made")
        changed[file] = changed.get(file, "").replace(old, new)
    told = collections.Counter((file, letter, text) for file, _, text, letter, _ in Look(changed).run(EXCEPTIONS)[0])
    told.subtract((file, letter, text) for file, _, text, letter, _ in found)
    wanted = collections.Counter((file, letter, numeral) for file, _, _, letter, numeral in WRONG)
    lost += [f"{file}: of the wrong lines with {text} ({letter}), {told[file, letter, text]} of {n} are found" for (file, letter, text), n in wanted.items() if told[file, letter, text] != n]
    lost += [f"PLAIN has no fault, but {text} ({letter}) is found" for file, letter, text in told if file == "crates/words/src/plain.rt"]
    gone = look.run([*EXCEPTIONS, ("crates/words/src/lib.rt", "x + 64", "none")])[0]
    if len(gone) != len(found) + 1:
        lost.append("an exception that excuses nothing is not found")
    for file, line, text, letter, what in found:
        print(f"{file}:{line}: {text}: {what} ({letter})")
    for fault in lost:
        print(fault)
    print(f"{looked} numerals looked at in {len(texts) - len(TABLES)} files, {excused} of them by {len(EXCEPTIONS)} exceptions; {len(found)} faults; {len(WRONG)} wrong lines tried")
    return 1 if found or lost or looked < 500 else 0


sys.exit(main())

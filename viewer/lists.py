"""Lists of requests written in words, and the words of docs/formats.md that they stand for."""
import re
from dataclasses import dataclass, field

FIELDS = "op table object count value rights flags id destination kind koid cursor route offered_rights offered_kind expected_kind forbidden_object forbidden_kind".split()
OPS = [""] + (
    "new_object duplicate release_parcel retire_object reserve trim abort publish get_info resolve replace close scan_handles prepare_transfer prepare_consumption rollback commit "
    "direct_commit direct_rollback remove_stopping_owner teardown_start teardown_step teardown_finish take_empty_page make_plan use_plan drop_plan judge_transfer"
).split()
ITEMS = {"publish": ("parcel",), "prepare_transfer": ("move", "copy"), "judge_transfer": ("move", "copy")}
IDS = ("id", "destination")
TABLE = ("pages", "seed")
OBJECT = ("koid", "kind", "class", "rights", "exportable", "limit")
# where an answer has an id, and where its values stand (the first, and how far apart)
ID_AT = dict.fromkeys(("new_object", "duplicate", "reserve", "prepare_transfer", "prepare_consumption", "make_plan", "use_plan"), 1)
VALUES_AT = {"reserve": (3, 1, 64), "use_plan": (3, 1, 64), "replace": (1, 1, 1), "scan_handles": (5, 5, 8), "remove_stopping_owner": (3, 1, 1)}


class Fault(Exception):
    pass


@dataclass
class Request:
    line: int
    op: str
    fields: dict  # name: text
    items: list = field(default_factory=list)  # (kind, line, fields)

    def told(self, change=lambda name, text: text):
        """Its lines, as the file has them but for `change`."""
        say = lambda head, fields: " ".join([head] + [f"{name}={change(name, text)}" for name, text in fields.items()])
        return [say(self.op, self.fields)] + [say("- " + kind, fields) for kind, _, fields in self.items]


@dataclass
class List:
    name: str
    tables: list = field(default_factory=list)
    objects: list = field(default_factory=list)
    names: dict = field(default_factory=lambda: {"table": {}, "object": {}})
    frames: int = 8
    rows: int = 8
    requests: list = field(default_factory=list)
    hold: int = None  # the number of requests before `hold`
    ending: str = None
    ending_line: int = 0
    held: bool = False

    def create(self):
        return [len(self.tables), self.frames, len(self.objects), self.rows] + sum(self.tables, []) + sum(self.objects, [])

    def named(self, kind, number):
        """A table or an object, by its number and its name if it has one."""
        return f"{kind} {number}" + "".join(f" {name}" for name, n in self.names[kind].items() if n == number)

    def number(self, name, text, answers):
        """The number that a field's text stands for; `answers` are (op, words) of the requests before."""
        if text in self.names.get(name, {}):
            return self.names[name][text]
        at = re.fullmatch(r"@(\d+)(?:\.(\d+))?", text)
        if not at:
            return plain(text)
        n, k = int(at.group(1)), int(at.group(2) or 0)
        if n < 1 or n > len(answers):
            raise Fault(f"{text}: there is no answer {n} yet")
        op, words = answers[n - 1]
        if name in IDS and op in ID_AT and not at.group(2):
            return words[ID_AT[op]]
        if name == "value" and op in VALUES_AT and k < VALUES_AT[op][2]:
            first, apart, _ = VALUES_AT[op]
            return words[first + apart * k]
        raise Fault(f"{name}={text}: the answer to {op} has no such {'value' if name == 'value' else 'id' if name in IDS else 'number'}; @N stands for a value or an id")

    def records(self, request, answers, change=lambda name, number: number):
        """A request's words, its items' records behind its own."""
        fields = {"op": str(OPS.index(request.op)), **request.fields}
        if request.op in ITEMS:
            fields.setdefault("count", str(len(request.items)))
        words = self.record(request.line, fields, answers, change)
        for kind, line, item in request.items:
            words += self.record(line, {"op": "1" if kind == "copy" else "0", **item}, answers, change)
        return words

    def record(self, line, fields, answers, change):
        try:
            bits = {FIELDS.index(name): change(name, self.number(name, text, answers)) for name, text in fields.items()}
        except Fault as fault:
            raise Fault(f"{self.name}, line {line}: {fault}")
        return [sum(1 << bit for bit in bits)] + [bits[bit] for bit in sorted(bits)]


def plain(text):
    try:
        number = int(text, 0)
    except ValueError:
        raise Fault(f"'{text}' is no number")
    if not 0 <= number < 2**64:
        raise Fault(f"{text} does not fit a word of 64 bits")
    return number


def fields_of(words, known):
    out = {}
    for word in words:
        name, equals, text = word.partition("=")
        if not equals or not text:
            raise Fault(f"'{word}': a field is NAME=NUMBER")
        if name not in known:
            raise Fault(f"no field here is called '{name}'; fields: {' '.join(known)}")
        if name in out:
            raise Fault(f"the field {name} stands twice")
        out[name] = text
    return out


def parse(path, held):
    """The list in a file; with `held` one of two runs, with its lines `hold` and `end`."""
    this = List(path.name, held=held)
    for at, line in enumerate(path.read_text().split("\n"), 1):
        words = line.split("#")[0].split()
        if not words:
            continue
        try:
            take(this, at, words)
        except Fault as fault:
            raise Fault(f"{path.name}, line {at}: {fault}")
    if held and this.hold is None:
        raise Fault(f"{path.name}: there is no line 'hold', which stands before the transfer that is held")
    if held and (len(this.requests) == this.hold or this.requests[this.hold].op != "prepare_transfer"):
        where = f", line {this.requests[this.hold].line}" if len(this.requests) > this.hold else ""
        raise Fault(f"{path.name}{where}: the request after 'hold' must be the prepare_transfer that is held")
    if held and this.ending is None:
        raise Fault(f"{path.name}: the last line must be 'end rollback' or 'end commit'")
    return this


def take(this, at, words):
    head, rest = words[0], words[1:]
    if this.ending is not None:
        raise Fault("nothing may follow 'end'")
    if head.startswith("-"):
        kind, *rest = (head[1:].split() or []) + rest or [""]
        kinds = ITEMS.get(this.requests[-1].op, ()) if this.requests else ()
        if kind not in kinds:
            raise Fault("an item is '- parcel' below a publish, '- move' or '- copy' below a prepare_transfer or a judge_transfer")
        this.requests[-1].items.append((kind, at, fields_of(rest, FIELDS[1:])))
    elif head in ("table", "object"):
        known, numbers = (TABLE, this.tables) if head == "table" else (OBJECT, this.objects)
        fields = fields_of(rest, known + ("name",))
        name = fields.pop("name", None)
        missing = [n for n in known if n not in fields]
        if missing:
            raise Fault(f"the field {missing[0]} is missing")
        if this.requests:
            raise Fault(f"a {head} stands before the first request: they are made at creation")
        if name is not None and (name in this.names[head] or not re.fullmatch(r"[A-Za-z][\w-]*", name)):
            raise Fault(f"'{name}' is no name, or is taken")
        if name is not None:
            this.names[head][name] = len(numbers)
        numbers.append([plain(fields[n]) for n in known])
    elif head in ("frames", "rows"):
        if len(rest) != 1 or this.requests:
            raise Fault(f"'{head} NUMBER' stands before the first request")
        setattr(this, head, plain(rest[0]))
    elif head in ("hold", "end") and not this.held:
        raise Fault(f"'{head}' belongs to a list of two runs: ./run.py --held FILE")
    elif head == "hold":
        if rest or this.hold is not None:
            raise Fault("one line 'hold' stands before the transfer that is held")
        this.hold = len(this.requests)
    elif head == "end":
        if rest not in (["rollback"], ["commit"]):
            raise Fault("the list ends with 'end rollback' or 'end commit'")
        this.ending, this.ending_line = rest[0], at
    elif head in OPS[1:]:
        this.requests.append(Request(at, head, fields_of(rest, FIELDS[1:])))
    else:
        raise Fault(f"no request is called '{head}'; requests: {' '.join(OPS[1:])}")

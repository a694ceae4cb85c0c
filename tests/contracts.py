#!/usr/bin/env python3
"""Every public function has a contract that speaks of all it gives and demands nothing.

Each function of crates/*/src is read from its `fn` to its own body: name, parameters, result, clauses. Of a public one it is demanded that

- it has an `ensures`, and no `requires`; the parts of the state check in TOLD have one, and are no outside calls;
- some `ensures` speaks of the result (`result`), where it has one, and of what each `&mut` parameter refers to afterwards (`p.new`);
- an outside call (`extern "C"`) has the clauses `words` (the result and every lent word by a definition) and `meets` (the same in the model's terms), and each of
  the two speaks of the result and of every `&mut` parameter. It only calls a public function of a library, of the same name, with its own parameters, and has all that function's clauses and no other.

What can't be read is a fault, and the number of public functions read must be the number of times that one is announced in the text. The scanner is tried
first on small wrong texts, each of which it must find fault with, and on right ones.
"""
import re
import sys
from pathlib import Path

CLAUSES = ("ghost", "requires", "ensures")
OUTSIDE = ("words", "meets")
# parts of the state check that are told that all of the state's words are lent, which `wellformed::check` tests before it calls them
TOLD = {"counts": {"check_objects", "note_handle", "settle"}, "survey": {"walk_slots"}}


class Unread(Exception):
    pass


def blanked(text):
    """The text with comments, byte strings and byte characters replaced by blanks of the same length (lines stay lines)."""
    literal = r"//[^\n]*|/\*.*?\*/|b?\"(?:\\.|[^\"\\])*\"|b'(?:\\.|[^'\\])'"
    blank = lambda found: found.group() if found.group() == '"C"' else re.sub(r"[^\n]", " ", found.group())
    return re.sub(literal, blank, text, flags=re.S)


def balanced(text, at, opening, closing):
    """The place after the bracket that closes the one at `at`."""
    depth = 0
    for i in range(at, len(text)):
        depth += (text[i] == opening) - (text[i] == closing)
        if depth == 0:
            return i + 1
    raise Unread(f"`{opening}` is not closed")


def skip(text, at):
    while at < len(text) and text[at].isspace():
        at += 1
    return at


def past_generics(text, at):
    """The place after a name's `<..>`, where it has that: a `>` of an arrow closes nothing."""
    if at >= len(text) or text[at] != "<":
        return at
    depth = 0
    for i in range(at, len(text)):
        depth += (text[i] == "<") - (text[i] == ">" and text[i - 1] != "-")
        if depth == 0:
            return skip(text, i + 1)
    raise Unread("`<` is not closed")


class Function:
    """One function of a text that is blanked: `before` is what stands between the last `;`, `{` or `}` and its `fn`."""

    def __init__(self, text, start):
        self.before = re.split(r"[;{}]", text[:start])[-1]
        head = re.compile(r"fn\s+(\w+)\s*").match(text, start)
        self.name = head.group(1) if head else "?"
        self.public = re.search(r"\bpub\b", self.before) is not None
        self.outside = re.search(r'\bextern\b|\bno_mangle\b', self.before) is not None
        first = past_generics(text, head.end()) if head else len(text)
        if text[first : first + 1] != "(":
            raise Unread("no parameters after its name")
        end = balanced(text, first, "(", ")")
        self.parameters = text[first + 1 : end - 1]
        at = skip(text, end)
        self.result = ""
        if text.startswith("->", at):
            stop = re.compile(r"\{|\b(?:%s)\b|;(?![^\[]*\])" % "|".join(CLAUSES)).search(text, at)
            if not stop:
                raise Unread("its result has no end")
            self.result, at = text[at + 2 : stop.start()].strip(), stop.start()
        self.clauses = []
        while True:
            at = skip(text, at)
            clause = re.compile(r"(%s)\*?(?:\s+(\w+))?\s*:?\s*(?=\{)" % "|".join(CLAUSES)).match(text, at)
            if not clause:
                break
            at = balanced(text, clause.end(), "{", "}")
            self.clauses.append((clause.group(1), clause.group(2), text[clause.end() + 1 : at - 1]))
        if at >= len(text) or text[at] != "{":
            raise Unread("no body after its clauses")
        self.end = balanced(text, at, "{", "}")
        self.body = text[at + 1 : self.end - 1].strip()

    def lent(self):
        """The `&mut` parameters."""
        return re.findall(r"(\w+)\s*:\s*&\s*(?:'\w+\s+)?mut\b", self.parameters) + (["self"] if re.search(r"&\s*(?:'\w+\s+)?mut\s+self\b", self.parameters) else [])

    def missed(self, ensures):
        """What none of these clauses speaks of."""
        out = []
        if self.result and not any(re.search(r"(?<![\w.'-])result(?![\w'-])", c) for c in ensures):
            out.append("its result")
        for p in self.lent():
            if not any(re.search(r"(?<![\w.'-])«?%s»?\.new\b" % p, c) for c in ensures):
                out.append(f"what `{p}` refers to afterwards")
        return out

    def promise(self):
        """Its parameters, result and clauses, without blanks that say nothing."""
        plain = lambda text: re.sub(r"\s+", " ", text).strip().rstrip(",")
        return plain(self.parameters), plain(self.result), sorted((kind, name, plain(body)) for kind, name, body in self.clauses)

    def calls(self):
        """The function that it only calls, with its own parameters: crate and name; None if it does something else."""
        found = re.fullmatch(r"(\w+)::(\w+)\(([\w\s,]*)\)", self.body)
        given = [word.strip() for word in found.group(3).split(",") if word.strip()] if found else None
        return found.group(1, 2) if found and given == re.findall(r"(\w+)\s*:", self.parameters) else None

    def faults(self, told=frozenset()):
        ensures = [(name, body) for kind, name, body in self.clauses if kind == "ensures"]
        asks = any(kind == "requires" for kind, _, _ in self.clauses)
        if asks and (self.outside or self.name not in told):
            yield "has a requires"
        if not asks and self.name in told:
            yield "is named as one that has a requires, and has none"
        if not ensures:
            yield "has no ensures"
            return
        for what in self.missed([body for _, body in ensures]):
            yield f"has no ensures that speaks of {what}"
        if self.outside:
            for wanted in OUTSIDE:
                bodies = [body for name, body in ensures if name == wanted]
                if len(bodies) != 1:
                    yield f"is an outside call and has {len(bodies)} clauses `{wanted}`"
                else:
                    for what in self.missed(bodies):
                        yield f"is an outside call, and its clause `{wanted}` does not speak of {what}"


def read(text, told=frozenset()):
    """What is wrong with a text, its public functions, and its outside calls; `told` may have a `requires`."""
    text = blanked(text)
    faults, public, outside = [], [], []
    for found in re.finditer(r"\bfn\b", text):
        try:
            function = Function(text, found.start())
        except Unread as why:
            name = re.compile(r"fn\s+(\w+)").match(text, found.start())
            faults.append(f"{name.group(1) if name else 'a function'} can't be read: {why}")
            continue
        if function.public or function.outside:
            public.append(function)
            faults += [f"{function.name} {fault}" for fault in function.faults(told)]
            if function.outside:
                outside.append(function)
    announced = len(re.findall(r'\bpub\b(?:\s*\([^)]*\))?(?:\s+(?:const|unsafe|extern|"C"))*\s+fn\b', text))
    if announced != len(public):
        faults.append(f"{announced} public functions are announced and {len(public)} were read")
    return faults, public, outside


def passed_on(outside, libraries):
    """What is wrong with outside calls beside the functions that they call; `libraries` are the public functions by (crate, name)."""
    for call in outside:
        called = libraries.get(call.calls())
        if called is None:
            yield f"{call.name} is an outside call and does something else than to call a library's public function with its own parameters"
        elif called.outside or called.name != call.name:
            yield f"{call.name} is an outside call and calls {called.name}, which is no library's function of its name"
        elif called.promise() != call.promise():
            yield f"{call.name} is an outside call, and its parameters, result and clauses are not those of the function that it calls"


GOOD = """
// a comment with a brace { and the word requires
pub fn size(s: &[u64]) -> usize
    ensures { result ≡ length s.now }
{
    let brace = b'{';
    s.len()
}

fn private(s: &mut [u64]) { s[0] = 0; }

#[unsafe(no_mangle)]
pub extern "C" fn call(state: &mut [u64], list: &[u64]) -> u64
    ensures words { after result state.new ≡ call_w state.old {n = 1} list.now }
    ensures meets { Meets state.old list.now result state.new }
{
    library::call(state, list)
}
"""
SILENT = "\npub fn silent(x: u64) -> u64 {\n    x\n}\n"
ASKING = GOOD.replace("    ensures { result ≡", "    requires { 1 ≡ 1 }\n    ensures { result ≡")
FORMS = [  # name, text, what must be found ("" for nothing)
    ("right functions", GOOD, ""),
    ("a public function with no clause, followed by one with", SILENT + GOOD, "silent has no ensures"),
    ("the same on one line", "pub fn silent() -> u64 { 1 }\n" + GOOD, "silent has no ensures"),
    ("a public function with no clause at the end", GOOD + SILENT, "silent has no ensures"),
    ("a method with no clause", "impl Rights {\n    pub fn silent(self) -> u64 {\n        self.0\n    }\n}\n" + GOOD, "silent has no ensures"),
    ("a body that has the word ensures", "pub fn silent() -> u64 {\n    // ensures\n    let ensures = 1;\n    ensures\n}\n" + GOOD, "silent has no ensures"),
    ("an outside call with no clause", re.sub(r" *ensures (?:words|meets).*\n", "", GOOD), "call has no ensures"),
    ("an outside call without `meets`", re.sub(r" *ensures meets.*\n", "", GOOD), "call is an outside call and has 0 clauses `meets`"),
    ("an outside call without `words`", re.sub(r" *ensures words.*\n", "", GOOD), "call is an outside call and has 0 clauses `words`"),
    ("an outside call that is not public", GOOD.replace('pub extern "C" fn call', 'extern "C" fn call').replace("ensures meets", "ensures"), "has 0 clauses `meets`"),
    ("an outside call whose `meets` says nothing", re.sub(r"ensures meets \{.*\}", "ensures meets { ⊤ }", GOOD), "`meets` does not speak of its result"),
    ("an outside call whose `meets` names a field result alone", GOOD.replace("list.now result state.new", "list.now state.old.result state.new"), "`meets` does not speak of its result"),
    ("an outside call whose `meets` leaves the lent words free", GOOD.replace("result state.new }", "result state.old }"), "`meets` does not speak of what `state` refers to afterwards"),
    ("a requires", ASKING, "size has a requires"),
    ("a requires with a name and a star", GOOD.replace("    ensures { result ≡", "    requires* lent { ⊤ₛ }\n    ensures { result ≡"), "size has a requires"),
    ("a requires after the ensures", GOOD.replace("length s.now }\n", "length s.now }\n    requires { 1 ≡ 2 }\n", 1), "size has a requires"),
    ("an outside call with a requires", GOOD.replace("    ensures words", "    requires { 1 ≡ 2 }\n    ensures words"), "call has a requires"),
    ("an ensures that says nothing of the result", "pub fn free(x: u64) -> u64\n    ensures { ⊤ }\n{\n    x\n}\n" + GOOD, "free has no ensures that speaks of its result"),
    ("an ensures of something called after the result", "pub fn free(x: u64) -> u64\n    ensures { x ≡ x.result }\n{\n    x\n}\n" + GOOD, "free has no ensures that speaks of its result"),
    ("an ensures that leaves lent words free", "pub fn free(s: &mut [u64])\n    ensures { s.old ≡ s.old }\n{\n}\n" + GOOD, "free has no ensures that speaks of what `s` refers to"),
    ("a private generic function beside right ones", "fn step<F: FnOnce(Rights) -> Result<u64, Vec<u64>>, const N: usize>(f: F) -> u64 { 0 }\n" + GOOD, ""),
    ("a function of a closure with no clause", "pub fn silent<F: FnOnce(u64) -> u64>(f: F) -> u64 {\n    f(1)\n}\n" + GOOD, "silent has no ensures"),
    ("a function with a const parameter with no clause", "pub fn silent<const N: usize>(x: [u64; N]) -> [u64; N] {\n    x\n}\n" + GOOD, "silent has no ensures"),
    ("a function of a closure that leaves lent words free", "pub fn free<F: Fn(&mut [u64], u64) -> u64>(s: &mut [u64], f: F) -> u64\n    ensures { result ≡ 0 }\n{\n    0\n}\n" + GOOD, "free has no ensures that speaks of what `s` refers to"),
    ("a generic function with a requires", "pub fn asks<F: Fn(u64) -> Option<u64>>(f: F) -> u64\n    requires { F.IsAlwaysCallable f }\n    ensures { result ≡ 0 }\n{\n    0\n}\n" + GOOD, "asks has a requires"),
    ("a C function's assumed contract", 'unsafe extern "C" { fn magic() -> u64 ensures { result ≡ 8 }; }\n' + GOOD, "magic can't be read"),
]
LIBRARY = """
pub fn call(state: &mut [u64], list: &[u64]) -> u64
    ensures words { after result state.new ≡ call_w state.old {n = 1} list.now }
    ensures meets { Meets state.old list.now result state.new }
{
    if list.len() == 0 { 0 } else { 18 }
}
"""
APART = [  # name, the outside call's text, the library's, what must be found ("" for nothing)
    ("an outside call and its function", GOOD, LIBRARY, ""),
    ("an outside call of another function", GOOD.replace("library::call(", "library::other("), LIBRARY, "does something else"),
    ("an outside call that gives a number", GOOD.replace("library::call(state, list)", "18"), LIBRARY, "does something else"),
    ("an outside call with its parameters crossed", GOOD.replace("library::call(state, list)", "library::call(list, state)"), LIBRARY, "does something else"),
    ("an outside call that does more", GOOD.replace("    library::call(state, list)", "    private(state);\n    library::call(state, list)"), LIBRARY, "does something else"),
    ("an outside call that says less", GOOD.replace("≡ call_w state.old", "≡ any_w state.old"), LIBRARY, "are not those"),
    ("a library's function with a clause more", GOOD, LIBRARY.replace("    ensures meets", "    ensures more { 0 ≤ result }\n    ensures meets"), "are not those"),
    ("a library's function that asks", GOOD, LIBRARY.replace("    ensures words", "    requires { 1 ≡ 2 }\n    ensures words"), "are not those"),
    ("a library's function that is exported too", GOOD, LIBRARY.replace("pub fn", 'pub extern "C" fn'), "no library's function"),
    ("a library's function that is not public", GOOD, LIBRARY.replace("pub fn", "fn"), "does something else"),
]


def tried():
    """The faults of the scanner itself."""
    if read(ASKING, {"size"})[0] or not read(GOOD, {"size"})[0] or not read(GOOD.replace("    ensures words", "    requires { 1 ≡ 2 }\n    ensures words"), {"call"})[0]:
        yield "the scanner does not tell who may have a requires"
    for name, text, wanted in FORMS:
        faults, public, _ = read(text)
        if wanted == "" and (faults or len(public) != 2):
            yield f"the scanner finds {faults} and {len(public)} public functions in: {name}"
        elif wanted and not any(wanted in fault for fault in faults):
            yield f"the scanner does not catch: {name}; it says {faults}"
    for name, text, library, wanted in APART:
        faults = list(passed_on(read(text)[2], {("library", function.name): function for function in read(library)[1]}))
        if (wanted == "" and faults) or (wanted and not any(wanted in fault for fault in faults)):
            yield f"the scanner does not tell: {name}; it says {faults}"


def main():
    root = Path(__file__).resolve().parent.parent
    faults, looked, functions, calls = list(tried()), 0, {}, []
    for path in sorted(root.glob("crates/*/src/**/*.rt")):
        crate = path.relative_to(root / "crates").parts[0]
        wrong, public, outside = read(path.read_text(), TOLD.get(crate, frozenset()))
        faults += [f"{path.relative_to(root)}: {fault}" for fault in wrong]
        looked += len(public)
        if path.name == "lib.rt":
            functions.update({(crate, function.name): function for function in public})
        calls += outside
    faults += passed_on(calls, functions)
    # the outside calls are those of the header, so that none is lost and none comes unseen
    header = set(re.findall(r"\b(gurtxozal_\w+)\s*\(", re.sub(r"//[^\n]*|/\*.*?\*/", "", (root / "c/gurtxozal.h").read_text(), flags=re.S)))
    if {call.name for call in calls} != header or len(calls) != len(header):
        faults.append(f"the outside calls are {sorted(call.name for call in calls)}, and c/gurtxozal.h declares {sorted(header)}")
    for fault in faults:
        print(fault)
    print(f"{len(FORMS) + len(APART)} small texts tried, {looked} public functions looked at, {len(calls)} of them outside calls")
    sys.exit(1 if faults or not looked or not calls else 0)


main()

#!/usr/bin/env python3
"""In definitions and proofs over words, as in the code (tests/numerals.py), a field and a region stand by name: crates/*/specs/*.antt and the lemmas of crates/*/proofs/*.antt, without comments.

ADDRESSES are what takes a field or a region as it is. Whatever hands a parameter on to one of them in its type takes one too: a lemma, a record's field, a parameter that is itself a
function, a `let`; so do the calls of those. A numeral there is a fault, with file, line and numeral. A lemma of a module takes the module's parameters first where it is called from outside:
both places are looked at.

The things of some regions have one word each, field 0: 0 may stand for it, beside such a region or one that is not known. The test makes the wrong lines of WRONG in memory and must find each.
"""
import collections
import re
import sys
from pathlib import Path

root = Path(__file__).resolve().parent.parent
# What takes a field or a region, and at which of its arguments
ADDRESSES = {
    "root": {1}, "head": {2}, "entry": {2}, "cell": {3}, "object": {2}, "row": {2}, "item": {3}, "reg": {1, 4}, "region": {2},
    "hd": {1}, "pg": {2}, "sl": {2}, "word_in": {4}, "slot_word": {4},
}  # fmt: skip
# Where the names of ADDRESSES come from
HOMES = ("layout", "representation", "storage")
ONE_WORD = re.compile(r"region_owner|\( ?region_group\d+.*|[a-z]")
SEPARATORS = {",", ";", "∙", "→", "λ", "=", "×", "in", "let", "rw", "||", "&&", "++", "then", "←", "where", "refuse", "or", ":", "module", "record", "pub", "abbrev", "unfoldable"}
OPERATORS = set("≡≤<+-*/%^∷")
TOKEN = re.compile(r"[(){},;]|\.[^\s(){},;.]+|[^\s(){},;.]+\.(?=[\s(){},;]|$)|[^\s(){},;.]+|\.")  # a projection is a token of its own, with its dot; a binder's dot stays with its name


def code_of(text):
    """Lines without comments; imports are empty lines."""
    return "\n".join("" if line.startswith("use ") else line.split("--")[0] for line in text.split("\n"))


def applications(tokens):
    """Each argument that is one token: what it is given to, at which place, the arguments before it, and the token. A projection belongs to what it stands right behind: to an argument, or to what
    is applied, whose name is then the projection's."""
    stack = [(None, [])]
    for token, after in zip(tokens, [*tokens[1:], None]):
        word = token.group()
        head, args = stack[-1]
        projected = after is not None and after.start() == token.end() and re.match(r"\.[^\d.]", after.group())
        if word in "({":
            stack.append((None, []))
        elif word in ")}":
            if len(stack) > 1:
                head, args = stack.pop()
            stack[-1][1].append(f"({head} {' '.join(args)})")
        elif word in SEPARATORS or word.endswith("."):
            stack[-1] = (None, [])
        elif word in OPERATORS:
            stack[-1] = (f"{head} {word}", [])
        elif re.fullmatch(r"\.\d+", word):
            pass
        elif word.startswith("."):
            if head is None or not args:
                stack[-1] = (word[1:], [])
            else:
                args[-1] += word
        elif head is None:
            stack[-1] = (word, [])
        elif projected:
            args.append(word)
        else:
            yield head, len(args) + 1, list(args), token
            args.append(word)


def types_of(tokens):
    """What has a type that begins with a parameter in brackets: its name, the names of its parameters (None for one without), and the tokens of its type."""
    for at in range(len(tokens) - 2):
        if tokens[at + 1].group() != ":" or tokens[at + 2].group() not in "({" or not re.match(r"[\w⊥]", tokens[at].group()):
            continue
        names, end, depth = [], at + 2, 0
        while end < len(tokens):
            word = tokens[end].group()
            if word in "({":
                depth += 1
            elif word in ")}":
                depth -= 1
                if depth < 0:
                    break
            elif depth == 0 and word in ("=", ";", "where", ","):
                break
            elif depth == 0 and end + 1 < len(tokens) and tokens[end + 1].group() == ":" and end > at + 2:
                break  # the next declaration
            end += 1
        inner, place = tokens[at + 2 : end], 0
        while place < len(inner):
            word = inner[place].group()
            if word in "({":
                close, depth = place, 0
                while True:
                    depth += {"(": 1, "{": 1, ")": -1, "}": -1}.get(inner[close].group(), 0)
                    if depth == 0 or close + 1 == len(inner):
                        break
                    close += 1
                part = [token.group() for token in inner[place + 1 : close]]
                if ":" in part and all(re.fullmatch(r"[\w'₀-₉]+", name) for name in part[: part.index(":")]):
                    names += part[: part.index(":")] if word == "(" else []
                    place = close + 1
                    if place < len(inner) and inner[place].group() == "→":
                        place += 1
                    continue
            # a premise without a name, up to its arrow
            depth = 0
            while place < len(inner) and not (depth == 0 and inner[place].group() == "→"):
                depth += {"(": 1, "{": 1, ")": -1, "}": -1}.get(inner[place].group(), 0)
                place += 1
            if place < len(inner):
                names.append(None)
            place += 1
        yield tokens[at].group(), tokens[at].start(), names, inner


def around(text):
    """For each place of a module's head: how many parameters in round brackets it has, its column, and where it begins."""
    out = []
    for found in re.finditer(r"^( *)(?:pub )?module _([^\n]*?(?:\n(?!\1  ?[\w'-]+ :)[^\n]*)*?)\bwhere$", text, re.M):
        many = depth = 0
        for part in re.finditer(r"\(([^():]*:)?|\)", found.group(2)):
            many += len(part.group(1).rstrip(":").split()) if depth == 0 and part.group(1) else 0
            depth += -1 if part.group() == ")" else 1
        out.append((found.start(), len(found.group(1)), many))
    return out


def outside(modules, text, place):
    """How many parameters the modules around a place have."""
    line = text.rfind("\n", 0, place) + 1
    column = len(text[line:]) - len(text[line:].lstrip(" "))
    many = 0
    for start, own, params in reversed(modules):
        if start < place and own < column:
            many, column = many + params, own
    return many


class Look:
    """What takes a field, by file and for those that name it elsewhere; and the numerals that are given there."""

    def __init__(self, texts):
        self.texts = {file: code_of(text) for file, text in texts.items()}
        tokens = {file: list(TOKEN.finditer(text)) for file, text in self.texts.items()}
        self.calls = {file: list(applications(own)) for file, own in tokens.items()}
        self.projections = {name for text in self.texts.values() for name in re.findall(r"^ +pub ([\w-]+) :", text, re.M)}
        self.fields = {file: {} for file in texts}
        self.public = {}
        self.uses, self.addresses = {}, {}
        for file, text in texts.items():
            self.uses[file] = uses = {}
            self.addresses[file] = set(ADDRESSES) if file.split("/")[1] in HOMES else set()
            for home, names in re.findall(r"^use (\S*?)\.\{([^}]*)\}", text, re.M):
                for name in names.split(","):
                    there, _, here = name.strip().rpartition(".")[2].partition(" as ")
                    uses[here or there] = there
                    if there in ADDRESSES and any(home.startswith(f"Rattle.{crate}.") for crate in HOMES):
                        self.addresses[file].add(here or there)
        types = [(file, *given) for file, own in tokens.items() for given in types_of(own)]
        modules = {file: around(text) for file, text in self.texts.items()}
        new = True
        while new:
            new = False
            for file, name, start, names, inner in types:
                for head, place, _, token in applications(inner):
                    if token.group() in names and place in self.places(file, head):
                        own = names.index(token.group()) + 1
                        if own not in self.fields[file].setdefault(name, set()):
                            after = own + outside(modules[file], self.texts[file], start)
                            self.fields[file][name] |= {own, after}
                            self.public.setdefault(name, set()).add(after)
                            new = True

    def places(self, file, head):
        own = self.fields[file].get(head, set())
        there = self.uses[file].get(head)
        if head in self.addresses[file]:
            own = own | ADDRESSES[there or head]
        elif there is not None or head in self.projections:
            own = own | self.public.get(there or head, set())
        return own

    def run(self):
        """The faults, and how many arguments were looked at."""
        faults, looked = [], 0
        for file, calls in self.calls.items():
            for head, place, before, token in calls:
                if place not in self.places(file, head):
                    continue
                looked += 1
                one_word = token.group() == "0" and before[-1:] == ["0"] and len(before) > 2 and ONE_WORD.fullmatch(before[-3])
                if re.fullmatch(r"\d+", token.group()) and not one_word:
                    faults.append((file, self.texts[file].count("\n", 0, token.start()) + 1, token.group(), head))
        return faults, looked


# Wrong lines: crate and module, text, what stands there instead, and the numeral that must be found
WRONG = [
    ("storage Keep", "size = h.heads head_pages ∙ z.size;", "size = h.heads 5 ∙ z.size;", "5"),
    ("storage Kept", "entry_kept p entry_next (ds p entry_next h)", "entry_kept p 3 (ds p entry_next h)", "3"),
    ("storage Kept", "its j item_granted ∙ p.3)", "its j 5 ∙ p.3)", "5"),
    ("storage Late", "rw (entry_seen ws (e + p) entry_high)", "rw (entry_seen ws (e + p) 1)", "1"),
    ("growth Late", "(e + p) entry_frame (up f))", "(e + p) 0 (up f))", "0"),
    ("growth Attach", "b p f region_root 0 0 root_free_frames (λ", "b p f region_root 0 0 7 (λ", "7"),
    ("growth Attach", "b p f region_owner g 0 0 (λ", "b p f 3 g 0 0 (λ", "3"),
    ("create Memory", "new_size b = new_head b head_pages ∙", "new_size b = new_head b 5 ∙", "5"),
    ("book Close", "next = p.roots root_next_id;", "next = p.roots 5;", "5"),
    ("counts Objects", "at _ object_stage (omega arith) refl,", "at _ 5 (omega arith) refl,", "5"),
    ("representation Represents", "m (item r j item_moved) ≡ k", "m (item r j 1) ≡ k", "1"),
    ("representation Represents", "m (row r row_count) ≡ n", "m (row r 4) ≡ n", "4"),
    ("representation Represents", "m (item r 0 item_free_slots) ≡ w.free_slots", "m (item r 0 2) ≡ w.free_slots", "2"),
    ("written Rows", "row_is s m shows i x h e row_id (omega arith)", "row_is s m shows i x h e 0 (omega arith)", "0"),
]


def main():
    texts = {str(p.relative_to(root)): p.read_text() for part in ("specs", "proofs") for p in sorted(root.glob(f"crates/*/{part}/*.antt"))}
    look = Look(texts)
    found, looked = look.run()
    lost, changed = [], dict(texts)
    wrong = [(next((file for file in texts if re.fullmatch("crates/%s/(?:specs|proofs)/%s.antt" % tuple(module.split()), file)), module), *line) for module, *line in WRONG]
    for file, old, new, _ in wrong:
        if changed.get(file, "").count(old) != 1:
            lost.append(f"'{old}' stands {changed.get(file, '').count(old)} times in {file}: a wrong line cannot be made")
        changed[file] = changed.get(file, "").replace(old, new)
    told = collections.Counter((file, text) for file, _, text, _ in Look(changed).run()[0])
    told.subtract((file, text) for file, _, text, _ in found)
    wanted = collections.Counter((file, numeral) for file, _, _, numeral in wrong)
    lost += [f"{file}: of the wrong lines with {text}, {told[file, text]} of {n} are found" for (file, text), n in wanted.items() if told[file, text] != n]
    for file, line, text, head in found:
        print(f"{file}:{line}: {text}: {head} takes a field or a region, by its name")
    for fault in lost:
        print(fault)
    takers = sum(len(names) for names in look.fields.values())
    print(f"{looked} fields and regions looked at in {len(texts)} files, given to {len(ADDRESSES)} addresses and {takers} names that hand them on; {len(found)} faults; {len(WRONG)} wrong lines tried")
    return 1 if found or lost or looked < 2000 or takers < 150 else 0


sys.exit(main())

#!/usr/bin/env python3
"""Counts the places of docs/DESIGN-PASS.md in the crates' sources, as they stand or at a commit:

    tools/places.py [--list] [COMMIT]

With --list each place is named by its file and line."""
import re
import subprocess
import sys
from pathlib import Path

root = Path(__file__).resolve().parent.parent
arguments = [a for a in sys.argv[1:] if a != "--list"]
commit = arguments[0] if arguments else None


def git(*command):
    return subprocess.run(["git", "-C", root, *command], capture_output=True, text=True, check=True).stdout


def files(pattern):
    """The files whose path matches, with their text."""
    if commit:
        names = git("ls-tree", "-r", "--name-only", commit).splitlines()
        return {n: git("show", f"{commit}:{n}") for n in names if re.fullmatch(pattern, n)}
    names = git("ls-files", "--cached", "--others", "--exclude-standard").splitlines()
    return {n: (root / n).read_text() for n in names if re.fullmatch(pattern, n) and (root / n).exists()}


sources = files(r"crates/\w+/src/.*\.rt")
# Comments are no code; their lines stay, so that line numbers are those of the files.
code = {n: re.sub(r"//[^\n]*", "", t) for n, t in sources.items()}
# A function's head: from `fn` to its body or its clauses.
HEAD = r"(?m)^ *(?:pub )?fn \w+[^{;]*?(?=\n? *(?:requires|ensures|\{))"


def found(pattern, text_of=code, test=lambda m: True):
    return [f"{n}:{t[: m.start()].count(chr(10)) + 1}" for n, t in text_of.items() for m in re.finditer(pattern, t) if test(m)]


heads = {n: t for n, t in code.items()}


def by_crate():
    """What the functions of each crate say, by their heads: (crate, name, parameters, clauses)."""
    for n, t in code.items():
        for m in re.finditer(r"(?m)^ *(?:pub )?fn (\w+)(?:<[^>]*>)?\(([^)]*)\)([^{]*(?:\{[^}]*\}\s*(?=requires|ensures|\{)[^{]*)*)", t):
            yield n.split("/")[1], m.group(1), [p.strip() for p in re.split(r",\s*(?![^\[]*\])", m.group(2).replace("\n", " ")) if p.strip()], m.group(3)


KNOWN = {"s: &[u64]", "s: &mut [u64]", "sh: Shape", "own: Shape", "out: &mut [u64]", "base: usize", "rq: &[u64]", "at: usize", "rq: &Record", "self", "&self", "&mut self"}


def together():
    """Pairs of parameters, each standing wherever the other does."""
    crates = {}
    for crate, name, parameters, _ in by_crate():
        crates.setdefault(crate, []).append((name, [p for p in parameters if p not in KNOWN]))
    out = []
    for crate, functions in sorted(crates.items()):
        uses = {}
        for name, parameters in functions:
            for p in parameters:
                uses.setdefault(p, []).append(name)
        for p, names in sorted(uses.items()):
            for q, others in sorted(uses.items()):
                if p < q and len(names) >= 3 and names == others:
                    out.append(f"{crate}: ({p}, {q}) in {len(names)}")
    return out


def asked():
    """Facts that clauses `requires` of three or more functions of a crate state, by their text."""
    facts = {}
    for crate, name, _, clauses in by_crate():
        for m in re.finditer(r"requires(?: \w+)? \{ ([^}]*?) \}", clauses):
            facts.setdefault((crate, m.group(1)), []).append(name)
    return [f"{crate}: {fact} in {len(names)}" for (crate, fact), names in sorted(facts.items()) if len(names) >= 3]

counts = [
    (1, "enums of the crates' own", found(r"(?m)^(?:pub )?enum \w+")),
    (1, "functions that give a refusal's number as a u64 (those named .._refusal, and those whose body gives one of format::refusal's numbers)",
     found(r"(?m)^ *(?:pub )?fn (?:\w*_refusal\w*\([^)]*\) -> u64|\w+\([^)]*\) -> u64\n(?:(?!\n\}|\n    \}\n\n).)*?refusal::[A-Z_]+\b)(?s:.)?", code)),
    (1, "functions whose comment speaks of a place plus 1, 0 for none",
     found(r"(?m)^//[^\n]*plus 1; 0 [^\n]*\n(?:(?://|#\[)[^\n]*\n)*(?:pub )?fn ", sources)),
    (1, "constants that number kinds: tags, kinds of rows and fields, lifecycles, stages, classes, operations, routes, ops",
     found(r"(?m)^pub const (?:TAG|KIND|LIFE|STAGE|CLASS|OPERATION|ROUTE|OP)_\w+: u64")),
    (1, "constants that number refusals", found(r"(?m)^pub const [A-Z_]+: u64", {n: t for n, t in code.items() if n.endswith("format/src/refusal.rt")})),
    (2, "functions named .._local, by value beside one that is lent the same", found(r"(?m)^ *pub fn \w+_local\(")),
    (2, "answers by their number of words (say, say1 ..)", found(r"(?m)^pub fn say\d?\(")),
    (2, "load and store functions of one region each", found(r"(?m)^pub fn (?:put_)?(?:root|head|entry|owner|cell|object|index|rank|row|item)(?:_word)?\(", {n: t for n, t in code.items() if n.endswith("layout/src/lib.rt")})),
    (2, "functions `contains` of the kinds of rights", found(r"(?m)^ +pub fn contains\(|^ +fn contains\(")),
    (2, "functions that find the row of one kind", found(r"(?m)^(?:pub )?fn (?:kind|reservation|plan|claim|parcel)_of\(s: &\[u64\], sh: Shape, id")),
    (3, "loops by `while` or `loop`", found(r"\bwhile\b|\bloop \{")),
    (3, "loops by `for`", found(r"(?m)^ *for\b")),
    (4, "calls of functions that stand for an operator or a method of u64 (words::eq, ne, lt, le, inc, dec, left, larger, smaller)",
     found(r"\bwords::(?:eq|ne|lt|le|inc|dec|left|larger|smaller)\(")),
    (4, "fields set by their own name (`first: first`)", found(r"\b(\w+): \1\b(?=,| \}|\n)")),
    (4, "choices whose other side is `false` or `true`", found(r"else \{\s*(?:false|true)\s*\}")),
    (5, "functions that take a state's words and its shape", found(HEAD, code, lambda m: re.search(r"\bs: &(?:mut )?\[u64\],\s*(?:sh|own): Shape", m.group(0)))),
    (5, "functions that take an answer's words and their base", found(HEAD, code, lambda m: re.search(r"out: &mut \[u64\],\s*base: usize", m.group(0)))),
    (5, "functions that take a list's words and a place", found(HEAD, code, lambda m: re.search(r"rq: &\[u64\],\s*at: usize", m.group(0)))),
    (5, "groups of two or more parameters that stand together in three or more functions of a crate, wherever the first stands (but for words and shape, answer and base, list and place)",
     together()),
    (5, "facts that the clauses of three or more functions of a crate ask", asked()),
    (6, "arrays in structs or lent beside a length", found(r"\[\w+; [\w:]+\]")),
    (7, "matches over ops or steps", found(r"\bmatch (?:op|step|kind|k)\b")),
    (8, "files of answers", [n for n in files(r"crates/\w+/proofs/.+/Answers\.antt")]),
    (8, "lines of answers", [n for n, t in files(r"crates/\w+/proofs/.+/Answers\.antt").items() for _ in t.splitlines()]),
]

point = 0
for number, what, places in counts:
    if number != point:
        print(f"point {number}")
        point = number
    print(f"  {len(places):5}  {what}")
    if "--list" in sys.argv and what != "lines of answers":
        for place in places:
            print(f"         {place}")

#!/usr/bin/env python3
"""Brings the repository's own definitions and lemmas to snake case, and its own types, records and modules to camel case.

usage: tools/respell.py            at the top of the repository: rewrites crates/
       tools/respell.py --look     writes nothing; prints names that would fall together in a file
       tools/respell.py --apart    prints rows for tools/respell.tsv that keep those apart
       tools/respell.py --map      prints each old name with its new one

It goes by whole words. A name is the repository's own if a file of specs/ or a lemma file of proofs/ declares or binds it, and no library has it. Functions of src/, exported C names,
strings, inputs and outputs keep their names: they have no hyphen and no capital behind a small letter. A second run changes nothing.
"""
import collections
import glob
import os
import re
import sys

WORD = re.compile(r'[^\s(){}.;,@"«»\[\]`|:◌]+')
NAME = re.compile(r"[A-Za-z_][A-Za-z0-9_'-]*$")
USE = re.compile(r"\buse ([^\s;{]+?)\.?(?:\{([^;}]*)\})?(?: as ([^\s;]+))?;?[ \t]*$", re.M)
# names that would fall together with another of the same file, and what they are called instead
APART = {}
for line in open(os.path.join(os.path.dirname(os.path.abspath(__file__)), "respell.tsv"), encoding="utf-8"):
    if line.strip() and not line.startswith("#"):
        old, new = line.rstrip("\n").split("\t")[:2]
        APART[old] = new


def snake(name):
    if name in APART:
        return APART[name]
    if name[:1].isupper():
        return re.sub(r"-(.)", lambda m: m[1].upper(), name)
    return re.sub(r"(?<=[a-z0-9])[A-Z]", lambda m: "_" + m[0].lower(), name).replace("-", "_")


def code_of(text):
    """The text without comments."""
    return re.sub(r"(?<!\S)--[^\n]*", "", text)


def crates():
    return sorted(os.path.basename(c) for c in glob.glob("crates/*") if os.path.isdir(os.path.join(c, "src")))


def files():
    own, walks, code, edits = [], [], [], []
    for c in crates():
        for p in sorted(glob.glob(f"crates/{c}/specs/**/*.antt", recursive=True)):
            own.append(p)
        for p in sorted(glob.glob(f"crates/{c}/proofs/**/*.antt", recursive=True)):
            (walks if os.path.basename(p) in ("Proof.antt", "Answers.antt", "Invariants.antt") else own).append(p)
        code += sorted(glob.glob(f"crates/{c}/src/**/*.rt", recursive=True))
        edits += sorted(glob.glob(f"crates/{c}/must-fail/*.edit"))
    return own, walks, code, edits


def of_libraries(texts, names):
    """Names that some file imports from a library."""
    found = set()
    for text in texts:
        for path, items, alias in USE.findall(text):
            steps = path.split(".")
            if steps[0] == "Rattle" and len(steps) > 1 and steps[1] in names:
                continue
            for item in (items or steps[-1]).split(","):
                words = item.strip().split(" as ")
                found.add(words[0].strip())
    return found


def main(argv):
    own, walks, code, edits = files()
    texts = {p: open(p, encoding="utf-8").read() for p in own + walks + code + edits}
    theirs = of_libraries([texts[p] for p in own + walks + code], set(crates()))
    declared = set()
    for p in own:
        text = code_of(texts[p])
        for line in text.split("\n"):
            for m in re.finditer(r"(?:^|[({;]|\blet\b|\bin\b|\brecord\b|\bwhere\b|\bpub\b|\babbrev\b|\bdata\b|\bmod\b|\bmodule\b) *((?:[A-Za-z_][A-Za-z0-9_'-]* +)*[A-Za-z_][A-Za-z0-9_'-]*)(?: \{[^{}\n]*\}| \([^()\n]*\))* +(?::|where|=)", line):
                declared.update(m[1].split())
            for m in re.finditer(r" as ([A-Za-z_][A-Za-z0-9_'-]*)", line):
                declared.add(m[1])
            for m in re.finditer(r"(\S*◌\S*) +:", line):
                declared.update(m[1].split("◌"))
            m = re.match(r"\s*(?:pub )?mod (\S+)", line)
            if m:
                declared.add(m[1])
    for p in code:
        for m in re.finditer(r" as ([A-Za-z_][A-Za-z0-9_'-]*)", texts[p]):
            declared.add(m[1])
    seen = collections.Counter()
    for p in own:
        seen.update(w for w in WORD.findall(code_of(texts[p])) if NAME.match(w))
    table = {w: snake(w) for w in seen if w in declared and w not in theirs and snake(w) != w}
    table = {w: new for w, new in table.items() if not w.startswith("Need-")}
    if not any(re.search("-|[A-Z]", w) for w in table):
        table = {}  # a second run: what is spelled right already stays
    if "--map" in argv:
        for w in sorted(table):
            print(w, table[w], sep="\t")
        return 0
    odd = sorted(w for w in seen if snake(w) != w and w not in table)
    clashes = collections.defaultdict(set)
    for p in own + code:
        words = set(w for w in WORD.findall(code_of(texts[p])) if NAME.match(w))
        by = collections.defaultdict(set)
        for w in words:
            by[table.get(w, w)].add(w)
        for new, olds in by.items():
            if len(olds) > 1:
                clashes[new, tuple(sorted(olds))].add(p)
    if "--apart" in argv:
        apart = sorted({old for (new, olds), where in clashes.items() for old in olds if "-" in old and any("/specs/" in p or p in own for p in where)})
        for old in apart:
            print(old, old.replace("-", "_") + "_law", sep="\t")
        return 0
    if "--look" in argv:
        print("kept:", " ".join(odd))
        for (new, olds), where in sorted(clashes.items()):
            print(new, "<-", " ".join(olds), ":", " ".join(sorted(where))[:300])
        return 0
    changed = 0
    for p in own + walks + code + edits:
        text = texts[p]
        walk = p in walks
        local = set()
        if walk:
            local = set(re.findall(r"(?m)^(?:pub )?([A-Za-z_][A-Za-z0-9_'-]*)(?: [^:\n]*)? :", text))

        def turn(m):
            w = m[0]
            if w not in table or (not p.endswith(".antt") and not re.search("-|[A-Z]", w)):
                return w
            if walk and (w in local or text[: m.start()].endswith("tie.")):
                return w
            return table[w]

        new = WORD.sub(turn, text)
        if new != text:
            changed += 1
            open(p, "w", encoding="utf-8").write(new)
    for p in own:
        folder, name = os.path.split(p)
        stem = name[:-5]
        if stem in table:
            os.rename(p, os.path.join(folder, table[stem] + ".antt"))
    print(f"respell: {len(table)} names, {changed} files")
    return 0


if __name__ == "__main__":
    sys.exit(main(sys.argv[1:]))

#!/usr/bin/env python3
"""Why each must-fail edit is refused: what the prover's first error can tell, and what tests/must-fail.txt says.

An error can tell that the checker found values at which a fact is false, or computed the two sides of a statement and found them different: then the changed fact is false. Every other refusal
says only that the proof that stands no longer goes through, which a right program in other words would meet too. So each edit has a line in tests/must-fail.txt, which
says what wrong program it makes and which fact then fails: a case with its words, or a line of argument. There must be a line for each edit and an edit for each line, and
the names that a line cites in backticks must stand in the crates.

Edits stand in crates/CRATE/must-fail, which the gate tries, and in tests/wrong/CRATE, which tests/wrong.py tries by hand. Of the latter it is seen here that the text to change
stands in the crate, and that docs/wrong-programs.md has their number.

An edit is at fault if `rt` does not say that it was refused; if its first error is that it can't be read, that a name is missing, that the prover met a limit, or that a proof repeats a definition's text; if
it changes the proof of a function; or if another edit of its crate makes the same change. The class of each edit is printed beside it. `rt` prints the first error cut off: where too little of it is left
to see that a side was computed, the class is a weaker one.

  reasons.py [LOG]             LOG is what `rt ci` printed (default: target/rt-ci.log, where test.sh leaves it)
  reasons.py --partial LOG     an edit that the log does not name is named and not counted (after `rt must-fail CRATE >LOG`)
"""
import re
import sys
from collections import Counter
from pathlib import Path

root = Path(__file__).resolve().parent.parent
TABLE = root / "tests" / "must-fail.txt"
TRIED = root / "docs" / "wrong-programs.md"

VALUE = r"(?:\d+|(?:[\w.]+\.)?(?:true|false))"
TABLES = r"(?:specs|proofs)/(?:Cases|Effects|PlanCases|LookCases|JudgeCases|WordCases|Examples|Exclusions)\.antt"
# the first pattern that the first error matches gives its class
UNFIT = "unfit"
CLASSES = [
    (
        UNFIT,
        r"can be named from here|is not in scope|cannot be parsed|cannot be read|Parse|expected `[^`]*` to close|operand is missing|no occurrence of|has no field|has no `|is no name|expected the end|cannot continue"
        r"|`decide_fits`|only because a proof file names|only by a limit",
    ),
    ("values", r"the facts known there allow values at which"),
    # closed cases, proved by computation alone
    ("computed", TABLES),
    ("computed", r"the two types are `Path \S+ %s %s` \(expected\)" % (VALUE, VALUE)),
    ("computed", r"expected type `(.*) ≡ [^`]*`, but this has type `\1 ≡ (?:\1`|[^`]+$)"),
    ("computed", r"as printed, the two types differ only where one has `%s` \(expected\), right after `[^`]*≡`" % VALUE),
    ("differs", r"the two (?:types|values|sides) (?:first )?(?:differ|are)|≟ .*does not hold"),
    ("condition", r"projects from .*, but this has type `[^`]*→"),
    ("steps", r"expected type|does not hold|give a proof of that|not admitted"),
    ("search", r"`search`|`cc`|`omega`|`simp`|`rw`|`grind`|list the missing equation|was found"),
    ("need", r"it is not proved that|no proof of|no proof:"),
]
MEANING = {
    "values": "the checker found values at which a goal of the contract is false",
    "computed": "the checker computed both sides, and they are different values",
    "differs": "two sides that must be equal differ, computed as far as they go or as printed",
    "condition": "a statement with a condition more is used where the condition is not shown",
    "steps": "a step of the proof does not prove what is now stated",
    "search": "no proof of what is now stated was found",
    "need": "what the contract needs is not proved",
}
# lines of a check that say only that a proof names what is gone
NAMES = re.compile(r"(?:note: )?(?:\./)?proofs/.*(?:has no field|is not in scope|has no `|was not admitted)")


def first_error(log):
    """The first error of a check's output, as `rt` has it: its line, and the same with the lines that continue it. One that only says that a proof names what is gone comes last."""
    lines, found = log.split("\n"), []
    for n, line in enumerate(lines):
        if re.match(r"(?:\./)?\S+:\d+:\d+: error: |error\b|note: (?:\./)?\S+:\d+:\d+: it is not proved that|fn \S+: no proof", line):
            rest = []
            for more in lines[n + 1 :]:
                if not more.startswith("  "):
                    break
                rest.append(more.strip())
            found.append((line, " ".join([line] + rest)))
    return next((one for one in found if not NAMES.match(one[0])), found[0] if found else ("", ""))


def classify(log):
    line, error = first_error(log)
    return classified(line, error) if error else (UNFIT, "no error in its log")


def classified(line, error):
    for name, pattern in CLASSES:
        if re.search(pattern, line if name == UNFIT else error):
            return name, error
    return None, error


def refusals(log):
    """What a log of `rt ci` or `rt must-fail` says of each edit: its class, or what is wrong, and the error; by CRATE/LABEL."""
    out = {}
    for name, said in re.findall(r"^rt: must-fail (\w+/[\w.-]+)\.edit: (.*)$", log, flags=re.M):
        found = re.fullmatch(r"refused, as it must be( \([^()]*(?:\([^()]*\)[^()]*)*\))?(?:: (.*))?", said)
        if not found:
            out[name] = UNFIT, said
        elif found.group(1):
            out[name] = UNFIT, found.group(1).strip() + ": " + (found.group(2) or "")
        elif not found.group(2):
            out[name] = UNFIT, "no error in its line"
        else:
            out[name] = classified(found.group(2), found.group(2))
    return out


def gate_edits():
    """The edits that `rt ci` tries, by CRATE/LABEL."""
    return {f"{p.parent.parent.name}/{p.stem}": p for p in sorted(root.glob("crates/*/must-fail/*.edit"))}


def hand_edits():
    """The edits that tests/wrong.py tries, by CRATE/LABEL."""
    return {f"{p.parent.name}/{p.stem}": p for p in sorted(root.glob("tests/wrong/*/*.edit"))}


def change(edit):
    """The files and the replacements of an edit."""
    out, file, old = [], "", ""
    for line in edit.read_text().split("\n"):
        if line.startswith("file: "):
            file = line[6:]
        elif line.startswith("old: "):
            old = line[5:]
        elif line.startswith("new:"):
            out.append((file, old, line[4:].removeprefix(" ")))
    return out


def applied(folder, parts):
    """The texts of a crate's files after an edit, by path; or what keeps it from being made, as `rt` has it: each old text stands once."""
    texts = {}
    for file, old, new in parts:
        path = folder / file
        if path not in texts and not path.is_file():
            return f"there is no {file}"
        text = texts.get(path) or path.read_text()
        if not old or text.count(old) != 1:
            return f"its old text stands {text.count(old) if old else 0} times in {file}: {old[:80]}"
        texts[path] = text.replace(old, new)
    return texts or "it changes nothing"


def tried():
    """What docs/wrong-programs.md says: for each crate the edits by hand and how many of them were refused."""
    text = TRIED.read_text() if TRIED.exists() else ""
    return {crate: (int(n), int(refused)) for crate, n, refused in re.findall(r"^\| (\w+) \| \d+ \| (\d+) \| (\d+) \|", text, flags=re.M)}


def table():
    """The lines of the table, and what is wrong with them."""
    lines, faults, known = {}, [], set()
    for path in [*root.glob("crates/*/specs/**/*.antt"), *root.glob("crates/*/proofs/*.antt"), *root.glob("crates/*/src/**/*.rt")]:
        known |= set(re.findall(r"[\w-]+", path.read_text()))
    for number, line in enumerate(TABLE.read_text().split("\n"), 1):
        if not line.strip() or line.startswith("#"):
            continue
        found = re.fullmatch(r"(\w+/\w+): ([^;]{10,}); (.{20,})", line)
        if not found:
            faults.append(f"tests/must-fail.txt:{number}: not 'CRATE/LABEL: the wrong program; the fact that fails': {line[:80]}")
        elif found.group(1) in lines:
            faults.append(f"tests/must-fail.txt:{number}: {found.group(1)} has two lines")
        else:
            lines[found.group(1)] = found.group(3)
            faults += [f"tests/must-fail.txt:{number}: `{name}` does not stand in the crates" for name in re.findall(r"`([\w-]+)`", line) if name not in known]
    for fact, n in Counter(lines.values()).items():
        if n > 1:
            faults.append(f"tests/must-fail.txt: {n} lines give the same fact: {fact[:100]}")
    return lines, faults


SELF = [  # a first error, and its class
    ("./proofs/Laws.antt:1:1: error: `p1`: expected type `encode 0 0 1 ≡ 5`, but this has type `encode 0 0 1 ≡ encode 0 0 1`", "computed"),
    ("./proofs/Laws.antt:1:1: error: `p1`: expected type `encode 0 0 1 ≡ 5`, but this has type `encode 0 0 1 ≡ enc", "computed"),
    ("./proofs/Laws.antt:1:1: error: `p1`: expected type `encode 0 0 1 ≡ 5`, but this has type `encode 0 0 1", "steps"),
    ("./proofs/x.antt:1:1: error: `papers_hold`: computed as far as they go, the two types are `Path Bool false true` (expected) and `Path Bool false false`", "computed"),
    ("./proofs/Cases.antt:1:1: error: `corners_hold`: `agree c`\n  ≟ `true`: does not hold", "computed"),
    ("./proofs/Cases.antt:1:1: error: `corners_hold`: `agree` is not in scope", UNFIT),
    ("note: src/lib.rt:14:1: it is not proved that what the function ensures holds when it returns (`returns-then-at-s`); the facts known there allow values at which", "values"),
    ("note: src/lib.rt:14:1: it is not proved that what the function ensures holds when it returns (`returns`)", "need"),
    ("./proofs/f/Answers.antt:1:1: error: `returns-2`: computed as far as they go, the two types differ only where one has `0` (expected) and the other has `1` (found)", "differs"),
    ("./proofs/f/Answers.antt:1:1: error: `returns`: `a`\n  ≟ `b`: does not hold", "differs"),
    ("./specs/x.antt:1:1: error: `f`: computed as far as they go, the two types differ only where one has `lowered t i` (expected) and the other has `i` (found)", "differs"),
    ("./specs/x.antt:1:1: error: `page_in`: expected type `0 < z.page_slots`, but this has type `0 ≤ z.page_slots`", "steps"),
    ("./specs/x.antt:1:1: error: `returns`: `search`: no proof of `P` was found", "search"),
    ("./specs/x.antt:1:1: error: `f`: `g` is not in scope", UNFIT),
    ("./proofs/f/Answers.antt:1:1: error: `f`: `g` is not in scope\nnote: src/lib.rt:14:1: it is not proved that the sum fits (`add`)", "need"),
    ("./specs/x.antt:1:1: error: the file cannot be parsed: `g`", UNFIT),
    ("./proofs/x.antt:1:1: error: `decide_fits`: expected type `a ≡ b`, but this has type `a ≡ a`", UNFIT),
    ("fn f: proved\nlogic=proved", UNFIT),
    ("./specs/x.antt:1:1: error: `f`: words that no class knows", None),
]
SAID = [  # what `rt` says of an edit, and its class
    ("refused, as it must be: note: src/lib.rt:7:1: it is not proved that what the function ensures holds when it returns (`returns`); the facts known there allow values at which t", "values"),
    ("refused, as it must be: ./proofs/f/Answers.antt:6:13: error: `returns`: list the missing equation with its arguments, or rewrite by `rw` or `simp`", "search"),
    ("refused, as it must be", UNFIT),
    ("refused, as it must be (only because a proof file names what the edit took away, so this says little of the contract: change a value and keep the names): ./proofs/f/Answers.antt:1:1: error: `returns`", UNFIT),
    ("refused, as it must be (only by a limit of the prover, which gave no verdict, so this says less of the contract: choose a change that it refuses sooner): antt ran out of steps", UNFIT),
    ("BAD EDIT: an 'old:' text is in src/lib.rt 0 times, and not once", UNFIT),
    ("NOT REFUSED: the crate is still proved with this edit", UNFIT),
    ("NOT TRIED: its check was killed", UNFIT),
    ("refused, as it must be: ./specs/x.antt:1:1: error: `f`: words that no class knows", None),
]


def main():
    words = sys.argv[1:]
    partial = words[:1] == ["--partial"]
    words = words[partial:]
    log = Path(words[0]) if words else root / "target" / "rt-ci.log"
    if len(words) > 1 or partial and not words or any(word.startswith("-") for word in words):
        sys.exit("usage: reasons.py [LOG], or reasons.py --partial LOG")
    if not log.is_file():
        sys.exit(f"reasons.py: {log} is not there: it is what `rt ci` prints")
    lines, faults = table()
    for text, wanted in SELF:
        if classify(text)[0] != wanted:
            faults.append(f"the classes are wrong: {classify(text)[0]} for: {text[:120]}")
    for text, wanted in SAID:
        found = refusals(f"rt: must-fail crate/some_edit.edit: {text}\n").get("crate/some_edit")
        if found is None or found[0] != wanted:
            faults.append(f"the classes are wrong: {found} for: {text[:120]}")
    gate, by_hand = gate_edits(), hand_edits()
    faults += [f"{name}: it stands in must-fail and in tests/wrong" for name in gate if name in by_hand]
    edits = {**by_hand, **gate}
    faults += [f"{name}: it has no line in tests/must-fail.txt" for name in edits if name not in lines]
    faults += [f"{name}: a line of tests/must-fail.txt, and no edit" for name in lines if name not in edits]
    counts, changes, unseen, told = Counter(), {}, 0, refusals(log.read_text(errors="replace"))
    for name, path in edits.items():
        crate, label = name.split("/")
        parts = change(path)
        if not parts or any(not re.match(r"(?:src/|specs/|proofs/\w+\.antt$)", file) for file, _, _ in parts):
            faults.append(f"{name}: it changes something else than src/, specs/ and the lemma files of proofs/, or nothing")
        same = changes.setdefault((crate, tuple(parts)), name)
        if same != name:
            faults.append(f"{name}: the same change as {same}")
        made = applied(root / "crates" / crate, parts)
        if isinstance(made, str):
            faults.append(f"{name}: {made}")
        if name not in gate:
            continue
        if name not in told:
            unseen += 1
            if not partial:
                faults.append(f"{name}: the log does not name it")
            continue
        kind, error = told[name]
        if kind is None:
            faults.append(f"{name}: no class fits: {error[:300]}")
        elif kind == UNFIT:
            faults.append(f"{name}: not refused, or for another reason: {error[:300]}")
        else:
            counts[kind] += 1
            print(f"{name}: {kind}, at {re.sub(r'^note: ', '', error).split(': ')[0].removeprefix('./')}")
    for crate, n in Counter(name.split("/")[0] for name in by_hand).items():
        if tried().get(crate) != (n, n):
            faults.append(f"tests/wrong/{crate} has {n} edits, and docs/wrong-programs.md does not say that so many were refused: run tests/wrong.py {crate}")
    for kind, meaning in MEANING.items():
        if counts[kind]:
            print(f"{counts[kind]} {kind}: {meaning}")
    if unseen:
        print(f"{unseen} edits are not named in the log")
    for fault in faults:
        print(fault)
    print(f"{len(gate)} edits in the gate, {len(by_hand)} by hand, {len(lines)} lines of tests/must-fail.txt, {len(faults)} at fault")
    sys.exit(1 if faults or not gate or not sum(counts.values()) else 0)


if __name__ == "__main__":
    main()

#!/usr/bin/env python3
"""Wrong versions of the crates, tried by hand: each edit of tests/wrong/CRATE is made in a copy of the crates, and the prover must refuse it.

They are must-fail edits that would cost the gate too much time (docs/budget.md): there each would cost a check of its whole crate. Here a crate is checked once as it stands, which must pass, and
then with each edit over what that check has kept, so that only what the edit touches is checked again. A refusal counts if its first error has a class (tests/reasons.py). The crates below
must be proved before (`rt all check`). The logs go to target/wrong/CRATE/LABEL.log. The rows of the crates whose edits were all tried are written to docs/wrong-programs.md; the gate
compares its numbers with tests/wrong.

  wrong.py                 every crate
  wrong.py NAME..          some crates (transfer) or edits (transfer/code_twice_not_seen)
  wrong.py --gate NAME..   the same with the edits that the gate tries, from crates/CRATE/must-fail

RT_JOBS crates are tried at a time (default 2). Its last line is 'N passed, M failed'.
"""
import os
import re
import subprocess
import sys
import tempfile
import time
from collections import Counter
from concurrent.futures import ThreadPoolExecutor
from pathlib import Path

from reasons import MEANING, TRIED, UNFIT, applied, change, classify, gate_edits, hand_edits
from scratch import below, copied, dependencies, root

HEAD = """# Wrong programs

How many wrong versions of each crate the prover was given, and how many it refused. A line of tests/must-fail.txt says of each what the wrong program is and which fact then fails. Those in the
gate stand in crates/CRATE/must-fail and are tried by every `./test.sh`; those by hand stand in tests/wrong/CRATE and are tried by `tests/wrong.py`, which writes this table and fails where
one is not refused. "Refused" and "how" are of those by hand (tests/reasons.py has the classes); "seconds" is what the row took, the check of the unchanged crate included.

| crate | in the gate | by hand | refused | how | seconds |
|---|---|---|---|---|---|
"""


def attempt(crate, edits):
    """Tries edits of one crate: (name, class or None, what is to be said) of each, and the seconds."""
    began, out = time.time(), []
    logs = root / "target" / "wrong" / crate
    logs.mkdir(parents=True, exist_ok=True)
    with tempfile.TemporaryDirectory() as folder:
        scratch = copied(Path(folder), crate)
        at = scratch / "crates" / crate

        def checked(label):
            done = subprocess.run(["rt", "check"], cwd=at, capture_output=True, text=True)
            (logs / f"{label}.log").write_text(done.stdout + done.stderr)
            return done.returncode, done.stdout + done.stderr

        if checked("unchanged")[0] != 0:
            return [(name, None, f"{crate} is not proved as it stands (target/wrong/{crate}/unchanged.log)") for name in edits], time.time() - began
        for name, path in edits.items():
            made = applied(at, change(path))
            if isinstance(made, str):
                out.append((name, None, made))
                continue
            before = {file: file.read_text() for file in made}
            for file, text in made.items():
                file.write_text(text)
            status, log = checked(path.stem)
            for file, text in before.items():
                file.write_text(text)
            kind, error = classify(log)
            if status == 0:
                out.append((name, None, "NOT REFUSED: the crate is still proved with this edit"))
            elif status != 1 or "logic=not-proved" not in log:
                out.append((name, None, f"it did not reach the prover (status {status}): {log[-300:]}"))
            elif kind in (None, UNFIT):
                out.append((name, None, f"refused for another reason, or one that no class fits: {error[:300]}"))
            else:
                out.append((name, kind, f"refused, {kind}"))
    return out, time.time() - began


def rows(results):
    """Writes the rows of the crates that were tried whole; the others stay as they stand."""
    old = dict(re.findall(r"^\| (\w+) (\|.*)$", TRIED.read_text(), flags=re.M)) if TRIED.exists() else {}
    gate, by_hand = (Counter(name.split("/")[0] for name in edits()) for edits in (gate_edits, hand_edits))
    lines, sums, kinds = [], Counter(), Counter()
    for crate in dependencies():
        if crate in results:
            tried, seconds = results[crate]
            found = Counter(kind for _, kind, _ in tried if kind)
            told = [sum(found.values()), ", ".join(f"{found[kind]} {kind}" for kind in MEANING if found[kind]) or "-", round(seconds)]
        elif by_hand[crate]:
            told = [cell.strip() for cell in old[crate].strip("|").split("|")][2:] if crate in old else [0, "not tried", 0]
        elif gate[crate]:
            told = [0, "-", 0]
        else:
            continue
        lines.append(f"| {crate} | {gate[crate]} | {by_hand[crate]} | {told[0]} | {told[1]} | {told[2]} |")
        sums += Counter(gate=gate[crate], hand=by_hand[crate], refused=int(told[0]), seconds=int(told[2]))
        kinds += Counter({kind: int(n) for n, kind in re.findall(r"(\d+) (\w+)", str(told[1]))})
    how = ", ".join(f"{kinds[kind]} {kind}" for kind in MEANING if kinds[kind]) or "-"
    lines.append(f"| **all** | {sums['gate']} | {sums['hand']} | {sums['refused']} | {how} | {sums['seconds']} |")
    TRIED.write_text(HEAD + "\n".join(lines) + "\n")


def main():
    words = sys.argv[1:]
    edits = hand_edits()
    if words[:1] == ["--gate"]:
        words.pop(0)
        edits.update(gate_edits())
    if any(word.startswith("-") for word in words):
        sys.exit(__doc__.strip())
    for word in words:
        if not any(name == word or name.split("/")[0] == word for name in edits):
            sys.exit(f"no edit is called '{word}', and no crate of that name has one")
    chosen = {}
    for name, path in edits.items():
        crate = name.split("/")[0]
        if not words or name in words or crate in words:
            chosen.setdefault(crate, {})[name] = path
    unproved = {name for crate in chosen for name in below(crate) - {crate} if not (root / "crates" / name / "out" / "rlib" / "stamp").is_file()}
    if unproved:
        sys.exit(f"these crates are not proved, run `rt all check` before: {' '.join(sorted(unproved))}")
    passed = failed = 0
    results = {}
    with ThreadPoolExecutor(int(os.environ.get("RT_JOBS", "2"))) as pool:
        for crate, (tried, seconds) in zip(chosen, pool.map(lambda crate: attempt(crate, chosen[crate]), chosen)):
            for name, kind, text in tried:
                print(f"{'ok' if kind else 'FAILED'}: {name}: {text}", flush=True)
            passed += sum(1 for _, kind, _ in tried if kind)
            failed += sum(1 for _, kind, _ in tried if not kind)
            if set(chosen[crate]) == {name for name in hand_edits() if name.split("/")[0] == crate}:
                results[crate] = (tried, seconds)
    rows(results)
    print(f"{passed} passed, {failed} failed")
    sys.exit(1 if failed else 0)


main()

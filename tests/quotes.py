#!/usr/bin/env python3
"""What docs/reading.md quotes and what docs/working.md lists is there.

Of docs/reading.md: each block that names a file has lines that stand there, one below the other; each sentence of document 01 that it quotes stands in docs/TRACE.md; and each sign of
SIGNS is named in the text not later than in the paragraph after the block where it first stands.

Of docs/working.md: in its tables of places each name stands in the file, or below the folder, of its row; and every file that the command above the table finds is a place, or
stands beside one and is named in the section (left out: docs/landings, which tells what was, and the edits of must-fail and tests/wrong, which tests/reasons.py holds to their sources)."""
import re
import shlex
import subprocess
import sys
from pathlib import Path

root = Path(__file__).resolve().parent.parent
PAGE = root / "docs" / "reading.md"
MADE = {"__pycache__", "out"}  # folders of what is made, never committed
SIGNS = ["--", "ℕ", "→", "∷", "[]", "≡", "refl", "omega", "++", "ap", "◌", "{ }", "∙", "ensures", "result", ".now", ".old", ".new", "λ", "Bool", "eqb", "ltb", "pick", "data", "record", "Type 0", "unless", "bit", "map", ".0", ".1", "pub", "abbrev", "unfoldable"]


def held(lines, text):
    """Whether these lines stand in the text one below the other, but for a common indent."""
    there = text.split("\n")
    for start in range(len(there) - len(lines) + 1):
        indent = len(there[start]) - len(there[start].lstrip()) - (len(lines[0]) - len(lines[0].lstrip()))
        if indent >= 0 and all(there[start + n] == (" " * indent + line if line else "") for n, line in enumerate(lines)):
            return True
    return False


def places():
    """What is wrong with the tables of docs/working.md, and how many rows they have."""
    faults, rows = [], 0
    for section in re.split(r"^## ", (root / "docs" / "working.md").read_text(), flags=re.M):
        command = re.search(r"^    (grep -rlE .*)$", section, flags=re.M)
        if not command:
            continue
        listed = []
        for first, names in re.findall(r"^\| ((?:crates|c|oracle|viewer|tests|docs|examples|recorded)\b[^|`]*) \| ([^|]*) \|", section, flags=re.M):
            rows += 1
            for place in first.split(", "):
                listed.append(place)
                at = root / place
                if not at.exists():
                    faults.append(f"docs/working.md: {place} is not there")
                texts = [path.read_text() for path in ([at] if at.is_file() else at.rglob("*")) if path.is_file() and not MADE & set(path.parts)]
                faults += [f"docs/working.md: `{name}` does not stand in {place}" for name in re.findall(r"`([^`]+)`", names) if not any(re.search(rf"(?<![\w-]){re.escape(name)}(?![\w-])", text) for text in texts)]
        found = subprocess.run(shlex.split(command.group(1)) + [f"--exclude-dir={name}" for name in sorted(MADE)], cwd=root, capture_output=True, text=True).stdout.split()
        if not found:
            faults.append(f"docs/working.md: {command.group(1)} finds nothing")
        for file in found:
            if not file.startswith(("docs/landings/", "docs/working.md", "tests/wrong/")) and "/must-fail/" not in file and not any(Path(file).is_relative_to(place) or Path(file).parent == Path(place).parent and Path(file).name in section for place in listed):
                faults.append(f"docs/working.md, \"{section.split(chr(10))[0]}\": no row has {file}")
    return faults, rows


def main():
    text, faults = PAGE.read_text(), []
    blocks = list(re.finditer(r"^```(\S+)\n(.*?)\n```$", text, flags=re.M | re.S))
    if len(blocks) * 2 != len(re.findall(r"^```", text, flags=re.M)):
        faults.append("a block of docs/reading.md names no file")
    for block in blocks:
        path = root / block.group(1)
        if not path.is_file() or not held(block.group(2).split("\n"), path.read_text()):
            faults.append(f"what docs/reading.md quotes does not stand in {block.group(1)}: {block.group(2).split(chr(10))[0]}")
    traced = (root / "docs" / "TRACE.md").read_text()
    sentences = re.findall(r"^> (.*)$", text, flags=re.M)
    faults += [f"docs/TRACE.md does not have the sentence: {s}" for s in sentences if s not in traced]
    # a sign is explained in the paragraph after the block where it first stands, or before
    for sign in SIGNS:
        shown = re.compile(rf"(?<![\w-]){re.escape(sign)}(?![\w-])" if sign.isalnum() else re.escape(sign))
        first = next((b for b in blocks if shown.search(b.group(2).replace("{start end", "{ }"))), None)
        if first is None:
            faults.append(f"no block has the sign {sign}")
            continue
        after = text.find("\n\n", first.end() + 2)
        told = re.findall(r"`([^`\n]+)`", re.sub(r"^```.*?^```$", "", text[:after], flags=re.M | re.S))
        if not any(shown.search(t) for t in told):
            faults.append(f"the sign {sign} first stands in the block on {first.group(1)} and is not explained by then")
    wrong, rows = places()
    for fault in faults + wrong:
        print(fault)
    print(f"docs/reading.md: {len(blocks)} blocks, {len(sentences)} sentences and {len(SIGNS)} signs looked up; docs/working.md: {rows} rows")
    return 1 if faults or wrong or not blocks or not sentences or not rows else 0


sys.exit(main())

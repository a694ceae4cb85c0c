#!/usr/bin/env python3
"""Every definition, theorem, file and must-fail edit that docs/TRACE.md, docs/DECISIONS.md and docs/argument.md cite in backticks must be there."""
import re
import sys
from pathlib import Path

root = Path(__file__).resolve().parent.parent
known, modules = set(), set()
for path in [*root.glob("crates/*/specs/**/*.antt"), *root.glob("crates/*/proofs/*.antt")]:
    modules.add(path.stem)
    text = path.read_text()
    known |= set(re.findall(r"^\s*(?:(?:abbrev|unfoldable|pub) )*(?:record |data )?([^\s:({]+)(?: \{[^}]*\})? :", text, flags=re.M))
    known |= set(re.findall(r"^pub (?:record|data) (\S+)", text, flags=re.M))
for path in root.glob("crates/*/src/*.rt"):
    known |= set(re.findall(r"(?:fn|struct|enum|const) (\w+)", path.read_text()))
edits = {p.stem for p in [*root.glob("crates/*/must-fail/*.edit"), *root.glob("tests/wrong/*/*.edit")]}
crates = {p.name for p in root.glob("crates/*")}
# words of document 01 and of the Rust, quoted as they stand there
quoted = set(
    "next_generation prepare_transfer_with_storage prepare_consumption_with_storage fresh_generation decode take_empty_page replace snapshot install get_info remove_active "
    "HandleTransferRequest u64 ensures requires remove_stopping_owner examined scan_handles resolve encode const Vec Option Result lookup Drop kind TableHead active_transfers till meets".split()
)
faults, seen = [], 0
for name in ("TRACE", "DECISIONS", "argument"):
    for token in re.findall(r"`([^`]+)`", (root / "docs" / f"{name}.md").read_text()):
        token = token.strip().lstrip(".")
        if token in quoted or token in known or token in edits or token in modules or token in crates:
            seen += 1
            continue
        if (root / token).exists() or (root / "crates" / token).exists():
            seen += 1
            continue
        if re.fullmatch(r"\w+(\.[\w'-]+)+", token):
            parts = token.split(".")
            if parts[0] in modules | known and all(p in known for p in parts[1:]):
                seen += 1
                continue
        if re.search(r"[ :<>{}()&]", token):
            continue  # a phrase of code, not a name
        faults.append(f"docs/{name}.md cites `{token}`, which is not there")
for fault in faults:
    print(fault)
print(f"{seen} names looked up")
sys.exit(1 if faults or seen < 100 else 0)

#!/usr/bin/env python3
"""The recorded lists on the port: what the program `replay` reads, and what it wrote (crates/replay/src/main.rt has the form of both).

  replay.py --write    writes crates/replay/stdin from recorded/cases.txt, recorded/mixed.txt, recorded/plans.txt, recorded/looks.txt and
                       recorded/judged.txt
  replay.py --run      runs the proved program on it (`rt run`) and writes crates/replay/stdout
  replay.py            crates/replay/stdin is what would be written, and crates/replay/stdout, to which the check of the crates holds the program's output, says
                       what the recorded lists say: each result, each answer, and each end state, whose words are read by `words_to_text`

The end state is shown where the case has its text. A case whose state has no room in the program is left out.
"""
import os
import re
import shutil
import struct
import subprocess
import sys
import tempfile
from pathlib import Path

from recorded import cases, words
from scratch import root

CRATE = root / "crates" / "replay"
FILES = ("cases.txt", "mixed.txt", "plans.txt", "looks.txt", "judged.txt")
ANSWER = 72  # words of an answer; a call of one request is lent one word more
HEADER = 16


def constant(pattern):
    return re.search(pattern, (CRATE / "src" / "main.rt").read_text()).group(1)


STATE = int(constant(r"const STATE_ROOM: usize = (\d+);"))
CALL = int(constant(r"const CALL_ROOM: usize = (\d+);"))
PATTERN = int(constant(r"const PATTERN: u64 = 0x([0-9a-f_]+);").replace("_", ""), 16)


def need(tables, frames, objects, rows, pages):
    """How many words a state has (docs/formats.md)."""
    groups = sum(-(-frames // size) for size in (1, 16, 256, 4096))
    return HEADER + 16 * tables + 5 * pages + groups + 384 * frames + 8 * objects + (2 + 390) * rows


def needed(case):
    """How many words of the program's state the case's start asks for."""
    kind, start = case.start
    if kind == "words":
        return len(start)
    if case.result != 0:
        return 0
    t, f, o, r = start[:4]
    return need(t, f, o, r, sum(start[4 : 4 + 2 * t : 2]))


class Record:
    """A record of the input, and its line of output: ('start', R), ('call', R, ANSWER, KEPT) or ('state', TEXT, WORDS PAST THE STATE'S)."""

    def __init__(self, case, read, line):
        self.case, self.read, self.line = case, read, line


def records(case, name):
    """The records of a case."""
    kind, start = case.start
    out = [Record(name, [1 if kind == "create" else 2, len(start), *start], ("start", case.result))]
    for call in case.calls:
        if call[0] == "=":
            out.append(Record(name, [3, ANSWER + 1, len(call[1]), *call[1]], ("call", 0, stripped(call[2]), 1)))
        else:
            _, lent, result, asked = call
            out.append(Record(name, [3, lent, len(asked), *asked], ("call", result, [], lent)))
    if case.text:
        past = [PATTERN] * (STATE - needed(case)) if kind == "create" else start[need(*start[1:5], start[8]) :]
        out.append(Record(name, [4], ("state", case.text, past)))
    return out


def stripped(answer):
    n = len(answer)
    while n and answer[n - 1] == 0:
        n -= 1
    return answer[:n]


def planned():
    """Every record, and what is left out, in lines to print."""
    out, said = [], []
    for file in FILES:
        taken = 0
        for case in cases(root / "recorded" / file):
            name = f"{file} {case.name}"
            if needed(case) > STATE:
                said.append(f"{name}: left out, its state of {needed(case)} words has no room")
                continue
            more = records(case, name)
            if any(len(r.read) > CALL for r in more if r.line[0] == "call") or any(r.read[1] > CALL for r in more if r.line[0] == "call"):
                sys.exit(f"{name}: a list or its answers have no room")
            out += more
            taken += 1
        if not taken:
            sys.exit(f"recorded/{file} has no case")
        said.append(f"{file}: {taken} cases")
    return out, said


def reader():
    """The program words_to_text, built."""
    if shutil.which("cargo") is None:
        print("the reader of state words can't be built here: there is no cargo")
        sys.exit(3)
    subprocess.run(["cargo", "build", "--release", "--offline", "--quiet", "--bin", "words_to_text"], cwd=root / "oracle", check=True)
    return Path(os.environ.get("CARGO_TARGET_DIR", root / "oracle" / "target")) / "release" / "words_to_text"


def fault(record, line, program, scratch):
    """What is wrong with a line of output; nothing if it says what was recorded."""
    kind, *told = record.line
    if kind == "start":
        return "" if line == f"start {told[0]}" else f"start {told[0]} is recorded"
    if kind == "call":
        found = re.fullmatch(r"(\d+)((?: [0-9a-f]+(?:\*\d+)?)*) kept (\d+)", line)
        if not found:
            return "no line of a call"
        got = (int(found.group(1)), words(found.group(2)), int(found.group(3)))
        return "" if got == tuple(told) else f"{told[0]} {' '.join(f'{w:x}' for w in told[1])} kept {told[2]} is recorded"
    if not re.fullmatch(r"state(?: [0-9a-f]+(?:\*\d+)?)*", line):
        return "no line of a state"
    state = words(line[len("state") :])
    size = need(*state[1:5], state[8]) if len(state) > HEADER else 0
    if state[size:] != told[1]:
        return "the words past the state's are not as they were"
    path = scratch / "state"
    path.write_bytes(struct.pack(f"<{len(state)}Q", *state))
    text = subprocess.run([program, path], capture_output=True, text=True)
    return "" if text.stdout.split("\n")[:-1] == told[0] else f"another text is recorded{': ' + text.stderr.strip() if text.stderr else ''}"


def main():
    plan, said = planned()
    stdin = b"".join(struct.pack(f"<{len(r.read)}Q", *r.read) for r in plan)
    for line in said:
        print(line)
    if sys.argv[1:] == ["--write"]:
        (CRATE / "stdin").write_bytes(stdin)
        print(f"{len(plan)} records written")
        return
    if sys.argv[1:] == ["--run"]:
        with open(CRATE / "stdin", "rb") as read:
            (CRATE / "stdout").write_bytes(subprocess.run(["rt", "run"], cwd=CRATE, stdin=read, stdout=subprocess.PIPE, check=True).stdout)
        return
    if sys.argv[1:]:
        sys.exit("usage: replay.py [--write | --run]")
    if (CRATE / "stdin").read_bytes() != stdin:
        sys.exit("crates/replay/stdin is not what `replay.py --write` writes")
    if not (CRATE / "stdout").exists():
        sys.exit("crates/replay/stdout is not there: `replay.py --run` writes it")
    lines = (CRATE / "stdout").read_text().split("\n")
    if lines.pop() != "" or len(lines) != len(plan):
        sys.exit(f"crates/replay/stdout has {len(lines)} lines, and {len(plan)} records were read")
    program, faults = reader(), []
    with tempfile.TemporaryDirectory() as scratch:
        for number, (record, line) in enumerate(zip(plan, lines), 1):
            wrong = fault(record, line, program, Path(scratch))
            if wrong:
                faults.append(f"differs: {record.case}, line {number} of stdout: {line[:120]}: {wrong[:300]}")
    for line in faults[:20]:
        print(line)
    answers = sum(r.line[0] == "call" for r in plan)
    states = sum(r.line[0] == "state" for r in plan)
    print(f"{answers} answers and {states} end states compared, {len(faults)} lines differ")
    sys.exit(1 if faults or not answers or not states else 0)


main()

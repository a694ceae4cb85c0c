#!/usr/bin/env python3
"""Runs a list of requests, written in words, on a fresh state and prints what was asked and what was answered.

  ./run.py [--oracle] [FILE]            what was answered; default: examples/old-value.txt
  ./run.py [--oracle] --state [FILE]    and the whole state after each request, changed lines marked; default: examples/state.txt
  ./run.py [--oracle] --held [FILE]     two runs side by side, one in which a transfer is held and one in which it is not; default: examples/held-rollback.txt

The list is turned into the words of docs/formats.md and run by the proved code, through its C calls; the first time, that code is proved and compiled, which
takes some minutes. With --oracle it is run by the oracle instead: on the Rust where its sources stand beside the repository, else on the plain reading of
document 01. A line of FILE is a table (`table name=till pages=4 seed=0`), an object (`object name=scale koid=70 kind=3 class=0 rights=15 exportable=1 limit=100`), the
pool (`frames 8`, `rows 8`) or a request (`reserve table=till count=1`); names are optional, tables and objects count from 0. An item of a publish or a transfer,
prepared or judged, follows its request on a line that starts with `-` (`- parcel id=1`, `- move value=V rights=3`, `- copy value=V rights=1`). A value can be given as `@N`, the first
value of the answer to request N, or `@N.K`, an id as `@N`, the id in the answer to request N. `#` starts a comment.

For --held a line `hold` stands before the prepare_transfer that is held, and the last line is `end rollback` or `end commit`. What comes before `hold` both runs
share; then run H prepares the transfer, runs the list and ends the transfer, and run P runs the list alone (after a commit in H it closes the moved values). Ids
in the file are those of run H. The list may look at moved values with get_info (document 02, 2), and name them in no other request; it may judge transfers where run H has a free row and an id left (document 02, 4). The status is 1 if the runs differ
although no condition of document 01, "Runs H and P", is broken; a list that cannot be read or run gives 2.
"""
import signal
import sys
from pathlib import Path

from viewer import state as states
from viewer.answers import told
from viewer.engines import Oracle, Port
from viewer.held import Held
from viewer.lists import Fault, parse

root = Path(__file__).resolve().parent
EXAMPLES = {"--answers": "old-value.txt", "--state": "state.txt", "--held": "held-rollback.txt"}


def show(this, engine, with_state):
    """Each request with its answer and, if asked for, the state after it: lines that were not there before are marked."""
    answers, lines = [], []

    def shown():
        nonlocal lines
        if with_state:
            now = states.state_told(states.read(engine.state()), this)
            for part, line in now:
                print(f"      {'*' if (part, line) not in lines else ' '} {line}")
            for part in dict.fromkeys(part for part, _ in lines if part not in dict(now)):
                print(f"      * {part} is gone")
            lines = now

    if with_state:
        print("    creation")
    shown()
    for n, request in enumerate(this.requests, 1):
        words = this.records(request, answers)
        first, *items = request.told()
        print(f"{n:3} {first}" + "".join(f"\n      {item}" for item in items))
        result, answer = engine.run(words)
        if result != 0:
            answer = [result] + [0] * 71
        print("      " + told(request.op, answer) + (": the whole call" if result != 0 else ""))
        answers.append((request.op, answer))
        shown()


def stop(message):
    sys.stdout.flush()
    print(message, file=sys.stderr)
    sys.exit(2)


def main():
    options = [word for word in sys.argv[1:] if word.startswith("-")]
    files = [word for word in sys.argv[1:] if not word.startswith("-")]
    modes = [word for word in options if word in ("--state", "--held")]
    if options in (["-h"], ["--help"]):
        print(__doc__.strip())
        return
    usage = "usage: run.py [--oracle] [--state | --held] [FILE]"
    if len(files) > 1 or len(modes) > 1 or any(word not in ("--oracle", "--state", "--held") for word in options):
        stop(usage)
    mode = modes[0] if modes else "--answers"
    path = Path(files[0]) if files else root / "examples" / EXAMPLES[mode]
    if not path.is_file():
        stop(f"{usage}: {path} cannot be read")
    try:
        this = parse(path, mode == "--held")
        engine = (Oracle if "--oracle" in options else Port)(this.create())
        print(f"{path.name}, on {engine.name}")
        if mode == "--held":
            sys.exit(0 if Held(this, engine).all() else 1)
        show(this, engine, mode == "--state")
    except Fault as fault:
        stop(f"run.py: {fault}")


signal.signal(signal.SIGPIPE, signal.SIG_DFL)  # ends quietly where its reader stops reading
main()

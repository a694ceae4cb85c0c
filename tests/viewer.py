#!/usr/bin/env python3
"""Tests what run.py shows. The reader of the state's words (viewer/state.py) is held to the recorded states: each text is turned into words by the oracle, read, and
written as text again. And the comparison of the two runs (viewer/held.py) must find each broken condition, and a difference where an engine is made to give one.
Status 3 where there is no cargo, since the oracle is needed."""
import contextlib
import io
import os
import shutil
import sys
import tempfile
from pathlib import Path

root = Path(__file__).resolve().parent.parent
sys.path[:0] = [str(root), str(root / "tests")]
from recorded import cases  # noqa: E402
from viewer import state as states  # noqa: E402
from viewer.engines import Oracle, uncoded  # noqa: E402
from viewer.held import Held  # noqa: E402
from viewer.lists import Fault, parse  # noqa: E402
from viewer.proofs import Proofs  # noqa: E402

faults = []


def ranged(numbers):
    """Numbers as the recorded texts have them."""
    return ",".join(f"{run[0]}-{run[-1]}" if len(run) > 1 else str(run[0]) for run in states.grouped(numbers)) or "-"


def handle(h):
    return f"{h.object}/{h.rights:x}/{h.flags}"


def grouped(things, same):
    """Neighbours that are the same, as (first, last, thing)."""
    out = []
    for n, thing in enumerate(things):
        if out and same(out[-1][2], thing):
            out[-1][1] = n
        else:
            out.append([n, n, thing])
    return [(f"{first}-{last}" if last > first else str(first), thing) for first, last, thing in out]


def text(state):
    """A state in the recorded form (docs/oracle.md)."""
    yield from ("state", f"next {state.next}", f"rows {len(state.rows)} of {state.capacity}", f"frames {state.frames} free {ranged(state.free_frames)}")
    for n, (koid, kind, kin, rights, exportable, now, count, limit) in enumerate(state.objects):
        yield f"object {n} koid {koid} kind {kind} class {kin} supported {rights:x} exportable {exportable} {states.STATES[now]} count {count} limit {limit}"
    for n, table in enumerate(state.tables):
        life = table.life.replace(" ", "-") + (f" {table.cursor}" if table.cursor is not None else "")
        yield f"table {n} limit {table.limit} mask {table.mask:x} {life} epoch {table.epoch} pages {len(table.pages)} free {table.free_count}"
        yield from (f"free-order {ranged(table.free)}", f"empty-order {ranged(table.empty)}", f"detached-order {ranged(table.detached)}")
        for place, page in grouped(table.pages, lambda a, b: a.frame is None and a == b):
            if page.frame is None:
                yield f"page {place} detached high {page.high}"
                continue
            yield f"page {place} frame {page.frame} high {page.high} busy {page.busy}"
            shown = [f"{slot.tag[0].lower()}{slot.generation}" + (f"/{handle(slot.handle)}" if slot.handle else "") for slot in page.slots]
            yield "slots" + "".join(f" {at}:{slot}" for at, slot in grouped(shown, lambda a, b: a == b))
    for n, row in enumerate(state.rows):
        if row.what == "reservation":
            entries = f"reservation table {row.table} slots {ranged(row.entries)}"
        elif row.what == "claim":
            entries = f"claim table {row.table}" + "".join(f" M{slot}:{handle(h)}>{gets:x}" if operation == "move" else f" C:{handle(h)}" for operation, slot, h, gets in row.entries)
        elif row.what == "parcel":
            entries = "parcel" + "".join(f" {handle(h)}" for h in row.entries)
        else:
            plan = row.plan
            entries = f"plan table {row.table} count {plan.count} epoch {plan.epoch} free {plan.free_slots} pages {ranged(plan.pages)} frames {ranged(plan.frames)}"
        yield f"row {n} id {row.id} {entries}"
    yield "end"


def readings(oracle):
    count = 0
    for path in sorted((root / "recorded").glob("*.txt")):
        for case in cases(path):
            if case.text:
                count += 1
                read = list(text(states.read(uncoded(oracle.told("words", "\n".join(case.text) + "\n")))))
                if read != case.text:
                    faults.append(f"{path.name}, {case.name}: the state is read otherwise")
    print(f"{count} recorded states read from their words")
    if count < 100:
        faults.append("there are too few recorded states")


HEAD = """table name=till pages=1 seed=0
table name=scale pages=1 seed=5
object koid=70 kind=3 class=0 rights=15 exportable=1 limit=10
frames 2
rows 3
new_object object=0 rights=15 flags=0
reserve table=scale count=2
trim id=@2 count=1
publish id=@2
- parcel id=@1
hold
prepare_transfer table=scale route=0
- ITEM value=@2 rights=7
"""
# a list after HEAD's transfer (request 5, id 3), its ending, and what must be said of it
BROKEN = [
    ("resolve table=scale value=@2 rights=1 kind=3", "names a moved value in table 1 scale, which only get_info may"),
    ("duplicate table=scale value=@2 rights=1", "names a moved value"),
    ("replace table=scale value=@2 rights=1", "names a moved value"),
    ("close table=1 value=@2", "names a moved value"),
    ("prepare_transfer table=scale route=0\n- move value=@2 rights=1", "names a moved value"),
    ("prepare_transfer table=scale route=0\n- copy value=@2 rights=1", "names a moved value"),
    ("prepare_consumption table=scale value=@2 rights=1 kind=3 koid=70", "names a moved value"),
    ("get_info table=scale value=@2\nresolve table=scale value=@2 rights=16 kind=4", "names a moved value"),  # refused in P too
    ("release_parcel id=3", "names the transfer's id, 3"),
    ("direct_commit id=9 destination=3", "names the transfer's id, 3"),
    ("reserve table=till count=1\npublish id=@6\n- parcel id=3", "names the transfer's id, 3"),
    ("rollback id=@5", "names the transfer's id, 3"),
    ("scan_handles table=scale cursor=0", "scans table 1 scale"),
    ("teardown_start table=scale", "starts tearing down table 1 scale"),
    ("remove_stopping_owner table=scale cursor=0", "removes for a stopping owner in table 1 scale"),
    ("reserve table=till count=1\nreserve table=till count=1\nreserve table=till count=1", 'refuses it "for want of a row"'),
    ("make_plan table=till count=1\nuse_plan id=3", "names the transfer's id, 3"),
    ("drop_plan id=@5", "names the transfer's id, 3"),
    ("reserve table=till count=1\nmake_plan table=till count=1\nmake_plan table=till count=1", 'refuses it "for want of a row"'),
    ("judge_transfer table=scale route=0\n- copy value=@2.1 rights=1\n- move value=@2 rights=1", "names a moved value"),
    ("reserve table=till count=1\nreserve table=till count=1\njudge_transfer table=scale route=0", "judges a transfer where H has no free row"),  # refused alike in both
]
JUDGED = "judge_transfer table=scale route=0\n- move value=@2.1 rights=1\njudge_transfer table=scale route=0\njudge_transfer table=2 route=0"
KEPT = [
    "get_info table=till value=@2",  # the same number in another table
    "get_info table=scale value=@2",  # a look at the moved value
    "get_info table=1 value=0x4800000001000045",  # the same by numbers
    "get_info table=scale value=@2\nreserve table=scale count=1\nget_info table=scale value=@7\nretire_object object=0\nget_info table=scale value=@2.1\nget_info table=scale value=@2",  # refused ones between
    "scan_handles table=till cursor=0\nteardown_start table=till\nteardown_step table=till",
    "reserve table=scale count=64",  # wants pages, of which the table may have no more
    "reserve table=till count=64\nreserve table=till count=1\nabort id=@6\nreserve table=till count=3\nabort id=4",
    "retire_object object=0\nclose table=scale value=7\ntake_empty_page table=scale",
    "make_plan table=scale count=2\nclose table=scale value=7\nuse_plan id=@6\nabort id=@8",  # a plan in the table that holds
    "make_plan table=till count=2\nreserve table=till count=1\nuse_plan id=@6\ndrop_plan id=@6",  # the last frame: refused for want of a frame, not of a row
    "make_plan table=scale count=63\nreserve table=scale count=1\nuse_plan id=@6\nabort id=@7\nuse_plan id=@6",  # stale, and fresh again
    "make_plan table=till count=1\nteardown_start table=till\nuse_plan id=@6\nteardown_finish table=till\ndrop_plan id=@6",
    JUDGED,  # refused, and an unknown table
    "judge_transfer table=till route=0\n- move value=@2 rights=1\nreserve table=till count=1\njudge_transfer table=till route=0\n- copy value=@2 rights=1",  # the same number in another table, and the last free row
]


class Changed:
    """An engine whose run P answers or ends otherwise: `change` is given each answer and the state's words."""

    def __init__(self, inner, answer=None, words=None):
        self.inner, self.answer, self.words = inner, answer or (lambda a: a), words or (lambda w: w)

    def run(self, words):
        result, answer = self.inner.run(words)
        return result, self.answer(answer)

    def state(self):
        return self.words(self.inner.state())

    def fork(self):
        return self.inner.fork()


class Forks:
    """An engine that forks into a changed one."""

    def __init__(self, inner, **changes):
        self.inner, self.changes = inner, changes

    def __getattr__(self, name):
        return getattr(self.inner, name)

    def fork(self):
        return Changed(self.inner.fork(), **self.changes)


def held(oracle, requests, ending, item="move", shown=None, **changes):
    """Whether the two runs are found as they should be, and what is said; the words of run H's state are shown as `shown` gives them."""
    with tempfile.TemporaryDirectory() as work:
        path = Path(work) / "list.txt"
        path.write_text(HEAD.replace("ITEM", item) + requests + f"\nend {ending}\n")
        this = parse(path, True)
    engine = oracle.fork()
    engine.create, engine.lists = this.create(), []
    engine = Changed(engine, words=shown) if shown else engine
    said = io.StringIO()
    with contextlib.redirect_stdout(said):
        good = Held(this, Forks(engine, **changes)).all()
    return good, said.getvalue()


def two_runs(oracle):
    def expect(case, got, good, *needles):
        if got[0] != good or any(needle not in got[1] for needle in needles):
            faults.append(f"the two runs of '{case}': {got[0]}, and not {good} with {needles}:\n{got[1]}")

    agree, contradict = "No condition is broken, and the runs agree", "No condition is broken: this contradicts demand 3."
    for ending in ("rollback", "commit"):
        for requests, what in BROKEN:
            expect(requests, held(oracle, requests, ending), True, "condition broken, line ", what)
        for requests in KEPT:
            expect(requests, held(oracle, requests, ending), True, agree)
    last_id = lambda words: words[:5] + [2**64 - 1] + words[6:]
    expect("no id left", held(oracle, JUDGED, "rollback", shown=last_id), True, "condition broken, line 14: judges a transfer where H has no id left")
    expect("a copy", held(oracle, "", "rollback", "copy"), True, 'not "of moves only"')
    expect("a refused transfer", held(oracle, "", "rollback", "move offered_kind=9 expected_kind=9"), True, 'not "accepted": it gives 4 WrongObjectType')
    # an engine that gives a difference: in an answer's last word, in the rights that a look shows, in a table, in an object, in the next id, in a plan
    flip = lambda at: lambda words: words[:at] + [words[at] ^ 1] + words[at + 1 :]
    head, objects = 16 + 16, 16 + 2 * 16 + 5 * 2 + 2 + 3 + 2 * 384
    row, plan = objects + 8 + 2 * 3, "make_plan table=till count=1"
    for what, requests, changes, endings in (
        ("an answer's last word", KEPT[0], {"answer": flip(71)}, ("rollback", "commit")),
        ("the rights of a moved handle", KEPT[1], {"answer": flip(3)}, ("rollback", "commit")),
        ("the place of a judged transfer", JUDGED, {"answer": flip(3)}, ("rollback", "commit")),
        ("an epoch", KEPT[0], {"words": flip(head + 4)}, ("rollback", "commit")),
        ("a limit", KEPT[0], {"words": flip(objects + 7)}, ("rollback",)),
        ("the next id", KEPT[0], {"words": flip(5)}, ("rollback",)),
        ("a plan's count", plan, {"words": flip(row + 4)}, ("rollback",)),
        ("a plan's kept free slots", plan, {"words": flip(row + 8)}, ("rollback",)),
    ):
        for ending in endings:
            expect(what, held(oracle, requests, ending, **changes), False, contradict)
    print(f"{2 * len(BROKEN) + 3} broken conditions, {2 * len(KEPT)} pairs of runs that agree and 12 that are made to differ")


RT = """#!/bin/sh
case "$*, ${PWD##*/}" in
"all check, create_c")
  printf '== words\\nfn words::eq: proved\\nlogic=proved functions=1\\n== codec\\n== create\\nrt: create: begins with what a check kept in a copy\\n'
  printf '== create_c\\nlogic=proved functions=1\\n== summary\\nwords: ok\\n' ;;
"lib, create_c") mkdir -p out && echo archive >out/libcreate_c.a ;;
"all check, broken_c")
  printf '== broken\\nfn broken::f: no proof: expected answers\\nlogic=not-proved\\n== broken_c\\n== summary\\nbroken: failed (1)\\nbroken_c: not run, since broken failed\\n'
  exit 1 ;;
*) exit 2 ;;
esac
"""
SHOWN = """6 crates are proved and the C calls compiled, once; this takes some minutes
  words: proved; 5 left, 0:00 so far
  create_c: proved; 2 left, 0:00 so far
  2 were proved before; 2 left, 0:00 so far
  create: compiled now ..
  create: done; 2 left, 0:00 so far
fn broken::f: no proof: expected answers
broken: failed (1)
broken_c: not run, since broken failed
"""


def proving():
    """What is shown while crates are proved, by an `rt` that proves two, finds two proved, makes one library and fails at another."""
    said = io.StringIO()
    with tempfile.TemporaryDirectory() as work:
        rt, path = Path(work) / "rt", os.environ["PATH"]
        rt.write_text(RT)
        rt.chmod(0o755)
        for name in ("create_c", "broken_c"):
            (Path(work) / "crates" / name).mkdir(parents=True)
        os.environ["PATH"] = f"{work}:{path}"
        try:
            with contextlib.redirect_stderr(said):
                Proofs(["create", "broken"], Path(work), ["words", "codec", "create", "create_c", "broken", "broken_c"]).all()
        except Fault as fault:
            said.write(str(fault))
        finally:
            os.environ["PATH"] = path
        archives = {made.name: made.read_text() for made in (Path(work) / "target" / "staticlib").glob("*")}
    if said.getvalue() != SHOWN:
        faults.append(f"while crates are proved this is shown:\n{said.getvalue()}")
    if archives != {"libcreate.a": "archive\n"}:
        faults.append(f"the libraries made are {archives}")


def main():
    proving()
    if shutil.which("cargo") is None:
        print(*faults, "there is no cargo here, and the oracle is built with it", sep="\n")
        sys.exit(1 if faults else 3)
    oracle = Oracle([1, 0, 1, 1, 1, 0, 1, 0, 0, 0, 0, 0])
    readings(oracle)
    two_runs(oracle)
    for fault in faults:
        print(fault)
    sys.exit(1 if faults else 0)


main()

#!/usr/bin/env python3
"""Slips in the definitions, tried on a copy of the crates: each must be refused by a crate that proves something of them.

A must-fail edit belongs to one crate, so it cannot show that a theorem above refuses a slip in a definition below. Here each slip of `model` is tried twice: with all
that stands, and again with the tables of cases taken out, so that only the theorems are left to refuse it. A slip of `representation` names the crate whose theorem is then
false, and the fact that fails; it must be refused there and by no crate below it. A statement that is weakened together with its proof must be refused by `promises`, which
applies it. The script says which crate refused a slip, and where.
Its last line is 'N passed, M failed'.

  slips.py [WORDS]     the slips, or those whose names have the words; RT_JOBS of them at a time (default 2)
"""
import os
import re
import subprocess
import sys
import tempfile
from concurrent.futures import ThreadPoolExecutor
from pathlib import Path

from reasons import first_error
from scratch import above, below, copied

# What the words must say, too little or wrong. name: (crate and module, old, new, the crate that must refuse it, the fact that fails)
WORDS = {
    "an epoch that the words need not have": (
        "representation Represents",
        "pub epoch : m (head b head_epoch) ≡ t.epoch",
        "pub epoch : m (head b head_epoch) ≡ m (head b head_epoch)",
        "representation",
        "`rep_unique`: one table's words represent its state with any epoch",
    ),
    "a free count one too high": (
        "representation Represents",
        "pub free_count : m (head b head_free_slots) ≡ length t.free",
        "pub free_count : m (head b head_free_slots) ≡ suc (length t.free)",
        "create",
        "`Meets`: a created table has no free slot and its count is 0",
    ),
    "a plan's kept number of free slots that the words need not have": (
        "representation Represents",
        "pub free_slots : m (item r 0 item_free_slots) ≡ w.free_slots",
        "pub free_slots : m (item r 0 item_free_slots) ≡ m (item r 0 item_free_slots)",
        "representation",
        "`rep_unique`: one plan's words represent it with any number of free slots",
    ),
    "a busy count that the words need not have": (
        "representation Represents",
        "pub busy : (p : ℕ) → p < t.size → is_attached t p ≡ true → m (entry (entry_at m b p) entry_busy) ≡ busy_of till t.slots p",
        "pub busy : (p : ℕ) → p < t.size → is_attached t p ≡ true → m (entry (entry_at m b p) entry_busy) ≡ m (entry (entry_at m b p) entry_busy)",
        "structure",
        "completeness of the check: words with any busy count represent a state, and the check refuses them",
    ),
}

# A statement that says less, its proof with it. name: (the changes: crate and module, old, new; the crate that must refuse it, the fact that fails)
STATEMENTS = {
    "a two-run theorem of lists of one request": (
        [
            ("noninterference Theorem", "use Rattle.noninterference.specs.Theorem.{Agree}\n", "use Rattle.noninterference.specs.Theorem.{Agree}\nuse Rattle.std.specs.Prelude.{◌<◌, length}\n"),
            ("noninterference Theorem", "→ (rs : List Request) → every (permitted t b values) rs ≡ true", "→ (rs : List Request) → length rs < 2 → every (permitted t b values) rs ≡ true"),
            ("noninterference Theorem", "moves t opened_t rs p n =", "moves t opened_t rs few p n ="),
        ],
        "promises",
        "demand 3 is of any list",
    ),
    "a two-run theorem that says nothing of the end state after a rollback": (
        [
            ("noninterference Theorem", "pub after_rollback : p.0 ≡ lower_state t (step z h.0 (rollback t)).0", "pub after_rollback : p.0 ≡ p.0"),
            ("noninterference Theorem", "after_rollback = rollback_is z kept t b y.es values h.0 y.claimed;", "after_rollback = refl;"),
        ],
        "promises",
        "demand 3: after a rollback both ends represent one state, ids lowered",
    ),
    "a contract that says nothing of the result": (
        [
            ("contract Meets", "x.result ≡ (call till (some s) list os).result", "x.result ≡ x.result"),
            ("contract Call", "result = λ sh s r. let x = opened ws list os sh s r in rw x (inside ws list os sh s r).result;", "result = λ sh s r. refl;"),
        ],
        "promises",
        "demand 1: the result is 0, 18, 19 or 20",
    ),
    "calls that must be lent a word more than their answers": (
        [
            ("promises Terms", "use Rattle.contract.specs.Meets.{Called, Meets}\n", "use Rattle.contract.specs.Meets.{Called, Meets}\nuse Rattle.std.specs.Prelude.{◌<◌}\n"),
            ("promises Terms", "pub enough : answer_words * length (requests_in c.list) ≤ length c.lent", "pub enough : answer_words * length (requests_in c.list) < length c.lent"),
            ("promises Calls", "use Rattle.contract.specs.Meets.{Called, Meets}\n", "use Rattle.contract.specs.Meets.{Called, Meets}\nuse Rattle.std.proofs.Common.{arith}\n"),
            ("promises Calls", "m r f.reads f.enough in", "m r f.reads (omega (arith, f.enough)) in"),
        ],
        "promises",
        "`a_call`: a list that reads and 72 words a request are a call",
    ),
}

# Documents 01 and 02 wrongly read, to be refused by the theorems up to that of the two runs. name: (crate and module, old, new)
TOP = "noninterference"
SLIPS = {
    "a rollback that only frees the row": (
        "model Step",
        "      setting_table b to restore_all es (s.tables b)\n",
        "      setting_table b to s.tables b\n",
    ),
    "a rollback that takes handles by their place among the moves": (
        "model Step",
        "      setting_table b to restore_all es (s.tables b)\n",
        "      setting_table b to fill_all (moved_of es) (map (elim [ moved k h r ↦ h | copied h ↦ h ]) es) (s.tables b)\n",
    ),
    "a commit that vacates the first slot only": (
        "model Step",
        "      setting_table b to vacate_all z (moved_of es) (s.tables b)\n",
        "      setting_table b to vacate_all z (take 1 (moved_of es)) (s.tables b)\n",
    ),
    "a commit that pushes slots in reverse": (
        "model Book",
        "moved_of (moved k h r ∷ es) = k ∷ moved_of es",
        "moved_of (moved k h r ∷ es) = moved_of es ++ (k ∷ [])",
    ),
    "a preparation that raises the epoch": (
        "model Step",
        "setting_table b to keep_all z (λ g. transfer_reserved g i) (moved_of es) t\n",
        "setting_table b to (let u : Table = keep_all z (λ g. transfer_reserved g i) (moved_of es) t in record { limit = u.limit; mask = u.mask; life = u.life; epoch = u.epoch + 1; size = u.size; pages = u.pages; slots = u.slots; free = u.free; empty = u.empty; detached = u.detached })\n",
    ),
    "a preparation that unlinks the page": (
        "model Step",
        "setting_table b to keep_all z (λ g. transfer_reserved g i) (moved_of es) t\n",
        "setting_table b to (let u : Table = keep_all z (λ g. transfer_reserved g i) (moved_of es) t in record { limit = u.limit; mask = u.mask; life = u.life; epoch = u.epoch; size = u.size; pages = u.pages; slots = u.slots; free = u.free; empty = take 0 u.empty; detached = u.detached })\n",
    ),
    "a stale plan that is used": (
        "model Storage",
        "  is_stale t n w = not (still_is (snapshot_for t n) w)\n",
        "  is_stale t n w = false\n",
    ),
    "a held transfer that makes plans stale": (
        "model Storage",
        "  is_stale t n w = not (still_is (snapshot_for t n) w)\n",
        "  is_stale t n w = not (still_is (snapshot_for t n) w && is_occupied (t.slots 63))\n",
    ),
    "a look that shows the rights that the receiver gets": (
        "model Lookup",
        "kept_for k (moved j h r ∷ es) = pick (eqb k j) (some h) (kept_for k es)\n",
        "kept_for k (moved j h r ∷ es) = pick (eqb k j) (some (record { object = h.object; rights = r; flags = h.flags })) (kept_for k es)\n",
    ),
    "a plan that is dropped and keeps its frames": (
        "model Step",
        "      setting_frames insert_all fs s.frames\n",
        "      setting_frames s.frames\n",
    ),
}


# the modules of computed cases, on which no theorem rests
TABLES = {"model": ("Cases", "Effects", "PlanCases", "LookCases", "JudgeCases", "WordCases"), "noninterference": ("Examples", "Exclusions")}
UNFIT = re.compile(r"not in scope|cannot be parsed|cannot be read|can be named from here|expected .* found|has no field|has no `|is no name|cannot continue")


def slipped(scratch, module, old, new):
    """Makes a change where its text stands, among a module's definitions or its statements; what keeps it from being made, or nothing."""
    crate, name = module.split()
    paths = [path for path in (scratch / "crates" / crate / part / f"{name}.antt" for part in ("specs", "proofs")) if path.is_file()]
    found = [path for path in paths for _ in range(path.read_text().count(old))]
    if len(found) != 1:
        return f"the text to change stands {len(found)} times in {module}"
    found[0].write_text(found[0].read_text().replace(old, new))
    return ""


def attempt(name, bare):
    """What refused a slip, and whether that is what must refuse it."""
    if name in STATEMENTS:
        changes, top, _ = STATEMENTS[name]
    else:
        *change, top, _ = WORDS.get(name) or (*SLIPS[name], TOP, "")
        changes = [change]
    changed = changes[0][0].split()[0]
    with tempfile.TemporaryDirectory() as folder:
        scratch = copied(Path(folder), top, changed)
        for change in changes:
            if why := slipped(scratch, *change):
                return why, False
        if bare:
            # the tables of computed cases go: what is left are theorems
            for crate, modules in TABLES.items():
                for part in ("specs", "proofs"):
                    lib = scratch / "crates" / crate / part / "Lib.antt"
                    lines = lib.read_text().split("\n") if lib.is_file() else []
                    for module in modules:
                        (scratch / "crates" / crate / part / f"{module}.antt").unlink(missing_ok=True)
                    if lines:
                        lib.write_text("\n".join(l for l in lines if re.sub(r"^(?:pub )?mod ", "", l) not in modules))
        # from the changed crate up, one at a time: the first that is not proved is the one that refuses
        for crate in above(changed):
            if crate not in below(top):
                continue
            done = subprocess.run(["rt", "check" if crate == top else "lib"], cwd=scratch / "crates" / crate, capture_output=True, text=True)
            if done.returncode != 0:
                break
        log = done.stdout + done.stderr
    if done.returncode == 0:
        return "accepted", False
    line, error = first_error(log)
    first = re.match(r"(?:note: )?(?:\./)?((?:specs|proofs|src)/\S+):(\d+):\d+: (?:error: `([^`]+)`: )?(.*)", error)
    if not first or not re.search(r"^logic=not-proved", log, flags=re.M):
        return "failed without an error in a proof: " + log[-400:], False
    file, number, declared, why = first.groups()
    if UNFIT.search(why):
        return f"the slip does not fit: {why[:160]}", False
    if name not in SLIPS and crate != top:
        return f"refused by {crate}, below {top}: {file}:{number}, `{declared}`: {why[:160]}", False
    return f"refused by {crate}, {file}:{number}, {f'`{declared}`' if declared else why[:120]}", True


def main():
    asked = " ".join(sys.argv[1:])
    jobs = [(name, bare) for name in SLIPS for bare in (False, True) if asked in name] + [(name, False) for name in (*WORDS, *STATEMENTS) if asked in name]
    if not jobs:
        sys.exit(f"no slip has the words '{asked}'")
    with ThreadPoolExecutor(int(os.environ.get("RT_JOBS", "2"))) as pool:
        results = list(pool.map(lambda j: attempt(*j), jobs))
    passed = failed = 0
    for (name, bare), (text, good) in zip(jobs, results):
        how = (WORDS.get(name) or STATEMENTS[name])[-1] if name not in SLIPS else "with the theorems alone" if bare else "with all"
        if good:
            passed += 1
            print(f"ok: {name} ({how}): {text}")
        else:
            failed += 1
            print(f"FAILED: {name} ({how}): {text}")
    print(f"{passed} passed, {failed} failed")
    sys.exit(1 if failed else 0)


main()

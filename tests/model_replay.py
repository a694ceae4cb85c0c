#!/usr/bin/env python3
"""Replays recorded lists on the model: the checker computes every answer and the whole end state from the definitions, and each is held to what the
Rust gave (recorded/, see docs/oracle.md). Writes a crate `computed` with a table of cases for each recorded list, and has it proved.

  model_replay.py [FILE..]     recorded files (default: cases.txt, plain.txt, edges.txt, scrambled.txt, plans.txt, looks.txt and judged.txt)
"""
import re
import subprocess
import sys
import tempfile
from collections import Counter
from pathlib import Path

from recorded import cases
from scratch import copied, root


def runs(text):
    """The numbers of a run list, as `63-61,5,7-9`."""
    out = []
    if text == "-":
        return out
    for part in text.split(","):
        a, _, b = part.partition("-")
        if b:
            a, b = int(a), int(b)
            out += range(a, b + 1) if a <= b else range(a, b - 1, -1)
        else:
            out.append(int(a))
    return out


def handle(text):
    o, r, f = text.split("/")
    return [int(o), int(r, 16), int(f)]


def listed(numbers):
    return "".join(f"{n} ∷ " for n in numbers) + "[]"


def expected_state(lines):
    """The numbers that `shown` of the generated module gives, from the state's text."""
    out, page = [], None
    for line in lines:
        w = line.split()
        if w[0] == "next":
            out.append(int(w[1]))
        elif w[0] == "rows":
            out += [int(w[1]), int(w[3])]
        elif w[0] == "frames":
            fs = runs(w[3])
            out += [int(w[1]), len(fs)] + fs
        elif w[0] == "object":
            out.append({"new": 0, "active": 1, "retired": 2}[w[12]])
            out += [int(w[14])]
        elif w[0] == "table":
            i = 6
            life = {"active": 0, "tearing-down": 1, "retired": 2}[w[i]]
            cursor = 0
            if life == 1:
                cursor = int(w[i + 1])
                i += 1
            out += [life, cursor, int(w[i + 2]), int(w[i + 4])]
        elif w[0] in ("free-order", "empty-order", "detached-order"):
            ks = runs(w[1])
            out += [len(ks)] + ks
        elif w[0] == "page":
            if w[2] == "frame":
                out += [int(w[3]) + 1, int(w[5])]
            else:
                a, _, b = w[1].partition("-")
                for _ in range(int(a), int(b or a) + 1):
                    out += [0, int(w[4])]
        elif w[0] == "slots":
            for part in w[1:]:
                span, what = part.split(":")
                a, _, b = span.partition("-")
                for _ in range(int(a), int(b or a) + 1):
                    if what[0] == "o":
                        g, h = what[1:].split("/", 1)
                        out += [4, int(g)] + handle(h)
                    else:
                        out += [{"v": 1, "r": 2, "t": 3}[what[0]], int(what[1:])]
        elif w[0] == "row":
            out.append(int(w[3]))
            if w[4] == "reservation":
                ks = runs(w[8])
                out += [1, int(w[6]), len(ks)] + ks
            elif w[4] == "claim":
                out += [2, int(w[6]), len(w) - 7]
                for e in w[7:]:
                    if e[0] == "M":
                        slot, rest = e[1:].split(":")
                        h, r = rest.split(">")
                        out += [0, int(slot)] + handle(h) + [int(r, 16)]
                    else:
                        out += [1] + handle(e[2:])
            elif w[4] == "plan":
                ps, fs = runs(w[14]), runs(w[16])
                out += [4, int(w[6]), int(w[8]), int(w[10]), int(w[12]), len(ps)] + ps + [len(fs)] + fs
            else:
                out += [3, len(w) - 5]
                for h in w[5:]:
                    out += handle(h)
    return out


HEAD = """use Rattle.std.specs.Prelude.{◌≡◌, refl, Bool, true, false, List, [], ◌∷◌, ◌++◌, map, ℕ, zero, suc, ◌+◌, ◌-◌, ◌*◌, length, eqb, ltb}
use Rattle.std.proofs.Math.Option.{Option, none, some}
use Rattle.authority.specs.Rights.{contains}
use Rattle.codec.specs.Codec.{encode, payload, decodes, payload_in, number_in, slot_in, generation_in, next_generation, mask_of}
use Rattle.format.specs.Format.{musts, mays, field_kinds, field_fits, known_op}
use Rattle.model.specs.Base.{bit, pick, or_else, is_some, range, same_list}
use Rattle.model.specs.State.{Handle, Slot, Slot.absent, Slot.vacant, Slot.reserved, Slot.transfer_reserved, Slot.occupied, Page, Lifecycle, Lifecycle.active, Lifecycle.tearing_down, Lifecycle.retired, Table, Class, Class.leaf, Class.rendezvous_only, Class.never, Stage, Stage.still_new, Stage.now_active, Stage.now_retired, Object, Entry, Entry.moved, Entry.copied, Body, Body.reservation, Body.claim, Body.parcel, Body.plan, StorageSnapshot, Row, State, till, no_page, no_table, no_object, max_tables, max_frames, max_objects, max_rows, max_batch, max_slots, max_limit, known_flags, last_id}
use Rattle.model.specs.Storage.{place, vacate, take_free, pages_for, attach, detach, slots_of}
use Rattle.model.specs.Request.{Answer, Request}
use Rattle.model.specs.Step.{decide, step, run, new_object_of, duplicate_of, release_parcel_of, retire_object_of, reserve_of, trim_of, abort_of, publish_of, get_info_of, resolve_of, replace_of, close_of, scan_handles_of, prepare_transfer_of, prepare_consumption_of, rollback_of, commit_of, direct_commit_of, direct_rollback_of, remove_stopping_owner_of, teardown_start_of, teardown_step_of, teardown_finish_of, take_empty_page_of, make_plan_of, use_plan_of, drop_plan_of, judge_transfer_of}
use Rattle.model.specs.Create.{Parameters, TableParameters, ObjectParameters, permitted, created, create}
use Rattle.model.specs.Words.{read_request, read_list, used_words, words_of, answer_short, call}
"""

SHOW = HEAD + """
-- a state as a list of numbers, in the order of the state's text
abbrev counted : List ℕ → List ℕ
counted l = length l ∷ l

abbrev join : List (List ℕ) → List ℕ
join [] = []
join (x ∷ xs) = x ++ join xs

abbrev stage_of : Stage → ℕ
stage_of still_new = 0
stage_of now_active = 1
stage_of now_retired = 2

abbrev objects_of : (ℕ → Object) → ℕ → ℕ → List ℕ
objects_of f o zero = []
objects_of f o (suc n) = stage_of (f o).stage ∷ (f o).count ∷ objects_of f (suc o) n

abbrev life_of : Lifecycle → List ℕ
life_of active = 0 ∷ 0 ∷ []
life_of (tearing_down c) = 1 ∷ c ∷ []
life_of retired = 2 ∷ 0 ∷ []

abbrev handle_of : Handle → List ℕ
handle_of h = h.object ∷ h.rights ∷ h.flags ∷ []

abbrev slot_of : Slot → List ℕ
slot_of absent = []
slot_of (vacant g) = 1 ∷ g ∷ []
slot_of (reserved g i) = 2 ∷ g ∷ []
slot_of (transfer_reserved g i) = 3 ∷ g ∷ []
slot_of (occupied g h) = 4 ∷ g ∷ handle_of h

abbrev slots_from : (ℕ → Slot) → ℕ → ℕ → List ℕ
slots_from f k zero = []
slots_from f k (suc n) = slot_of (f k) ++ slots_from f (suc k) n

abbrev frame_of : Option ℕ → ℕ
frame_of none = 0
frame_of (some f) = suc f

abbrev pages_of : Table → ℕ → ℕ → List ℕ
pages_of t p zero = []
pages_of t p (suc n) = frame_of (t.pages p).frame ∷ (t.pages p).high ∷ slots_from t.slots (p * 64) (slots_of till p) ++ pages_of t (suc p) n

abbrev table_of : Table → List ℕ
table_of t = life_of t.life ++ (t.epoch ∷ t.size ∷ counted t.free ++ counted t.empty ++ counted t.detached ++ pages_of t 0 t.size)

abbrev tables_of : (ℕ → Table) → ℕ → ℕ → List ℕ
tables_of f b zero = []
tables_of f b (suc n) = table_of (f b) ++ tables_of f (suc b) n

abbrev entry_of : Entry → List ℕ
entry_of (moved k h r) = 0 ∷ k ∷ handle_of h ++ (r ∷ [])
entry_of (copied h) = 1 ∷ handle_of h

abbrev body_of : Body → List ℕ
body_of (reservation b ks) = 1 ∷ b ∷ counted ks
body_of (claim b es) = 2 ∷ b ∷ length es ∷ join (map entry_of es)
body_of (parcel hs) = 3 ∷ length hs ∷ join (map handle_of hs)
body_of (plan b n w fs) = 4 ∷ b ∷ n ∷ w.epoch ∷ w.free_slots ∷ counted w.pages ++ counted fs

abbrev row_of : Row → List ℕ
row_of r = r.id ∷ body_of r.body

abbrev pub shown : State → List ℕ
shown s =
    s.book.next ∷ length s.book.rows ∷ s.book.capacity ∷ s.frame_count ∷ counted s.frames
    ++ objects_of s.objects 0 s.object_count ++ tables_of s.tables 0 s.table_count ++ join (map row_of s.book.rows)

-- an answer's words without the zeros at its end, and how many they are
abbrev keep_if : ℕ → List ℕ → List ℕ
keep_if zero [] = []
keep_if zero (x ∷ xs) = 0 ∷ x ∷ xs
keep_if (suc w) l = suc w ∷ l

abbrev trimmed : List ℕ → List ℕ
trimmed [] = []
trimmed (w ∷ ws) = keep_if w (trimmed ws)

abbrev pub brief : Answer → List ℕ
brief a = counted (trimmed (used_words a))

-- all answers to a list, and the state after it
abbrev after : State × List Answer → List ℕ
after o = join (map brief o.1) ++ shown o.0

abbrev pub replayed : State → List ℕ → List ℕ
replayed s ws = after (run till s (or_else (read_list ws) []))

-- a store in a function, for states that are written out
abbrev pub stored : {A : Type 0} → List (ℕ × A) → (ℕ → A) → ℕ → A
stored [] f j = f j
stored (e ∷ es) f j = pick (eqb j e.0) e.1 (stored es f j)
"""

UNFOLD = (
    "unfolding encode payload decodes payload_in number_in slot_in generation_in mask_of next_generation contains max_tables max_frames max_objects max_rows "
    "max_batch max_slots max_limit known_flags last_id\n  place vacate take_free pages_for attach detach decide step used_words words_of answer_short read_request read_list call musts mays "
    "field_kinds field_fits known_op permitted created\n  new_object_of duplicate_of release_parcel_of retire_object_of reserve_of trim_of abort_of publish_of get_info_of resolve_of replace_of close_of "
    "scan_handles_of prepare_transfer_of prepare_consumption_of\n  rollback_of commit_of direct_commit_of direct_rollback_of remove_stopping_owner_of teardown_start_of teardown_step_of teardown_finish_of "
    "take_empty_page_of make_plan_of use_plan_of drop_plan_of judge_transfer_of\n"
)


def parameters(p):
    t, f, o, r = p[:4]
    at = 4
    tables, objects = [], []
    for _ in range(t):
        tables.append("record { pages = %d; seed = %d }" % tuple(p[at : at + 2]))
        at += 2
    for _ in range(o):
        objects.append("record { koid = %d; kind = %d; class = %d; supported = %d; exportable = %d; limit = %d }" % tuple(p[at : at + 6]))
        at += 6
    return "record { tables = %s; frames = %d; rows = %d; objects = %s }" % ("".join(x + " ∷ " for x in tables) + "[]", f, r, "".join(x + " ∷ " for x in objects) + "[]")


def option(n):
    return "none" if n == 0 else f"some {n - 1}"


def state_of(w):
    """A model state from state words, read by docs/formats.md."""
    t, f, o, r, nxt, used, _, p = w[1:9]
    heads = 16
    entries = heads + 16 * t
    owners = entries + 5 * p
    frames = owners + f + -(-f // 16) + -(-f // 256) + -(-f // 4096)
    objects = frames + 384 * f
    index = objects + 8 * o
    rows = index + 2 * r
    row_id = {place: w[rows + ROW * place] for place in w[index : index + 2 * used : 2]}
    held = lambda at: "record { object = %d; rights = %d; flags = %d }" % (w[at], w[at + 1], w[at + 2])
    chain = lambda first, step: [] if first == 0 else [first - 1] + chain(step(first - 1), step)
    tables = []
    for b in range(t):
        h = heads + 16 * b
        limit, mask, life, cursor, epoch, size, free, _, empty, detached, base = w[h : h + 11]
        entry = lambda q: entries + 5 * (base + q)
        cell = lambda k: frames + 384 * (w[entry(k // 64)] - 1) + 6 * (k % 64)
        pages, slots = [], []
        for q in range(size):
            e = entry(q)
            pages.append(f"({q}, record {{ frame = {option(w[e])}; high = {w[e + 1]} }})")
            if w[e] == 0:
                continue
            for k in range(q * 64, min(q * 64 + 64, 16777215)):
                c = cell(k)
                tag, g = w[c], w[c + 1]
                what = [f"vacant {g}", f"reserved {g} {row_id.get(w[c + 2], 0)}", f"transfer_reserved {g} {row_id.get(w[c + 2], 0)}", f"occupied {g} ({held(c + 2)})"][tag]
                slots.append((k, what))
        def links(first, place):
            out = []
            while first:
                out.append(first - 1)
                first = place(first - 1)
            return out
        orders = (links(free, lambda k: w[cell(k) + 2]), links(empty, lambda q: w[entry(q) + 3]), links(detached, lambda q: w[entry(q) + 3]))
        lives = ["active", f"tearing_down {cursor}", "retired"][life]
        tables.append(
            "record { limit = %d; mask = %d; life = %s; epoch = %d; size = %d; pages = stored (%s) (λ q. no_page); slots = stored (%s) (λ k. absent); free = %s; empty = %s; detached = %s }"
            % (limit, mask, lives, epoch, size, "".join(x + " ∷ " for x in pages) + "[]", "".join(f"({k}, {x}) ∷ " for k, x in slots) + "[]", *[listed(x) for x in orders])
        )
    things = []
    for k in range(o):
        koid, kind, cls, supported, exportable, stage, count, limit = w[objects + 8 * k : objects + 8 * k + 8]
        things.append(
            "record { koid = %d; kind = %d; class = %s; supported = %d; exportable = %s; limit = %d; stage = %s; count = %d }"
            % (koid, kind, ["leaf", "rendezvous_only", "never"][cls], supported, ["false", "true"][exportable], limit, ["still_new", "now_active", "now_retired"][stage], count)
        )
    book = []
    for place in w[index : index + 2 * used : 2]:
        at = rows + ROW * place
        ident, kind, table, count = w[at : at + 4]
        items = [at + BLOCK + 6 * j for j in range(count)]
        if kind == 1:
            body = f"reservation {table} ({listed([w[i] for i in items])})"
        elif kind == 2:
            es = [f"moved {w[i + 1]} ({held(i + 2)}) {w[i + 5]}" if w[i] == 0 else f"copied ({held(i + 2)})" for i in items]
            body = f"claim {table} ({''.join(e + ' ∷ ' for e in es)}[])"
        elif kind == 4:
            kept = "record { epoch = %d; free_slots = %d; pages = %s }" % (w[at + 5], w[at + BLOCK + 2], listed([w[i] for i in items]))
            body = f"plan {table} {w[at + 4]} ({kept}) ({listed([w[i + 1] for i in items])})"
        else:
            body = f"parcel ({''.join(held(i + 2) + ' ∷ ' for i in items)}[])"
        book.append(f"record {{ id = {ident}; body = {body} }}")
    spare = [k for k in range(f) if w[owners + k] == 0]
    number = lambda xs: "".join(f"({i}, {x}) ∷ " for i, x in enumerate(xs)) + "[]"
    return (
        "record { table_count = %d; tables = stored (%s) (λ b. no_table); object_count = %d; objects = stored (%s) (λ o. no_object); frame_count = %d; frames = %s; book = record { rows = %s; capacity = %d; next = %d } }"
        % (t, number(tables), o, number(things), f, listed(spare), "".join(x + " ∷ " for x in book) + "[]", r, nxt)
    )


ROW, BLOCK = 390, 6


def main():
    names = sys.argv[1:] or ["cases.txt", "plain.txt", "edges.txt", "scrambled.txt", "plans.txt", "looks.txt", "judged.txt"]
    modules, requests, lists, calls, refused = [], 0, 0, 0, []
    left = Counter()
    made = {}
    for name in names:
        path = root / "recorded" / name
        found = 0
        for case in cases(path):
            kind, start = case.start
            found += 1
            if case.result != 0:
                short = kind == "words" or len(start) < 4 or len(start) < 4 + 2 * start[0] + 6 * start[2] or start[0] > 64 or start[2] > 8192
                if short:
                    left["a refused start that is no matter of the parameters"] += 1
                    continue
                refused.append(parameters(start))
                continue
            if kind == "words" and (start[8] > 64 or start[2] > 64):
                left["a table too large to write out"] += 1
                continue
            asked, told, whole = [], [], []
            for call in case.calls:
                if call[0] == "!":
                    whole.append((call[1], call[3], call[2]))
                    calls += 1
                if call[0] == "=":
                    asked += call[1]
                    answer = call[2]
                    while answer and answer[-1] == 0:
                        answer.pop()
                    told += [len(answer)] + answer
                    requests += 1
            told += expected_state(case.text)
            lists += 1
            module = f"Case{lists}"
            state = f"created ({parameters(start)})" if kind == "create" else state_of(start)
            made[module] = (
                f"-- {name}: {case.name}\n{HEAD}use Rattle.computed.proofs.Show.{{shown, brief, replayed, stored}}\n\nstart : State\nunfolding created\nstart = {state}\n\n"
                f"asked : List ℕ\nasked = {listed(asked)}\n\ntold : List ℕ\ntold = {listed(told)}\n\n"
                f"holds : same_list (replayed start asked) told ≡ true\n{UNFOLD.rstrip()} start asked told\nholds = refl\n"
                + (
                    f"\nwhole : same_list ({''.join(f'(call till (some start) ({listed(ask)}) (range 0 {lent})).result ∷ ' for lent, ask, _ in whole)}[]) ({listed([r for _, _, r in whole])}) ≡ true\n"
                    f"{UNFOLD.rstrip()} start\nwhole = refl\n"
                    if whole
                    else ""
                )
            )
            modules.append((module, name, case.name))
        if not found:
            sys.exit(f"recorded/{name} has no case")
    made["Creations"] = (
        f"-- creations that are refused\n{HEAD}\nrefused : same_list ({''.join(f'bit (is_some (create till ({p}))) ∷ ' for p in refused)}[]) ({listed([0] * len(refused))}) ≡ true\n"
        f"{UNFOLD.rstrip()}\nrefused = refl\n"
    )
    modules.append(("Creations", "cases.txt", "refused creations"))
    with tempfile.TemporaryDirectory() as folder:
        scratch = copied(Path(folder), "model")
        with open(scratch / "crates.txt", "a") as f:
            f.write("\ncomputed: model codec authority format\n")
        crate = scratch / "crates" / "computed"
        (crate / "src").mkdir(parents=True)
        (crate / "proofs").mkdir()
        (crate / "src" / "lib.rt").write_text("// Recorded lists, computed from the definitions.\n")
        (crate / "proofs" / "Show.antt").write_text(SHOW)
        for module, text in made.items():
            (crate / "proofs" / f"{module}.antt").write_text(text)
        (crate / "proofs" / "Lib.antt").write_text("pub mod Show\n" + "".join(f"pub mod {m}\n" for m in made))
        done = subprocess.run(["rt", "check"], cwd=crate, capture_output=True, text=True)
        log = done.stdout + done.stderr
    wrong = sorted(set(re.findall(r"(Case\d+|Creations)\.antt:\d+:\d+: error", log)))
    for module, name, case in modules:
        if module in wrong:
            print(f"differs: {name} {case} ({module})")
    if done.returncode != 0 and not wrong:
        print("\n".join(l for l in log.split("\n") if "error" in l or l.startswith("rt: "))[:3000])
    print(f"{lists} recorded lists with {requests} requests computed from the definitions, answers and end states; {calls} whole calls refused; {len(refused)} creations refused; {len(wrong)} modules differ")
    print("left out: states.txt (the state check, which the definitions do not compute), last-page.txt and " + ", ".join(f"{n} times {why}" for why, n in left.items()))
    sys.exit(1 if done.returncode != 0 or not lists else 0)


main()

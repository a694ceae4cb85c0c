#!/usr/bin/env python3
"""The statements of the promises, as the checker prints them, and the definitions that they name, held to what docs/statements/ has: a promise changes only in sight.

What is recorded:
- docs/statements/promises.txt: of each theorem listed below its type, of each record its parameters and fields, printed by the checker (it prints the goal of a hole in a
  small crate over the crates, with the name in its context), so that what was proved is seen and not what the source seems to say; and the contracts of the outside calls;
- docs/statements/definitions.txt: the text of every definition of this repository that those name, and of those that these name, down to the crates of LEAVES;
- docs/statements/leaves.txt: the definitions of LEAVES that are reached, by name and by a sum of their text and of what its names stand for. They are read in those crates.

  statements.py            compare; the crates must be proved
  statements.py --record   write anew
"""
import difflib
import hashlib
import re
import subprocess
import sys
import tempfile
import textwrap
from functools import lru_cache
from pathlib import Path

from scratch import below, copied, dependencies, modules, root

# the promises: crate, module, names (theorems and records)
PROMISES = [
    ("noninterference", "Theorem", ["Agree", "held_and_plain"]),
    ("noninterference", "Plans", ["PlansStand", "preparing", "consuming", "rolling_back", "PlansAgree", "held_and_plain_plans"]),
    ("create", "Meets", ["Asked", "Meets"]),
    ("contract", "Meets", ["Meets"]),
    ("promises", "Demand1", ["Ends", "demand_1", "CreationEnds", "demand_1_creation"]),
    ("promises", "Demand2", ["Steps", "demand_2", "demand_2_lists", "demand_2_calls", "Cut", "demand_2_cut", "Makes", "demand_2_creation"]),
    ("promises", "Demand3", ["TwoRuns", "Same", "demand_3"]),
    ("promises", "Plans", ["Served", "plan_serves", "as_reserved", "drop_accepted"]),
    ("promises", "Looks", ["Unnamed", "BusyToOthers", "Shown", "transfer_shows", "consumption_shows", "permitted_unnamed", "look_refusals"]),
    ("promises", "Straight", ["NothingChanges", "GoesStraight", "nothing_changes", "straight_calls"]),
    ("promises", "Judging", ["Placed", "FirstOf", "Judges", "JudgedCall", "judging", "judging_call"]),
    ("promises", "Lower", ["reads_lowered", "op_word", "answer_lowered"]),
    ("promises", "Transfers", ["SameOrders", "ClosingsLeave", "transfer_keeps_orders", "consumption_keeps_orders", "rollback_keeps_orders", "commit_done", "commit_vacates", "commit_is_closing", "transfer_is_closing", "consumption_is_closing", "direct_rollback_is", "direct_commit_is"]),
    ("promises", "Batches", ["MostPages", "new_pages", "reserve_takes", "pages_of_64", "pages_of_32", "pages_of_16"]),
    ("model", "Cases", ["papers_hold", "corners_hold"]),
    ("model", "Effects", ["effects_hold"]),
    ("model", "PlanCases", ["plans_hold"]),
    ("model", "LookCases", ["looks_hold"]),
    ("model", "JudgeCases", ["judgings_hold"]),
    ("model", "WordCases", ["readings_hold"]),
    ("wellformed", "Whole", ["check_sound", "check_complete"]),
    ("representation", "Unique", ["rep_unique"]),
    ("written", "Whole", ["has_words"]),
    ("written", "Limits", ["written_small"]),
    ("reach", "Every", ["Words", "every_state", "accepted", "shown_again", "not_misuse", "Starts", "any_two"]),
    ("invariant", "Kept", ["run_kept"]),
    ("invariant", "Reached", ["reached"]),
]
# the outside calls: crate and function. Their clauses are recorded as they stand, and the names of `meets` are followed
CALLS = [("create_c", "gurtxozal_create"), ("runner_c", "gurtxozal_run")]
LEAVES = ("model", "codec", "authority", "format")
# definitions that need not be read, since promises say all of them: recorded by a sum, too, and not followed
SAID = {
    ("wellformed", "Whole", "check_b"): "check_sound and check_complete say when it is true",
    ("wellformed", "View", "tables_view"): "by rep_unique the words represent one state",
    ("wellformed", "View", "objects_view"): "by rep_unique the words represent one state",
    ("structure", "Frames", "free_frames"): "by rep_unique the words represent one state",
    ("ledger", "View", "rows_view"): "by rep_unique the words represent one state",
    ("written", "Whole", "written"): "has_words says which state they represent, and by rep_unique it is the only one",
}
FOLDER = root / "docs" / "statements"

# names that the printed statements show short, and that are not listed below a definition where they are these
IMPORTS = """use Rattle.std.specs.Prelude.{◌≡◌, Bool, true, false, not, ◌&&◌, ◌||◌, List, [], ◌∷◌, ◌++◌, map, ℕ, zero, suc, ◌+◌, ◌-◌, ◌*◌, ◌/◌, ◌%◌, ◌^◌, ◌≤◌, ◌<◌, length, get_or, take, drop, eqb, ltb, leb, Some}
use Rattle.std.proofs.Math.Option.{Option, none, some}
"""
NAME = r"[^\s(){};,.‹›`]+"
# a declaration of this repository as the checker names it: crate, modules, name
# (a module's name begins with a capital, so what follows the name after a dot is a field)
MODULES = r"((?:(?:declared|contracts|[A-Z][\w'-]*)\.)+)"
KERNEL = re.compile(r"‹out of reach Rattle\.(\w+)\.(?:specs|proofs)\.%s(%s)›|Rattle\.(\w+)\.(?:specs|proofs)\.%s(%s)" % (MODULES, NAME, MODULES, NAME))


def named(found):
    crate, modules, name = found.group(1, 2, 3) if found.group(1) else found.group(4, 5, 6)
    return crate, modules.rstrip("."), name


USUAL = {item.strip(): f"{path}.{item.strip()}" for path, items in re.findall(r"^use (\S+)\.\{([^}]*)\}", IMPORTS, flags=re.M) for item in items.split(",")}

# ---- declarations of the source


class Declaration:
    """A declaration: where it stands, its text without comments, under the headers of the sections that it stands in."""

    def __init__(self, crate, module, name, text, sections, constructors=(), part="specs"):
        self.key, self.text, self.sections, self.constructors, self.part = (crate, module, name), text, sections, constructors, part

    def whole(self):
        return "\n".join(list(self.sections) + [self.text])

    def sum(self):
        return hashlib.sha256(" ".join([*self.whole().split(), *meanings(self)]).encode()).hexdigest()[:16]


START = re.compile(r"( *)((?:(?:abbrev|unfoldable|pub|mutual) )*)(record |data )?(%s)(?: \{[^}]*\})*(?= :| \(|\s*where)" % NAME)


def another(line, depth, name):
    """Whether a line begins another declaration at that depth."""
    found = START.match(line)
    return found is not None and len(found.group(1)) == depth and found.group(4) != name and line[found.end() :].startswith(" :")


@lru_cache(maxsize=None)
def module(crate, name):
    """The declarations of a module by name (a constructor names its data type), in specs/ and in proofs/, what its `use` lines bring of this repository: name to (crate, module, name), and what
    they bring of other libraries: name to where it is from."""
    out, brought, foreign = {}, {}, {}
    for path in modules(crate, name.replace(".", "/")):
        part = path.relative_to(root / "crates" / crate).parts[0]
        mine, *more = module_file(crate, name, path, part)
        for key, declaration in mine.items():
            if key in out and name != "Lib":
                sys.exit(f"statements.py: {crate} {name}.{key} stands in specs/ and in proofs/")
            out[key] = declaration
        for all, few in zip((brought, foreign), more):
            for key, value in few.items():
                if all.setdefault(key, value) != value:
                    sys.exit(f"statements.py: in {crate}, {name} of specs/ and of proofs/ mean other things by {key}")
    return out, brought, foreign


def module_file(crate, name, path, part):
    """The same of one file of a module, of specs/ or of proofs/."""
    lines = [re.sub(r"\s--(\s.*|$)", "", l).rstrip() for l in path.read_text().split("\n") if not re.match(r"\s*--(\s|$)", l)]
    brought, foreign = imports("\n".join(lines), "(?:pub )?use ")
    out, sections, at = {}, [], 0
    while at < len(lines):
        line = lines[at]
        depth = len(line) - len(line.lstrip())
        if line.strip():
            sections = [s for s in sections if s[0] < depth]
        if re.match(r" *module ", line):
            header = [line]
            while not header[-1].rstrip().endswith("where"):
                at += 1
                header.append(lines[at])
            sections.append((depth, "\n".join(header)))
            at += 1
            continue
        found = START.match(line)
        if not found or line.strip().startswith(("use ", "mod ", "pub mod ")):
            at += 1
            continue
        end = at + 1
        while end < len(lines) and lines[end].strip() and not another(lines[end], depth, found.group(4)):
            end += 1
        text = "\n".join(lines[at:end])
        made = re.findall(r"^\s+(?:pub )?((?:%s )+):" % NAME, text.split("\n", 1)[1] if found.group(3) == "data " and "\n" in text else "", flags=re.M)
        declaration = Declaration(crate, name, found.group(4), text, [s for _, s in sections], [c for group in made for c in group.split()], part)
        out.setdefault(found.group(4), declaration)
        at = end
    for declaration in list(out.values()):
        for constructor in declaration.constructors:
            out.setdefault(constructor, declaration)
    return out, brought, foreign


def imports(text, word):
    """What `use` lines bring: of this repository, and of other libraries."""
    brought, foreign = {}, {}
    for path, items in re.findall(r"^%s([^\s{;]+?)\.\{([^}]*)\}" % word, text, flags=re.M):
        own = re.fullmatch(r"Rattle\.(\w+)\.(?:specs|proofs)\.([\w.'-]+)", path)
        own = own if own and own.group(1) in dependencies() else None
        for item in items.split(","):
            old, _, new = item.strip().partition(" as ")
            parts = old.split(".")
            name = (new or parts[-1]).strip()
            if own and name:
                brought[name] = (own.group(1), own.group(2), parts[0] if len(parts) > 1 and parts[0][0].isupper() else parts[-1])
            elif name and f"{path}.{old}" != USUAL.get(name):
                foreign[name] = f"{path}.{old}"
    return brought, foreign


def used(text, names):
    """Those of the names that a text has, apart from the names of fields; an operator by any of its parts."""
    text = re.sub(r"([{;]|^)(\s*)%s(\s+= )" % NAME, r"\1\2\3", text, flags=re.M)
    text = re.sub(r"^(\s+(?:pub )?)%s( : )" % NAME, r"\1\2", text, flags=re.M)
    tokens = set(re.split(r"[\s(){};,]+", text))
    tokens |= {t.rstrip(".") for t in tokens} | {t.split(".")[0] for t in tokens}
    return {n for n in names if (tokens & set(n.split("◌")) - {""} if "◌" in n else n in tokens)}


def declared(crate, name):
    """A struct or an enum of the code, which the specs name below `declared`."""
    for path in sorted((root / "crates" / crate / "src").glob("*.rt")):
        found = re.search(r"^(?:pub )?(?:struct|enum) %s\b(?:[^{;]*\{.*?^\}|[^;]*;)" % re.escape(name), path.read_text(), flags=re.M | re.S)
        if found:
            return Declaration(crate, "src", name, re.sub(r"\s*//[^\n]*", "", found.group()), [])
    return None


def resolve(key):
    """The declaration that a name of the checker's stands for."""
    crate, where, name = key
    if where.startswith("declared"):
        return declared(crate, where.split(".")[1])
    found = module(crate, where)[0].get(name)
    if found is None and "." in where:  # a constructor under its type's name
        upper, _, kind = where.rpartition(".")
        found = module(crate, upper)[0].get(kind)
    if found is None:
        brought = module(crate, where)[1].get(name)
        found = resolve(brought) if brought else None
    return found


def names_of(declaration):
    """The declarations of this repository that a declaration's text names."""
    crate, where, own = declaration.key
    if where == "src":
        kinds = set(re.findall(r"\b[A-Z]\w+", declaration.text)) - {own}
        return {d.key: d for d in (declared(crate, k) for k in kinds) if d}
    here, brought, _ = module(crate, where)
    out = {}
    for name in used(declaration.whole(), {**brought, **here}):
        found = here[name] if name in here else resolve(brought[name])
        if found is None:
            sys.exit(f"statements.py: {crate} {where}.{own} names {name}, whose source is not found")
        if found.key != declaration.key:
            out[found.key] = found
    return out


def meanings(declaration):
    """What the names of a declaration's text stand for, of this repository and of other libraries."""
    crate, where, _ = declaration.key
    foreign = module(crate, where)[2] if where != "src" else {}
    return sorted(f"{n} ({c} {w})" for c, w, n in names_of(declaration)) + sorted(f"{n} ({foreign[n]})" for n in used(declaration.whole(), foreign))


# ---- what the checker prints


def parameters(declaration):
    """The names of a record's explicit parameters, its sections' first, and of its fields."""
    head = " ".join(declaration.sections) + " " + re.split(r":\s*Type", declaration.text, maxsplit=1)[0]
    binders = [name for group in re.findall(r"\(([^():]*) :", head) for name in group.split()]
    fields = re.findall(r"^\s+(?:pub )?(%s) :" % NAME, declaration.text.split("where", 1)[1], flags=re.M)
    return binders, fields


def printed():
    """For each promise the lines that the checker prints of it."""
    crates = sorted({d for crate, _, _ in PROMISES for d in below(crate)})
    with tempfile.TemporaryDirectory() as folder:
        scratch = copied(Path(folder))
        crate = scratch / "crates" / "shown"
        (crate / "src").mkdir(parents=True)
        (crate / "proofs").mkdir()
        with open(scratch / "crates.txt", "a") as f:
            f.write(f"\nshown: {' '.join(crates)}\n")
        (crate / "src" / "lib.rt").write_text("// The promises, shown.\n")
        shown = []
        for n, (of, where, names) in enumerate(PROMISES):
            for name in names:
                declaration = module(of, where)[0].get(name)
                if declaration is None:
                    sys.exit(f"statements.py: {of} has no {where}.{name}")
                text = f"{IMPORTS}use Rattle.{of}.{declaration.part}.{where}.{{{name} as promise}}\n\n"
                if re.match(r"\s*(?:pub )?record ", declaration.text):
                    binders, fields = parameters(declaration)
                    text += "shown : " + "".join(f"({b} : _) → " for b in binders) + f"promise {' '.join(binders)} → ℕ\n".replace("promise  →", "promise →")
                    text += f"shown {' '.join([*binders, 'it'])} =\n" + "".join(f"    let {f} = it.{f} in\n" for f in fields) + "    ?shown\n"
                else:
                    text += "shown : ℕ\nshown = let it = promise in ?shown\n"
                shown.append((f"Shown{len(shown)}", of, where, name))
                (crate / "proofs" / f"{shown[-1][0]}.antt").write_text(text)
        (crate / "proofs" / "Lib.antt").write_text("".join(f"pub mod {m}\n" for m, *_ in shown))
        done = subprocess.run(["rt", "check", "--allow-holes"], cwd=crate, capture_output=True, text=True)
        log = done.stdout + done.stderr
    out = {}
    for m, of, where, name in shown:
        found = re.search(r"proofs/%s\.antt:\d+:\d+: goal \?shown in `shown`\n((?:    .*\n|  ⊢.*\n)*)" % m, log)
        if not found:
            sys.exit(f"statements.py: the checker does not print {of} {where}.{name}:\n{log[-1500:]}")
        out[of, where, name] = entries = []
        for line in found.group(1).split("\n"):
            if line.startswith("  ⊢"):
                break
            if re.match(r"     ", line):  # a type that is printed on several lines
                entries[-1] += " " + line.strip()
            elif line.strip():
                entries.append(line.strip())
    return out


def short(text, seen):
    """The text with this repository's names without their modules; `seen` takes what each stands for."""
    keys = {}
    for found in KERNEL.finditer(text):
        keys.setdefault(named(found)[2], set()).add(named(found))

    def one(found):
        key = named(found)
        seen[key] = True
        return key[2] if len(keys[key[2]]) == 1 else f"{key[0]}.{key[1]}.{key[2]}"

    return KERNEL.sub(one, text)


def broken(text):
    """A printed type, an arrow's part to a line."""
    out, depth, line = [], 0, ""
    for word in re.split(r"( → )", text):
        if word == " → " and depth == 0:
            out.append(line)
            line = "→ "
            continue
        line += word
        depth += sum(word.count(c) for c in "({‹") - sum(word.count(c) for c in ")}›")
    out.append(line)
    return [w for l in out for w in textwrap.wrap(l, 170, subsequent_indent="    ", break_long_words=False, break_on_hyphens=False)]


def clauses(crate, name):
    """The head of an outside call, with its clauses, as it stands."""
    for path in sorted((root / "crates" / crate / "src").glob("*.rt")):
        found = re.search(r"^pub extern \"C\" fn %s\(.*?(?=^\{)" % name, path.read_text(), flags=re.M | re.S)
        if found:
            return path, found.group().rstrip()
    sys.exit(f"statements.py: {crate} has no outside call {name}")


def texts():
    """The three files."""
    seen, parts = {}, []
    for (crate, where, name), lines in printed().items():
        mine = {}
        body = []
        for line in lines:
            what, colon, kind = line.partition(" : ")
            what = re.sub(r" ≔ .*", "", what)
            if what == "it" and not re.match(r"\s*(?:pub )?record ", module(crate, where)[0][name].text):
                body += ["  " + l for l in broken(short(kind, mine))]
            elif what == "it":
                continue
            else:
                first, *rest = broken(short(kind, mine))
                body += [f"  {what} : {first}"] + ["      " + l for l in rest]
        seen.update(mine)
        parts.append("\n".join([f"{crate} {where}.{name}", *body, "  names: " + ", ".join(sorted(f"{n} ({c} {w})" for c, w, n in mine if (c, w, n) != (crate, where, name)))]))
    for crate, name in CALLS:
        path, head = clauses(crate, name)
        brought, foreign = imports(path.read_text(), "ghost use ")
        uses = sorted(f"{n} ({' '.join(brought[n][:2])} {brought[n][2]})" for n in used(head, brought)) + sorted(f"{n} ({foreign[n]})" for n in used(head, foreign))
        parts.append(f"{path.relative_to(root)} {name}\n" + "\n".join("  " + l for l in head.split("\n")) + f"\n  names: {', '.join(uses)}")
    reached, left = {}, []
    for key in [*seen, *((c, w, n) for c, w, ns in PROMISES for n in ns)]:
        found = resolve(key)
        if found is None:
            sys.exit(f"statements.py: the source of {key} is not found")
        left.append(found)
    theorems = {(c, w, n) for c, w, ns in PROMISES for n in ns if not re.match(r"\s*(?:pub )?record ", module(c, w)[0][n].text)}
    while left:
        found = left.pop()
        if found.key in reached or found.key in theorems:
            continue
        reached[found.key] = found
        if found.key not in SAID:
            left += names_of(found).values()
    whole, leaves = [], []
    for key in sorted(reached):
        crate, where, name = key
        if crate in LEAVES or key in SAID:
            leaves.append(f"{crate} {where}.{name} {reached[key].sum()}" + (f": {SAID[key]}" if key in SAID else ""))
        else:
            uses = meanings(reached[key])
            whole.append(f"{crate} {where}.{name}\n" + "\n".join("  " + l for l in reached[key].whole().split("\n")) + (f"\n  names: {', '.join(uses)}" if uses else ""))
    return {
        "promises.txt": "What is promised, as the checker prints it; below each, what its names stand for. Written by tests/statements.py --record.\n\n" + "\n\n".join(parts) + "\n",
        "definitions.txt": "The definitions that the promises name, and those that these name; below each, what its names stand for. Written by tests/statements.py --record.\n\n" + "\n\n".join(whole) + "\n",
        "leaves.txt": f"The definitions of {', '.join(LEAVES)} that are reached, and those that promises say whole, each with a sum of its text. Written by tests/statements.py --record.\n\n" + "\n".join(leaves) + "\n",
    }


def main():
    if sys.argv[1:] not in ([], ["--record"]):
        sys.exit("usage: statements.py [--record]")
    made = texts()
    if sys.argv[1:]:
        FOLDER.mkdir(parents=True, exist_ok=True)
        for name, text in made.items():
            (FOLDER / name).write_text(text)
    faults = 0
    for name, text in made.items():
        path = FOLDER / name
        recorded = path.read_text() if path.exists() else ""
        if recorded != text:
            faults += 1
            diff = list(difflib.unified_diff(recorded.split("\n"), text.split("\n"), f"docs/statements/{name}", "what stands", lineterm="", n=1))
            print("\n".join(l[:300] for l in diff[:60]))
    promises = sum(len(names) for _, _, names in PROMISES)
    print(f"{promises} promises and {len(CALLS)} contracts printed; {made['definitions.txt'].count(chr(10) * 2)} definitions and {made['leaves.txt'].count(chr(10)) - 2} leaves compared; {faults} files differ")
    sys.exit(1 if faults else 0)


main()

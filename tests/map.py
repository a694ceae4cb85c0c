#!/usr/bin/env python3
"""docs/map.md: the crates in layers, the way of one request and the way of one proof through them, drawn from crates.txt and the sources.

  map.py                fails if docs/map.md is not what would be drawn now, if a step of the proof's way is not there, or if the lines of crates.txt do not stand by level
  map.py --write        writes docs/map.md
  map.py --above NAME   the crates that an edit of NAME proves again

A layer holds the crates that build on crates of lower layers only, each as low as it can stand. A crate's line is the first sentence of its source, and a function's line is
the first sentence above it. The way of a request follows the calls in the code.
"""
import re
import sys
from pathlib import Path

root = Path(__file__).resolve().parent.parent
sys.path.insert(0, str(root))
from viewer.crates import above, below, dependencies  # noqa: E402

PAGE = root / "docs" / "map.md"
DEPS = dependencies()
START, OP, FOLLOWED = ("runner", "gurtxozal_run"), "serve_close", ("runner", "serve", "close")  # the request whose way is drawn, and the crates whose functions are followed
SMALL = ("words", "layout")  # reads of lent words: left out of the way, but for what the call itself (CALL) asks for
CALL = (START, ("runner", "run"))

# The way of the proof: file, name that stands there, what it says, and a name that the file must have
PROOF = [
    ("model/specs/Step.antt", "step", "the definition: the state that a request leaves, and its answer", None),
    ("close/src/lib.rt", "close", "the code's contract: it leaves the words that `close_r` gives", "close_r"),
    ("close/specs/Close.antt", "close_does", "words that represent a state come out as words that represent the state after `step`, with its answer", "close_r"),
    ("serve/specs/Steps.antt", "steps", "so do those of each of the requests, by their op", "close_does"),
    ("contract/proofs/Call.antt", "run_meets", "if each request does, the whole call does what `Meets` says", "Meets"),
    ("runner/specs/Both.antt", "run_both", "it is applied to the requests, to the state check and to the reading of the list", "run_meets"),
    ("runner/src/lib.rt", "gurtxozal_run", "the call's contract: its clause `meets` is `Meets`, of any words", "Meets"),
    ("promises/proofs/Demand1.antt", "demand_1", "from `Meets`: the call's result, and what a refusal leaves", "Meets"),
    ("promises/proofs/Demand2.antt", "demand_2", "from `Meets`: answers and state are those of the steps", "Meets"),
    ("invariant/proofs/Kept.antt", "kept", "beside the code: a step leaves a well-formed state well formed", "step"),
    ("noninterference/proofs/Theorem.antt", "held_and_plain", "beside the code: the held and the plain run of steps agree", "step"),
    ("promises/proofs/Demand3.antt", "demand_3", "from both: the held and the plain run of calls agree", "held_and_plain"),
]


def source(crate):
    return next(path for path in (root / "crates" / crate / "src" / f"{kind}.rt" for kind in ("lib", "main")) if path.is_file())


def sentence(lines):
    """The first sentence of comment lines; of a long one what stands before its colon."""
    text = re.split(r"(?<!\.)\. ", " ".join(line.strip()[2:].strip() for line in lines))[0].rstrip(".")
    return text if len(text) <= 160 else text.split(": ")[0]


def told(crate):
    """A crate's line."""
    lines = source(crate).read_text().split("\n")
    at = next(n for n, line in enumerate(lines) if line.startswith("//") and not re.match(r"// (SPDX|Ported from)", line))
    end = next(n for n in range(at, len(lines)) if not lines[n].startswith("//"))
    return sentence(lines[at:end])


def functions():
    """Every function: (crate, name) to its first sentence and its body; a method also under its name alone in `methods`."""
    out, methods = {}, set()
    for crate in DEPS:
        for path in sorted((root / "crates" / crate / "src").glob("**/*.rt")):
            lines = path.read_text().split("\n")
            for n, line in enumerate(lines):
                found = re.match(r'(\s*)(?:pub )?(?:extern "C" )?fn (\w+)', line)
                if not found:
                    continue
                end = next(k for k in range(n, len(lines)) if lines[k] == found.group(1) + "}")
                top = n
                while lines[top - 1].strip().startswith(("//", "#[")):
                    top -= 1
                said = sentence([l for l in lines[top:n] if l.strip().startswith("//")])
                out[crate, found.group(2)] = said, "\n".join(l for l in lines[n + 1 : end] if not re.match(r"\s*(ensures|requires|//)", l))
                if found.group(1):
                    methods.add((crate, found.group(2)))
    return out, methods


FUNCTIONS, METHODS = functions()


def calls(at):
    """The functions that a function calls, each once, in their order."""
    out = []
    for before, of, name in re.findall(r"(?:(\w+)(::|\.))?\b(\w+)\(", FUNCTIONS[at][1]):
        if before in DEPS and of == "::":
            to = [(before, name)]
        elif before:
            to = [(crate, name) for crate in DEPS if crate in below(at[0]) and (crate, name) in METHODS]
        else:
            to = [(at[0], name)]
        out += [f for f in to if f in FUNCTIONS and f not in out]
    return out


def way(at=START, depth=0):
    """The way of the request, a function on each line."""
    yield "  " * depth + "::".join(at), FUNCTIONS[at][0]
    if at[0] in FOLLOWED or at in (("lookup", "open_handle"), ("lookup", "find_handle")):
        for to in calls(at):
            if (at != ("serve", "serve") or to[1] == OP) and (to[0] not in SMALL or at in CALL):
                yield from way(to, depth + 1)


def columns(rows):
    width = max(len(row[0]) for row in rows) + 2
    return [(row[0].ljust(width) + row[1]).rstrip() for row in rows]


def levels():
    """The level of each crate: one more than the highest of those that it builds on."""
    level = {}

    def of(name):
        if name not in level:
            level[name] = 1 + max((of(d) for d in DEPS[name]), default=-1)
        return level[name]

    for name in DEPS:
        of(name)
    return level


def unordered():
    """The crates whose line in crates.txt stands below one of a higher level."""
    level = levels()
    names = list(DEPS)
    return [f"crates.txt: {b} (level {level[b]}) stands below {a} (level {level[a]})" for a, b in zip(names, names[1:]) if level[b] < level[a]]


def layers():
    level = levels()
    shown = lambda n: n + ("*" if source(n).name == "main.rt" else "")
    coded = lambda n: any(crate == n for crate, _ in FUNCTIONS)
    rows = [("", "what is said: definitions and theorems, no code", "what runs: code with its contracts and proofs")]
    for k in range(max(level.values()), -1, -1):
        here = [n for n in DEPS if level[n] == k]
        rows.append((str(k), " ".join(shown(n) for n in here if not coded(n)), " ".join(shown(n) for n in here if coded(n))))
    width = max(len(row[1]) for row in rows) + 2
    return [f"{a:>2}  {b.ljust(width)}{c}".rstrip() for a, b, c in rows]


def near(crate):
    """What a crate builds on and does not already reach through another."""
    return [d for d in DEPS[crate] if not any(d in below(other) for other in DEPS[crate] if other != d)]


def steps():
    """The lines of the proof's way, and what is not there."""
    rows, faults = [], []
    for file, name, said, cited in PROOF:
        text = (root / "crates" / file).read_text() if (root / "crates" / file).is_file() else ""
        declared = rf"\bfn {name}\b" if file.endswith(".rt") else rf"^ *(?:(?:abbrev|unfoldable|pub) )*(?:record )?{re.escape(name)}(?: \{{[^}}]*\}})? [:(]"
        if not re.search(declared, text, flags=re.M):
            faults.append(f"crates/{file} does not declare {name}")
        if cited and not re.search(rf"(?<![\w-]){re.escape(cited)}(?![\w-])", text):
            faults.append(f"crates/{file} does not cite {cited}")
        rows.append((f"{file:38} {name}", said))
    return columns(rows), faults


def page():
    crates = [f"| `{name}` | {told(name)} | {', '.join(near(name)) or '-'} |" for name in DEPS]
    return "\n".join(
        [
            "# A map of the crates",
            "",
            "Drawn by `tests/map.py --write` from crates.txt and the sources; the test fails when this page is out of date.",
            "",
            "## Layers",
            "",
            "A crate builds on crates of lower layers only. A star marks a program.",
            "",
            "```",
            *layers(),
            "```",
            "",
            "On the left stands what a reader must understand: `model` is document 01 as definitions, `representation` says which words stand for which state, `contract` what a call must do,",
            "`promises` what follows for the caller. On the right stands the code. It is ordered from reads of single words, at the bottom, to the call of a whole list; `authority`, `codec` and `format` have definitions of document 01 too.",
            "",
            "## The way of one request",
            "",
            "A kernel calls `gurtxozal_run` with a list in which one request is `close`. The functions called, in their order, and what is said above each in the source:",
            "",
            "```",
            *columns(list(way())),
            "```",
            "",
            "## The way of one proof",
            "",
            "What is proved of that request, from the definition to the demands. The path is from crates/; `close_r` and `Meets` are definitions that the lines share.",
            "",
            "```",
            *steps()[0],
            "```",
            "",
            "## The crates",
            "",
            "| crate | what it is | builds on (and on what these build on) |",
            "|---|---|---|",
            *crates,
            "",
        ]
    )


def main():
    words = sys.argv[1:]
    if len(words) == 2 and words[0] == "--above" and words[1] in DEPS:
        print(" ".join(above(words[1])))
        return 0
    if words not in ([], ["--write"]):
        print(__doc__.strip(), file=sys.stderr)
        return 2
    faults = steps()[1] + unordered()
    if words:
        PAGE.write_text(page())
    elif not PAGE.is_file() or PAGE.read_text() != page():
        faults.append("docs/map.md is out of date: tests/map.py --write")
    for fault in faults:
        print(fault)
    print(f"{len(DEPS)} crates, {len(list(way()))} functions on the request's way, {len(PROOF)} steps on the proof's")
    return 1 if faults else 0


if __name__ == "__main__":
    sys.exit(main())

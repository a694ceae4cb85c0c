#!/usr/bin/env python3
"""Every command that README.md and docs/ give can be given: each is run, or, where it takes minutes or is run by the gate already, its program, flags and files are looked up.

A command is a span in backticks, or an indented line, that begins with a program of PROGRAMS. FILE, CRATE, NAME and COMMIT stand for an example, the crate `basket` and the last commit, LOG for what `rt must-fail basket`
prints. What `rt` does in a crate's folder (INSIDE) is run in that of `basket`. A command that
writes files of the repository (WRITES) is run in a copy, and must leave there what stands here. The benchmark is run with `--short` added, and the tables that it prints must be those of
docs/performance.md. A command for which there is no rule is a fault. It prints what it ran, with the seconds, and what it only looked at, with the reason. docs/landings and docs/PORT.md, which tell
what was, are left to their time. The crates must be proved; where the port's libraries (c/test.sh makes them), the oracle (oracle/test.sh builds it) or the Rust's sources are missing, what
needs them is only looked at.
"""
import filecmp
import os
import re
import shlex
import shutil
import subprocess
import sys
import tempfile
import time
from pathlib import Path

from scratch import linked, root

PROGRAMS = r"(?:\./[\w.]+|rt [a-z]|(?:tests|tools|docs|c|oracle|\.ci)/[\w/-]+(?:\.py|\.sh)\b|\.ci/run|oracle/target/release/\w+|oracle [a-z]|cargo |grep |[A-Z_]+=\S+ )"
WRITES = ("--write", "--record", "record recorded", "rt fmt", "rt tidy", "tests/wrong.py", "docs/two-runs.py")
# what `rt` does in a crate's folder, and what `rt all` does
INSIDE = ("check", "verdict", "lib", "run", "test", "try", "fmt", "tidy", "expand", "plant")
ALL = ("check", "verdict", "test", "tidy")
BUILT = ("target", "out", ".git", "__pycache__")
# what tests/wrong.py leaves in the table that it writes are the seconds of its run
OWN = {"tests/wrong.py": ["docs/wrong-programs.md"]}
# commands of the oracle that take longer, and the scripts of the gate that run them; those that need the Rust
LONG = {"held": "oracle/test.sh", "port": "c/test.sh", "held-port": "c/test.sh"}
RUST = ("check", "record", "bench")
SELF = "tests/commands.py"
ORACLE = "oracle/target/release/oracle"
# words for `oracle run`: creation, and a call with two requests
WORDS = "create 1 1 1 4 1 0 7 3 0 ff 1 5\nb 5 0 2\n65 1 0 7 0\n"


def oracle():
    """The oracle as it was built, or nothing."""
    program = Path(os.environ.get("CARGO_TARGET_DIR", root / "oracle" / "target")) / "release" / "oracle"
    return program if program.is_file() else None


def libraries():
    """Whether the port's libraries are made."""
    return all((root / "target" / "staticlib" / f"lib{crate}.a").is_file() for crate in ("create", "runner"))


def sources():
    """Whether the Rust's sources are there (as oracle/common.sh looks for them)."""
    place = root / os.environ.get("ORACLE_RUST_SOURCES", "../shared/docs/src")
    return all((place / "src" / file).is_file() for file in ("authority.rs", "capability/handle/mod.rs", "capability/handle/storage.rs"))


def commands():
    """Each command with the documents that give it."""
    out = {}
    for path in [root / "README.md", *sorted((root / "docs").glob("*.md"))]:
        if path.name == "PORT.md":
            continue
        text = re.sub(r"^```.*?^```$", "", path.read_text(), flags=re.M | re.S)
        given = re.findall(r"`([^`\n]+)`", text) + re.findall(r"(?<=\n\n)    (\S.*)$", text, flags=re.M)
        for command in given:
            if re.match(PROGRAMS, command):
                out.setdefault(command.strip(), []).append(str(path.relative_to(root)))
    return out


def filled(command):
    """A command with what stands for its capital words, and what is left out in the text."""
    example = "held-rollback" if "--held" in command else "state" if "--state" in command else "old-value"
    command = re.sub(r"\b(?:CRATE|NAME)\b(?:\.\.)?", "basket", re.sub(r"\bFILE\b", f"examples/{example}.txt", command)).replace("COMMIT", "HEAD")
    if re.match(r"oracle [a-z]", command):
        command = f"{ORACLE} {command.split(maxsplit=1)[1]}"
    return {ORACLE: f"{ORACLE} sources", f"{ORACLE} run": f"{ORACLE} run WORDS"}.get(command, command)


def looked(command, known):
    """What is missing of a command's program, flags and files."""
    words = shlex.split(command)
    while words and re.match(r"[A-Z_]+=", words[0]):
        words.pop(0)
    program, rest = words[0], words[1:]
    if program == "rt":
        verbs = {verb for found in re.findall(r"\brt ([a-z][a-z|-]*)", known["rt"]) for verb in found.split("|")}
        yield from (f"rt has no {word}" for word in rest[:1] if word not in verbs)
        yield from (f"rt has no {word}" for word in rest if word.startswith("-") and not re.search(rf"(?<![\w-]){re.escape(word)}(?![\w-])", known["rt"]))
        if rest[:1] == ["all"]:
            yield from (f"rt all does no {word}" for word in rest[1:2] if word not in ALL)
        elif rest[0] in INSIDE:
            yield from (f"rt {rest[0]} is given in the crate's folder, without {word}" for before, word in zip(rest, rest[1:]) if not word.startswith("-") and not before.startswith("-"))
        elif rest[0] in ("ci", "must-fail"):
            yield from (f"there is no crate {word}" for word in rest[1:] if not word.startswith("-") and not (root / "crates" / word).is_dir())
    elif program in ("oracle", ORACLE):
        yield from (f"the oracle has no command {word}" for word in rest[:1] if not re.search(rf"^  {re.escape(word)}\b", known["oracle"], flags=re.M))
        yield from (f"the oracle has no {word}" for word in rest if word.startswith("--") and not re.search(rf"(?<![\w-]){re.escape(word)}(?![\w-])", (root / "oracle/src/main.rs").read_text() + known["oracle"]))
    elif program == "cargo":
        yield from (f"{word} is not there" for flag, word in zip(rest, rest[1:]) if flag == "--manifest-path" and not (root / word).is_file())
        if "--" in rest:
            yield from looked(shlex.join(["oracle", *rest[rest.index("--") + 1 :]]), known)
    else:
        script = root / program
        if not script.is_file():
            yield f"{program} is not there"
        elif not os.access(script, os.X_OK):
            yield f"{program} can't be run"
        else:
            yield from (f"{program} has no {word}" for word in rest if word.startswith("--") and not re.search(rf"(?<![\w-]){re.escape(word)}(?![\w-])", script.read_text()))


def part(command):
    """The command of the oracle that is given, or nothing."""
    words = shlex.split(command)
    if ORACLE in words:
        return words[words.index(ORACLE) + 1]
    return words[words.index("--") + 1] if "cargo" in words and "--" in words else None


def reason(command):
    """Why a command is only looked at, or nothing."""
    program = command.split()[0]
    gate = (root / "test.sh").read_text()
    if command == SELF:
        return "it is this test"
    if command in ("./test.sh", ".ci/run"):
        return "it is the gate"
    if command in ("rt ci", "rt all check") or program.endswith((".py", ".sh")) and command in (program, f"{program} LOG") and program in gate and program != "./run.py":
        return "the gate runs it"
    if command == "rt must-fail":
        return "it is named without a crate"
    if command == "c/libraries.py" and command in (root / "c" / "test.sh").read_text():
        return "it takes minutes, and c/test.sh runs it"
    if program == "tests/wrong.py" and "--gate" not in command:
        return "it takes minutes; with --gate and a small crate it is run"
    if part(command) in LONG and re.search(rf"^ *part {part(command)}\b", (root / LONG[part(command)]).read_text(), flags=re.M):
        return f"it takes longer, and {LONG[part(command)]} runs it"
    if (program in ("./run.py", "tests/embedding.py", "tools/placements.py") or "ORACLE_PORT=" in command) and not libraries():
        return "not run: the port's libraries are not made"
    if ("--oracle" in command or "cargo " in command) and shutil.which("cargo") is None:
        return "not run: there is no cargo"
    if program == ORACLE and oracle() is None:
        return "not run: the oracle is not built"
    if part(command) in RUST and not sources():
        return "not run: the Rust's sources are not there"
    return ""


def copy(folder):
    """The copy of the repository in a folder, made where there is none yet: all but what is built, which is linked."""
    at = folder / "main"
    if not at.is_dir():
        shutil.copytree(root, at, symlinks=True, ignore=shutil.ignore_patterns(*BUILT))
        for place, link in ((root / "target", at / "target"), (root / "oracle" / "target", at / "oracle" / "target"), (root.parent / "shared", folder / "shared")):
            if place.exists():
                link.symlink_to(place)
        for built in root.glob("crates/*/out/rlib"):
            shutil.copytree(built, at / built.relative_to(root), copy_function=linked)
    return at


def files(top):
    """Every file of the repository or of a copy, but for what is built."""
    for here, folders, names in os.walk(top):
        folders[:] = [name for name in folders if name not in BUILT]
        yield from (Path(here, name).relative_to(top) for name in names if name not in BUILT)


def unlike(at):
    """What a command has written in the copy that differs from what stands in the repository; the copy is then as it was."""
    for file in sorted({*files(root), *files(at)}):
        if not (root / file).is_file():
            (at / file).unlink()
            yield str(file)
        elif not (at / file).is_file() or not filecmp.cmp(root / file, at / file, shallow=False):
            shutil.copy2(root / file, at / file)
            yield str(file)


def run(line, folder):
    """Runs a command: what is wrong with it."""
    program, here = line.split()[0], root
    writes = any(word in line for word in WRITES)
    if writes:
        here = copy(folder)
    elif line.startswith("cargo build"):  # docs/oracle.md gives it for the folder oracle
        here = root / "oracle"
    if re.match(rf"rt (?:{'|'.join(INSIDE)})\b", line):
        here = here / "crates" / "basket"
    (folder / "words").write_text(WORDS)
    if line.endswith(" LOG"):
        (folder / "log").write_text(subprocess.run(["rt", "must-fail", "basket"], cwd=root, capture_output=True, text=True).stdout)
    given = line.replace(ORACLE, str(oracle())) if program == ORACLE else line
    bench = part(line) == "bench"
    done = subprocess.run(["bash", "-c", re.sub(r"\bLOG$", str(folder / "log"), re.sub(r"\bWORDS$", str(folder / "words"), given)) + (" --short" if bench else "")], cwd=here, capture_output=True, text=True, timeout=600)
    if done.returncode != 0:
        yield f"ends with status {done.returncode}: {(done.stdout + done.stderr)[-500:]}"
    if writes:
        yield from (f"leaves another {file}" for file in unlike(copy(folder)) if file not in OWN.get(program, []))
    if bench:
        heads = re.findall(r"^(\|.*\|)\n\|-", done.stdout, flags=re.M)
        page = (root / "docs" / "performance.md").read_text()
        yield from (f"prints a table that docs/performance.md does not have: {head}" for head in heads if head not in page)
        if len(heads) != 3 or len(re.findall(r"^\| [\d,]+ \|", done.stdout, flags=re.M)) < 3:
            yield f"does not print its three tables with a row each: {done.stdout[-500:]}"


WRONG = [  # commands in which something must be missing
    "rt nothing",
    "rt check nothing",
    "rt check --nothing",
    "rt all nothing",
    "rt must-fail nothing",
    "tests/nothing.py",
    "tests/wrong.py --gat",
    "oracle bench --nothing",
    "tests/map.py --nothing",
    "./nothing.sh",
    "oracle nothing",
    "cargo run --manifest-path nothing/Cargo.toml -- bench",
    "cargo run --manifest-path oracle/Cargo.toml -- nothing",
    "ORACLE_PORT=target/staticlib tests/nothing.py",
    "tests/must-fail.txt",
]


def main():
    faults, ran, only = [], {}, []
    helped = [subprocess.run(["rt", word], capture_output=True, text=True) for word in ("help", "doc")]
    page = Path(helped[1].stdout.strip())
    known = {"rt": helped[0].stdout + helped[0].stderr + (page.read_text() if page.is_file() else ""), "oracle": (root / "oracle" / "src" / "main.rs").read_text()}
    began = time.time()
    faults += [f"nothing is found to be missing in: {command}" for command in WRONG if not list(looked(command, known))]
    with tempfile.TemporaryDirectory() as folder:
        for command, given in sorted(commands().items()):
            line = filled(command)
            try:
                faults += [f"{given[0]}: `{command}`: {missing}" for missing in looked(line, known)] if not line.startswith("grep ") else []
                why = reason(line)
                if why:
                    only.append((why, command))
                elif line not in ran:
                    start = time.time()
                    faults += [f"{given[0]}: `{command}` {fault}" for fault in run(line, Path(folder))]
                    ran[line] = time.time() - start
            except (ValueError, IndexError, subprocess.TimeoutExpired) as fault:
                faults.append(f"{given[0]}: `{command}`: {fault}")
    for line, seconds in ran.items():
        print(f"ran: {line} ({seconds:.1f} s)")
    for why in sorted({why for why, _ in only}):
        print(f"looked at, {why}: {'; '.join(command for w, command in only if w == why)}")
    for fault in faults:
        print(fault)
    print(f"{len(ran)} commands run, {len(only)} looked at, {time.time() - began:.0f} s")
    return 1 if faults or not ran or not only else 0


sys.exit(main())

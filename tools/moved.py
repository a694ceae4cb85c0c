#!/usr/bin/env python3
"""Lists what moved from specs/ to proofs/ since a commit, each statement whole: the appendix of docs/PORT.md.

usage: tools/moved.py FOLDER     at the top of the repository; FOLDER has crates/ as they stood at that commit, in today's spelling
"""
import glob
import os
import re
import sys

HEAD = re.compile(r"^( *)((?:abbrev |unfoldable |pub |record |data )*)([A-Za-z_][\w'◌-]*)((?: (?:\{[^{}]*\}|\([^()]*\)))*) :(?= |$)")


def items(text):
    """The items of a module: name, words in front of it, signature; those in `module _` blocks too, not those of a `where` or a record's fields."""
    lines = text.split("\n")
    found = []
    depth = None  # the indentation of a record, a data or a where, whose lines are left out
    at = 0
    while at < len(lines):
        line = lines[at]
        here = len(line) - len(line.lstrip())
        if line.strip() and depth is not None and here <= depth:
            depth = None
        m = HEAD.match(line)
        if m and depth is None and not line.lstrip().startswith("--"):
            end = at + 1
            while end < len(lines) and lines[end].strip() and len(lines[end]) - len(lines[end].lstrip()) > here + 2 and not re.match(r"\s*--", lines[end]):
                if "record" in m[2] or "data" in m[2]:
                    break
                end += 1
            found.append((m[3], m[2].split(), " ".join(x.strip() for x in lines[at:end])))
            if "record" in m[2] or "data" in m[2]:
                depth = here
            at = end
            continue
        if re.search(r"\bwhere\s*$", line) and not re.match(r"\s*module\b", line) and depth is None:
            depth = here
        at += 1
    return found


def modules(folder):
    return {os.path.basename(p)[:-5]: open(p, encoding="utf-8").read() for p in sorted(glob.glob(folder + "/*.antt")) if os.path.basename(p) != "Lib.antt"}


def main(old):
    for crate in sorted(os.listdir("crates")):
        was = modules(f"{old}/crates/{crate}/specs")
        now = modules(f"crates/{crate}/proofs")
        stays = {(name, sig) for text in modules(f"crates/{crate}/specs").values() for name, _, sig in items(text)}
        told = []
        for module, text in was.items():
            for name, words, sig in items(text):
                if (name, sig) in stays:
                    continue
                to = [m for m, t in now.items() if any(n == name for n, _, _ in items(t))]
                to = [module] if module in to else to
                told.append((module, to[0] if to else None, name, words, sig))
        if not told:
            continue
        print(f"\n### {crate}\n")
        last = None
        for module, to, name, words, sig in told:
            if (module, to) != last:
                print(f"\n`specs/{module}.antt` to " + (f"`proofs/{to}.antt`" if to else "NOWHERE") + ":\n")
                last = (module, to)
            print(f"    {sig}")


if __name__ == "__main__":
    main(*sys.argv[1:])

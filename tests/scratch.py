"""A copy of the crates for tests that change something or add a crate. It stands outside the checkout: `rt ci` reads each .rt and .antt file that stands in it."""
import os
import shutil
import sys
from pathlib import Path

root = Path(__file__).resolve().parent.parent
sys.path.insert(0, str(root))
from viewer.crates import above, below, dependencies  # noqa: E402,F401


def copied(scratch, top=None, changed=None):
    """Copies the crates, with the libraries that were proved of them (`rt all check`), so that only what a change touches is proved again: all of them, or those that `top` builds on. A library is not
    copied but linked, file by file; of the crate `changed` and of those above it, which are proved anew, nothing is taken over. (What an earlier check kept of a crate's proofs `rt` takes over by itself.)"""
    deps = dependencies()
    wanted = set(deps) if top is None else below(top)
    (scratch / "crates").mkdir()
    for name in wanted:
        shutil.copytree(root / "crates" / name, scratch / "crates" / name, ignore=lambda folder, names: {"out"} if Path(folder) == root / "crates" / name else set())
    # the lines as they stand: rt takes a crate for unchanged only then
    lines = (root / "crates.txt").read_text().splitlines(keepends=True)
    (scratch / "crates.txt").write_text("".join(l for l in lines if set(dependencies(l)) & wanted))
    for name in wanted:
        built = root / "crates" / name / "out" / "rlib"
        if (changed is None or changed not in below(name)) and (built / "stamp").is_file():
            shutil.copytree(built, scratch / "crates" / name / "out" / "rlib", copy_function=linked)
    return scratch


def linked(source, target):
    try:
        os.link(source, target)
    except OSError:  # another file system
        shutil.copy2(source, target)


def modules(crate, name):
    """The files of a module of definitions or of statements: specs/NAME.antt, proofs/NAME.antt, or both."""
    return [path for path in (root / "crates" / crate / part / f"{name}.antt" for part in ("specs", "proofs")) if path.is_file()]

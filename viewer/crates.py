"""The crates of crates.txt and what builds on what."""
import re
from pathlib import Path

root = Path(__file__).resolve().parent.parent


def dependencies(text=None):
    """The crates of crates.txt, each with those of the repository that it builds on."""
    out = {}
    for line in ((root / "crates.txt").read_text() if text is None else text).split("\n"):
        head, colon, rest = re.sub(r"#.*", "", line).partition(":")
        if colon:
            out[head.split()[0]] = rest.split()  # behind the name the line may say what the crate is, as `staticlib`
    return {name: [d for d in rest if d in out] for name, rest in out.items()}


def below(crate):
    """A crate and all that it builds on."""
    deps, out, left = dependencies(), set(), [crate]
    while left:
        name = left.pop()
        if name not in out:
            out.add(name)
            left += deps[name]
    return out


def above(crate):
    """A crate and all that build on it: what is proved again after an edit of it, in the order of crates.txt."""
    return [name for name in dependencies() if crate in below(name)]

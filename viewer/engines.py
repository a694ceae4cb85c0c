"""What runs a list: the proved code behind its C calls, or the oracle. An engine has a state; `run` takes a list's words and gives the call's result and the
first answer, `state` gives the state's words, `fork` another engine with an equal state."""
import copy
import ctypes
import os
import re
import shutil
import subprocess
import tempfile
from pathlib import Path

from viewer.lists import Fault
from viewer.proofs import LIBRARIES, made

root = Path(__file__).resolve().parent.parent
NOT_CREATED = "creation gives 18: a parameter is outside its limits (docs/formats.md)"


class Port:
    """The proved code, behind its C calls (c/gurtxozal.h)."""

    name = "the proved code"

    def __init__(self, create):
        folder = made()
        with tempfile.TemporaryDirectory() as work:
            shared = f"{work}/gurtxozal.so"
            parts = [str(folder / f"lib{crate}.a") for crate in LIBRARIES]
            linked = subprocess.run(["cc", "-shared", "-o", shared, "-Wl,--whole-archive", *parts, "-Wl,--no-whole-archive"], capture_output=True, text=True)
            if linked.returncode != 0:
                raise Fault(linked.stderr)
            self.library = ctypes.CDLL(shared)
        for call in (self.library.gurtxozal_create, self.library.gurtxozal_run):
            call.restype = ctypes.c_uint64
        tables, frames, objects, rows = create[:4]
        pages = sum(create[4 : 4 + 2 * tables : 2])
        words = 16 + 16 * tables + 5 * pages + frames + -(-frames // 16) - (-frames // 256) - (-frames // 4096) + 384 * frames + 8 * objects + 392 * rows
        if words > 46_340_255:
            raise Fault(NOT_CREATED)
        self.words = self.lent([0] * words)
        if self.call(self.library.gurtxozal_create, self.words, self.lent(create)) != 0:
            raise Fault(NOT_CREATED)

    def lent(self, numbers):
        return (ctypes.c_uint64 * len(numbers))(*numbers)

    def call(self, function, *slices):
        return function(*[x for words in slices for x in (words, ctypes.c_size_t(len(words)))])

    def run(self, words):
        answer = self.lent([0] * 72)
        return self.call(self.library.gurtxozal_run, self.words, self.lent(words), answer), list(answer)

    def state(self):
        return list(self.words)

    def fork(self):
        other = copy.copy(self)
        other.words = self.lent(self.state())
        return other


class Oracle:
    """The oracle, which runs the lists so far again from creation."""

    def __init__(self, create):
        if shutil.which("cargo") is None:
            raise Fault("cargo is not on the PATH, and the oracle is built with it")
        build = subprocess.run(["cargo", "build", "--release", "--offline", "--quiet"], cwd=root / "oracle", capture_output=True, text=True)
        if build.returncode != 0:
            raise Fault(build.stderr)
        target = Path(os.environ.get("CARGO_TARGET_DIR", root / "oracle" / "target"))
        self.program = str(target / "release" / "oracle")
        rust = subprocess.run([self.program, "sources"], capture_output=True, text=True)
        self.subject = "rust" if rust.returncode == 0 and "authority" in rust.stdout else "reading"
        self.name = "the Rust" if self.subject == "rust" else "the plain reading of document 01"
        self.create, self.lists = create, []
        self.replay([])

    def told(self, command, text, *more):
        """What a command of the oracle prints on a file with this text."""
        with tempfile.NamedTemporaryFile("w", suffix=".txt") as work:
            work.write(text)
            work.flush()
            done = subprocess.run([self.program, command, work.name, *more], capture_output=True, text=True)
        if done.returncode != 0:
            raise Fault(done.stderr.strip() or done.stdout.strip())
        return done.stdout

    def replay(self, lists):
        """The results, the answers and the state's text after these lists."""
        hexed = lambda words: " ".join(f"{w:x}" for w in words) + "\n"
        lines = self.told("run", "create " + hexed(self.create) + "".join(map(hexed, lists)), self.subject).split("\n")
        stopped = [line for line in lines if line.startswith("not comparable")]
        if stopped:
            raise Fault(f"the Rust stops here, {stopped[0]} (docs/DIFFERENCES.md)")
        results = [int(line.split()[1]) for line in lines if line.startswith(("start ", "result "))]
        if results[0] != 0:
            raise Fault(NOT_CREATED)
        answers = [uncoded(line.split(" ", 1)[1]) for line in lines if line.startswith("answer ")]
        return results[1:], answers, "\n".join(lines[lines.index("state") :]) if "state" in lines else ""

    def run(self, words):
        results, answers, _ = self.replay(self.lists + [words])
        if results[-1] != 0:
            return results[-1], [0] * 72
        self.lists.append(words)
        return 0, answers[-1]

    def state(self):
        return uncoded(self.told("words", self.replay(self.lists)[2]))

    def fork(self):
        other = copy.copy(self)
        other.lists = list(self.lists)
        return other


def uncoded(text):
    """Words from their coded form (docs/oracle.md): `w*n` is n times w, `(a b+s)*n` the block n times, a word with +s rising by s."""
    out = []
    for block, times, word, more in re.findall(r"\(([^)]*)\)\*(\d+)|([0-9a-f]+)(?:\*(\d+))?", text):
        if word:
            out += [int(word, 16)] * int(more or 1)
            continue
        parts = [(int(first, 16), int(step or "0", 16)) for first, _, step in (part.partition("+") for part in block.split())]
        out += [(first + n * step) % 2**64 for n in range(int(times)) for first, step in parts]
    return out

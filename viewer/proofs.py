"""The proved code's two libraries: found, or proved and compiled."""
import os
import re
import shutil
import subprocess
import sys
import time

from viewer.crates import below, root
from viewer.lists import Fault

LIBRARIES = ("create", "runner")  # the crates of the two C calls; the static library of each is that of NAME_c, which exports the call


def made():
    """The folder of the two libraries. Where one is missing, or older than the code, the crates are proved and compiled; each is named on the error output as it is proved."""
    folder = root / "target" / "staticlib"
    crates = set().union(*(below(f"{crate}_c") for crate in LIBRARIES))
    newest = max(path.stat().st_mtime for crate in crates for path in root.glob(f"crates/{crate}/src/**/*.rt"))
    old = [crate for crate in LIBRARIES if not (folder / f"lib{crate}.a").is_file() or (folder / f"lib{crate}.a").stat().st_mtime < newest]
    if old and shutil.which("rt") is None:
        raise Fault(f"{folder}/lib{old[0]}.a is not there, and the Rattle toolchain's command 'rt', which makes it, is not on the PATH")
    if old:
        Proofs(old).all()
    return folder


class Proofs:
    """Proves the crates of the calls, as many at a time as `rt` chooses (or RT_JOBS says), and compiles the calls; says after each crate how many are left and the time so far."""

    def __init__(self, libraries, top=root, crates=None):
        self.libraries, self.top, self.began, self.kept = libraries, top, time.time(), 0
        self.left = set().union(*(below(f"{name}_c") for name in libraries)) if crates is None else set(crates)

    def say(self, text):
        print(text, file=sys.stderr, flush=True)

    def all(self):
        self.say(f"{len(self.left)} crates are proved and the C calls compiled, once; this takes some minutes")
        jobs = ["--jobs", os.environ["RT_JOBS"]] if os.environ.get("RT_JOBS", "").isdigit() else []
        for name in self.libraries:
            self.run(name, "all", "check", *jobs)
            if self.kept:
                self.say(f"  {self.kept} were proved before; {self.so_far()}")
                self.kept = 0
            self.say(f"  {name}: compiled now ..")
            self.run(name, "lib")
            self.copy(name)
            self.say(f"  {name}: done; {self.so_far()}")

    def run(self, name, *words):
        """Runs `rt` in the folder of a static library. `rt all check` prints of each crate, once it has ended, '== NAME' and what its check said, and at the end '== summary'."""
        said, crate, verdict = [], None, "kept"
        with subprocess.Popen(["rt", *words], cwd=self.top / "crates" / f"{name}_c", stdout=subprocess.PIPE, stderr=subprocess.STDOUT, text=True) as rt:
            for line in rt.stdout:
                said.append(line)
                head = re.fullmatch(r"== (\w+)\n", line)
                if head:
                    self.ended(crate, verdict)
                    crate, verdict = head.group(1), "kept"  # where nothing is checked, since an earlier check proved the same, it has no verdict of its own
                elif line.startswith("logic="):
                    verdict = line.split()[0]
        if rt.returncode != 0:
            told = [line for line in said if re.search(r"error|not proved|no proof|could not|did not|not run|failed", line)]
            raise Fault("".join((told or said)[-20:])[-2000:])

    def ended(self, crate, verdict):
        """A crate's part of the log is over."""
        if crate in self.left and verdict in ("kept", "logic=proved"):
            self.left.discard(crate)
            if verdict == "kept":
                self.kept += 1
            else:
                self.say(f"  {crate}: proved; {self.so_far()}")

    def copy(self, name):
        """The library under the name by which it is linked."""
        folder = self.top / "target" / "staticlib"
        folder.mkdir(parents=True, exist_ok=True)
        shutil.copyfile(self.top / "crates" / f"{name}_c" / "out" / f"lib{name}_c.a", folder / f"lib{name}.a.new")
        os.replace(folder / f"lib{name}.a.new", folder / f"lib{name}.a")

    def so_far(self):
        seconds = int(time.time() - self.began)
        return f"{len(self.left)} left, {seconds // 60}:{seconds % 60:02} so far"

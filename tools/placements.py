#!/usr/bin/env python3
"""The time of the state check by where its code stands in memory. A loop of a few lines takes up to a fifth longer where its jumps lie badly in the processor's lines of 32 bytes, and any change of code
before it moves it: so one build of the code says little of how fast it is. Here the code of a library is put at each of 32 places, a byte apart, and the check of 64 pages is timed at each, in turn.

  tools/placements.py [--rounds N] [LIBRARY..]      target/staticlib/librunner.a, or archives like it of other sources

For each library, with handles of one object and of all objects in turn: the least, the middle and the greatest of the 32 times, each the time below which a
hundredth of the runs at that place lie (what else the machine does makes some runs longer, none shorter). It needs cc and the libraries of c/libraries.py; 60 rounds of two libraries take some ten seconds.
"""
import statistics
import struct
import subprocess
import sys
import tempfile
from pathlib import Path

root = Path(__file__).resolve().parent.parent
made = root / "target" / "staticlib"
PLACES = 32


def run(*words, **more):
    return subprocess.run([str(word) for word in words], check=True, capture_output=True, text=True, **more).stdout


def packed(file):
    """The object file with its sections of code aligned to 1, so that they move together with what stands before them. Each section's head has the place of its name first, and its alignment at 48."""
    code = bytearray(file.read_bytes())
    (heads,), (count, names) = struct.unpack_from("<Q", code, 0x28), struct.unpack_from("<HH", code, 0x3C)
    (text,) = struct.unpack_from("<Q", code, heads + 64 * names + 24)
    for head in range(heads, heads + 64 * count, 64):
        name = text + struct.unpack_from("<I", code, head)[0]
        if code.startswith(b".text", name):
            struct.pack_into("<Q", code, head + 48, 1)
    file.write_bytes(code)


def placed(archive, folder):
    """The archive's code as a library file for each place."""
    folder.mkdir()
    run("ar", "x", archive, cwd=folder)
    objects = sorted(folder.iterdir())
    for file in objects:
        packed(file)
    for place in range(PLACES):
        pad = folder / f"{place}.s"
        pad.write_text(f'.section .text,"ax"\n.balign 4096\n.fill {place + 1}, 1, 0x90\n.section .note.GNU-stack,""\n')
        run("cc", "-shared", "-o", folder / f"{place}.so", pad, *objects)
    return [folder / f"{place}.so" for place in range(PLACES)]


def main(words):
    rounds = 60
    if words[:1] == ["--rounds"] and len(words) > 1 and words[1].isdigit():
        rounds, words = int(words[1]), words[2:]
    if any(word.startswith("-") for word in words):
        sys.exit(__doc__.strip())
    archives = [Path(word).resolve() for word in words] or [made / "librunner.a"]
    missing = [file for file in (*archives, made / "librunner.a", made / "libcreate.a") if not file.is_file()]
    if missing:
        sys.exit(f"tools/placements.py: {missing[0]} is not there (c/libraries.py makes it)")
    with tempfile.TemporaryDirectory() as place:
        folder = Path(place)
        program = folder / "placements"
        run("cc", "-std=c11", "-O2", "-Wall", "-Wextra", "-Werror", "-I", root / "c", "-o", program, root / "tools" / "placements.c", made / "libcreate.a", made / "librunner.a", "-ldl")
        libraries = [placed(archive, folder / str(number)) for number, archive in enumerate(archives)]
        print("| library | handles | least | middle | greatest |\n|---|---|---|---|---|")
        for word, told in (("one", "of one object"), ("turn", "of all objects in turn")):
            out = run(program, word, rounds, *(file for files in libraries for file in files)).splitlines()
            low = [int(line.split()[0]) for line in out]
            for number, archive in enumerate(archives):
                times = low[number * PLACES : (number + 1) * PLACES]
                print(f"| {archive} | {told} | {min(times)} ns | {statistics.median(times):.0f} ns | {max(times)} ns |")


if __name__ == "__main__":
    try:
        main(sys.argv[1:])
    except subprocess.CalledProcessError as fault:
        sys.exit(f"tools/placements.py: {fault.cmd[0]} failed\n{fault.stderr}")

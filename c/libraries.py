#!/usr/bin/env python3
"""Makes the static libraries of the two C calls, target/staticlib/libcreate.a and librunner.a (c/gurtxozal.h): proves the crates that they build on, where that was not done before
(`rt all check`), compiles the exports of crates/create_c and crates/runner_c (`rt lib`), and copies each archive under its name.

  c/libraries.py            both
  c/libraries.py NAME..     create, runner
"""
import sys
from pathlib import Path

sys.path.insert(0, str(Path(__file__).resolve().parent.parent))
from viewer.lists import Fault  # noqa: E402
from viewer.proofs import LIBRARIES, Proofs  # noqa: E402

names = sys.argv[1:] or list(LIBRARIES)
if any(name not in LIBRARIES for name in names):
    sys.exit(__doc__.strip())
try:
    Proofs(names).all()
except FileNotFoundError as fault:
    sys.exit(f"c/libraries.py: {fault.filename} is not there")
except Fault as fault:
    sys.exit(f"c/libraries.py: {fault}")

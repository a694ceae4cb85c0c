#!/usr/bin/env bash
# For a kernel's author: the functions of c/gurtxozal_calls.h against words written by hand (c/calls.c), and the story of c/till.c on the port against c/till.out. No
# arguments. Status 0 only if both hold; 3 where there is no C compiler.
set -u
cd "$(dirname "$0")/.." || exit 2
command -v cc >/dev/null 2>&1 || {
  echo "there is no C compiler here"
  exit 3
}
work=$(mktemp -d) || exit 2
trap 'rm -rf "$work"' EXIT
failed=0
flags="-std=c11 -pedantic -Wall -Wextra -Wconversion -Werror -Ic"
# shellcheck disable=SC2086
cc $flags c/calls.c -o "$work/calls" && "$work/calls" || failed=1
if command -v c++ >/dev/null 2>&1; then
  echo '#include "gurtxozal_calls.h"' | c++ -std=c++17 -pedantic -Wall -Wextra -Werror -Ic -x c++ -fsyntax-only - || failed=1
fi
for crate in runner create; do
  [ -f "target/staticlib/lib$crate.a" ] || c/libraries.py "$crate" >"$work/out" 2>&1 || {
    tail -n 5 "$work/out"
    exit 1
  }
done
# shellcheck disable=SC2086
if cc $flags c/till.c target/staticlib/librunner.a target/staticlib/libcreate.a -o "$work/till" && "$work/till" >"$work/story"; then
  diff "$work/story" c/till.out || failed=1
else
  tail -n 1 "$work/story"
  failed=1
fi
exit $failed

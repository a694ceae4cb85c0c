#!/usr/bin/env bash
# axioms.sh LOG: fails if a crate rests on an axiom or an assumed contract. LOG is what 'rt ci' printed: it must say of every crate that it is proved, now or by an earlier run over the same files
# ('NAME is kept'), and each verdict line in it must be 'logic=proved', without C functions of the crate's own. A crate that declares an axiom is not proved; that none does, and no C function, is
# seen in the sources too. What a static library or a program rests on of the toolchain's C functions the checker lists ('axioms LIBRARY: ..') when it checks it, over what was proved: of the two
# static libraries it must be nothing. The program `replay` alone reads and writes: it rests on the contracts of C's read and write, and on nothing else.
cd "$(dirname "$0")/.." || exit 2
program=replay
libraries="create_c runner_c"
named='libc::(read|write)'
if [ ! -f "${1:-}" ]; then
  echo "usage: tests/axioms.sh LOG (LOG is what 'rt ci' printed)"
  exit 2
fi
crates=$(sed -e 's/#.*//' -e '/:/!d' -e 's/[ :].*//' crates.txt)
[ -n "$crates" ] || exit 2
for crate in $crates; do
  if ! grep -aqE "^rt: $crate (proved|is kept: an earlier run on this machine proved )" "$1"; then
    echo "the log does not say that $crate is proved"
    exit 1
  fi
done
if grep -anE '^logic=' "$1" | grep -vE '^[0-9]+:logic=proved '; then
  exit 1
fi
if grep -anE '^logic=.* foreign=' "$1"; then
  exit 1
fi
# the verdict lines of the log that count axioms: the program's, once; and no other crate is named with some
if [ "$(grep -acE '^logic=.* axioms=[1-9]' "$1")" -gt 1 ]; then
  echo "more than one crate rests on axioms"
  exit 1
fi
for crate in $libraries $program; do
  if ! told=$(cd "crates/$crate" && rt check --list-axioms 2>&1); then
    echo "$crate is not proved: $(tail -n 1 <<<"$told")"
    exit 1
  fi
  verdict=$(grep '^logic=' <<<"$told" | tail -n 1)
  reached=$(sed -nE 's/^  ([^ ]+) +reached$/\1/p' <<<"$told")
  if [[ $verdict != "logic=proved "* ]] || ! grep -qE '^axioms libc: ([0-9]+|none) reached' <<<"$told"; then
    echo "what $crate rests on is not listed: $(tail -n 1 <<<"$told")"
    exit 1
  fi
  if [ "$crate" != "$program" ]; then
    if [ -n "$reached" ] || [[ $verdict == *" axioms="* ]] || grep -E '^axioms .*: [1-9][0-9]* reached' <<<"$told"; then
      echo "$crate rests on C functions: $reached"
      exit 1
    fi
  elif grep -vxE "$named" <<<"$reached"; then
    echo "$program rests on more than C's read and write"
    exit 1
  elif [[ $verdict != *" axioms=$(grep -c . <<<"$reached") "* ]]; then
    echo "what $program rests on is not what its verdict counts: $verdict"
    exit 1
  fi
done
if sed -e 's/#.*//' crates.txt | grep -nE ':.*\b(libc|os)\b' || sed -e 's/#.*//' crates.txt | grep -v "^$program:" | grep -nE ':.*\bio\b'; then
  exit 1
fi
if [ -e HANDLES ] && ! grep -qx 'Handles allowed: none\.' HANDLES; then
  exit 1
fi
if grep -rnE '^[[:space:]]*(pub[[:space:]]+)?axiom[[:space:]]' --include='*.antt' crates/*/specs crates/*/proofs; then
  exit 1
fi
if grep -rnE '^[[:space:]]*(unsafe[[:space:]]+)?extern "C" *\{' --include='*.rt' crates/*/src; then
  exit 1
fi

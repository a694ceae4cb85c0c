#!/usr/bin/env bash
# Tests the repository: `rt ci` (every crate proved, the must-fail edits of crates/*/must-fail tried, every program run), then what stands beside the crates, two tests at
# a time. What could not be run here is counted as neither and listed before the end. The last line is 'N passed, M failed'; the exit status is 0 only if M is 0.
# How long the parts take: docs/budget.md.
set -u
cd "$(dirname "$0")" || exit 2
passed=0
failed=0
unrun=()

ok() { passed=$((passed + 1)); echo "ok: $1"; }
bad() { failed=$((failed + 1)); echo "FAILED: $1"; }
skipped() { unrun+=("$1"); echo "not run: $1"; }
# said NAME FILE: keeps what a test says that it left out, for the end
said() {
  local line
  while IFS= read -r line; do unrun+=("$1: $line"); done < <(grep -iE 'not run|not compared|no cargo|left out|cut before' "$2")
}
verdict() { # verdict NAME STATUS LOG: one test that has ended; status 3 means that it could not be run here
  cat "$3"
  case $2 in
    0)
      ok "$1"
      said "$1" "$3"
      ;;
    3) skipped "$1 ($(tail -n 1 "$3"))" ;;
    *) bad "$1" ;;
  esac
}
check() { # check NAME COMMAND..: one test
  local name=$1
  shift
  "$@" >"$logs/check" 2>&1
  verdict "$name" $? "$logs/check"
}
count() { # count NAME FILE: adds the closing line 'N passed, M failed' of a log, behind which there may be brackets; without one, or where nothing passed, it is a failure
  local line n m
  line=$(tail -n 1 "$2" | sed -nE 's/^(.*[^0-9])?([0-9]+ passed, [0-9]+ failed)( \(.*\))?$/\2/p')
  if [ -z "$line" ]; then
    bad "$1: no closing line"
    return
  fi
  n=${line%% *}
  m=${line#*, }
  m=${m%% *}
  passed=$((passed + n))
  failed=$((failed + m))
  echo "$1: $line"
  if [ "$((n + m))" -eq 0 ]; then bad "$1: it ran nothing"; fi
}

# lane SCRIPT..: scripts one after the other; what each printed, its status and its seconds are kept. Two lanes run beside each other, each with one job
lane() {
  local script began
  for script in "$@"; do
    began=$SECONDS
    RT_JOBS=1 "$script" >"$logs/${script//\//-}.out" 2>&1
    echo "$? $((SECONDS - began))" >"$logs/${script//\//-}.end"
  done
}
ended() { # ended SCRIPT [NAME]: a script that ran in a lane; without a name its closing line is counted
  local log=$logs/${1//\//-} status=none seconds=0
  if [ -f "$log.end" ]; then read -r status seconds <"$log.end"; else echo "it did not end" >>"$log.out"; fi
  if [ $# -eq 2 ]; then
    verdict "$2" "$status" "$log.out"
  else
    cat "$log.out"
    if [ "$status" = 3 ]; then
      skipped "$1 ($(tail -n 1 "$log.out"))"
    else
      count "$1" "$log.out"
      check "$1 ends with status 0" test "$status" = 0
      said "$1" "$log.out"
    fi
  fi
  echo "$1: $seconds s"
}

command -v rt >/dev/null 2>&1 || {
  echo "test.sh: the Rattle toolchain's command 'rt' is not on the PATH"
  exit 2
}
logs=$(mktemp -d) || exit 2
trap 'rm -rf "$logs"' EXIT
start=$SECONDS

# Every folder of crates/ is listed in crates.txt, and every listed crate is there.
listed=$(sed -e 's/#.*//' -e '/:/!d' -e 's/[ :].*//' crates.txt | sort)
present=$(find crates -mindepth 1 -maxdepth 1 | sed 's,crates/,,' | sort)
if [ "$listed" = "$present" ]; then ok "every crate is listed"; else
  bad "crates.txt and crates/ differ:"
  diff <(echo "$listed") <(echo "$present") | grep '^[<>]'
fi

# The proofs, the must-fail edits, the layout of the files and the programs, of all crates as they stand in this checkout. What `rt ci` printed stays in target/rt-ci.log.
rt ci >"$logs/rt" 2>&1
status=$?
mkdir -p target && cp "$logs/rt" target/rt-ci.log
grep -aE '^rt: |error|NOT PROVED|passed, ' "$logs/rt" | cut -c1-240
count "rt ci" "$logs/rt"
check "rt ci ends with status 0" test "$status" -eq 0
check "rt ci says 'rt: ok'" grep -a '^rt: ok' "$logs/rt"
check "rt ci says of no must-fail edit that it is bad" test -z "$(grep -aE '^rt: ok.*, [0-9]+ bad|^rt: (must-fail )?[^ ]+: (BAD EDIT|NOT TRIED)' "$logs/rt")"
echo "proofs and edits: $((SECONDS - start)) s"
# `rt ci` keeps its proofs for itself; those that the rest of this test builds on are kept in each crate's out/, taken over from earlier checks where these proved the same.
rt all check --jobs "$(nproc)" >"$logs/all" 2>&1
status=$?
sed -n '/^== summary/,$p' "$logs/all" | grep -vE ': ok$'
check "the crates' proofs are kept for what follows (rt all check)" test "$status" -eq 0
check "no crate rests on an axiom" tests/axioms.sh "$logs/rt"
echo "with the proofs kept: $((SECONDS - start)) s"
check "every must-fail edit is refused, and its line says which fact fails; those tried by hand can still be made" tests/reasons.py "$logs/rt"
check "what is promised is what docs/statements/ has" tests/statements.py
check "the tables of docs/formats.md are those of the code" tests/formats.py
check "fields, tags, ops and sizes stand in the code by name" tests/numerals.py
check "fields and regions stand in definitions and proofs by name" tests/specnames.py
check "what the documents cite is there" tests/trace.py
check "what docs/reading.md quotes and docs/working.md lists is there" tests/quotes.py
check "docs/map.md is drawn from crates.txt and the sources as they are" tests/map.py
check "every public function has a contract that speaks of all it gives and demands nothing, but for four parts of the state check" tests/contracts.py
echo "with what is read of them: $((SECONDS - start)) s"

# What stands beside the crates: the port through its C calls, the functions for a kernel, the recorded lists on the definitions; the oracle, the recorded lists on the port, slips
# in the definitions. The second lane uses the oracle built by its first script, and no static library; what needs both comes after the lanes.
port=(c/test.sh tests/calls.sh tests/embedding.py tests/model_replay.py)
others=(oracle/test.sh tests/replay.py tests/slips.py)
echo "beside each other: ${port[*]}; ${others[*]}"
lane "${port[@]}" &
lane "${others[@]}" &
wait
ended tests/slips.py
ended oracle/test.sh
ended c/test.sh
ended tests/model_replay.py "the recorded lists, computed from the definitions"
ended tests/replay.py "the recorded lists, replayed by a Rattle program on the port"
ended tests/calls.sh "the functions for a kernel, and the till's story on the port"
ended tests/embedding.py "docs/embedding.md is what the libraries are"
echo "with both lanes: $((SECONDS - start)) s"
check "the examples print what they should" tests/example.sh
check "what run.py shows: states read from their words, the two runs" tests/viewer.py
check "every command that README.md and docs/ give can be given" tests/commands.py

echo "the whole test: $((SECONDS - start)) s"
if [ "${#unrun[@]}" -eq 0 ]; then echo "nothing was left out"; else
  echo "left out, or run in part:"
  printf '  %s\n' "${unrun[@]}"
fi
echo "$passed passed, $failed failed"
[ "$failed" -eq 0 ]

#!/usr/bin/env bash
# Runs every example on the port and on the oracle, and compares what is printed with examples/*.out; then lists that cannot be read, each of which must be
# refused with its line. The oracle's part is left out where there is no cargo; `tests/example.sh oracle` leaves out the port's.
cd "$(dirname "$0")/.." || exit 2
failed=0
example() { # example NAME OPTION..
  local name=$1
  shift
  if ! ./run.py "$@" "examples/$name.txt" | tail -n +2 | diff - "examples/$name.out"; then
    echo "example $name with '$*' prints something else"
    failed=1
  fi
}
examples() { # examples OPTION..: all of them
  for name in old-value two-counters look plans judge; do example "$name" "$@"; done
  for name in held-rollback held-commit held-broken held-look held-look-commit held-plans held-judge held-judge-full; do example "$name" "$@" --held; done
  example state "$@" --state
}
if [ "${1:-}" != oracle ]; then
  examples
  ./run.py | tail -n +2 | cmp - examples/old-value.out || failed=1 # the README's command
fi
if command -v cargo >/dev/null 2>&1; then examples --oracle; else echo "there is no cargo here: the examples were run on the port only"; fi

# Lists that cannot be read. The second part of each line is the message.
work=$(mktemp -d) || exit 2
trap 'rm -rf "$work"' EXIT
refused() { # refused OPTION MESSAGE LINE..
  local option=$1 message=$2
  shift 2
  printf '%s\n' "$@" >"$work/list.txt"
  # shellcheck disable=SC2086
  ./run.py $option "$work/list.txt" >"$work/out" 2>&1
  local status=$?
  if [ $status -ne 2 ] || ! grep -qF -- "$message" "$work/out"; then
    echo "status $status, and not '$message':"
    cat "$work/out"
    failed=1
  fi
}
table='table name=till pages=1 seed=0'
transfer='prepare_transfer table=till route=0'
refused "" "list.txt, line 2: no request is called 'reserv'" "$table" 'reserv table=till count=1'
refused "" "list.txt, line 2: no field here is called 'tabel'" "$table" 'reserve tabel=till count=1'
refused "" "list.txt, line 2: 'till': a field is NAME=NUMBER" "$table" 'reserve till'
refused "" "list.txt, line 3: the field count stands twice" "$table" '' 'reserve table=0 count=1 count=2'
refused "" "list.txt, line 1: the field seed is missing" 'table pages=1'
refused "" "list.txt, line 2: 'till' is no name, or is taken" "$table" "$table"
refused "" "list.txt, line 3: a table stands before the first request" "$table" 'teardown_start table=till' 'table pages=1 seed=0'
refused "" "list.txt, line 2: 'frames NUMBER' stands before" "$table" 'frames'
refused "" "list.txt, line 2: 'x' is no number" "$table" 'rows x'
refused "" "list.txt, line 1: 0x10000000000000000 does not fit a word" 'table pages=1 seed=0x10000000000000000'
refused "" "list.txt, line 2: an item is '- parcel' below a publish" "$table" '- parcel id=1'
refused "" "list.txt, line 3: an item is '- parcel' below a publish" "$table" 'publish id=1' '- move value=1 rights=1'
refused "" "list.txt, line 2: 'hold' belongs to a list of two runs" "$table" 'hold'
refused --state "list.txt, line 2: 'end' belongs to a list of two runs" "$table" 'end commit'
refused --held "list.txt: there is no line 'hold'" "$table" "$transfer" 'end rollback'
refused --held "list.txt, line 3: one line 'hold' stands before" "$table" 'hold' 'hold'
refused --held "list.txt: the request after 'hold' must be the prepare_transfer" "$table" 'hold' 'end rollback'
refused --held "list.txt, line 3: the request after 'hold' must be the prepare_transfer" "$table" 'hold' 'reserve table=till count=1' 'end rollback'
refused --held "list.txt: the last line must be 'end rollback' or 'end commit'" "$table" 'hold' "$transfer"
refused --held "list.txt, line 4: the list ends with 'end rollback' or 'end commit'" "$table" 'hold' "$transfer" 'end'
refused --held "list.txt, line 5: nothing may follow 'end'" "$table" 'hold' "$transfer" 'end commit' 'reserve table=till count=1'
object='object koid=1 kind=1 class=0 rights=3 exportable=1 limit=1'
engine=$([ "${1:-}" = oracle ] && echo --oracle)
refused "$engine" "creation gives 18" "$table"
refused "$engine" "list.txt, line 3: @1: there is no answer 1 yet" "$table" "$object" 'abort id=@1'
refused "$engine" "list.txt, line 4: value=@1: the answer to new_object has no such value" "$table" "$object" 'new_object object=0 rights=3 flags=0' 'close table=till value=@1'
refused "$engine" "list.txt, line 4: 'drawer' is no number" "$table" "$object" '' 'reserve table=drawer count=1'
refused "$engine --held" "list.txt, line 3: the call gives 19 Malformed" "$table" "$object" 'reserve table=till' 'hold' "$transfer" 'end rollback'
exit $failed

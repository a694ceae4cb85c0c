#!/usr/bin/env bash
# The port's outside tests: makes its static libraries and runs over them C programs, the recorded lists, the held and the plain run, and the comparison
# with the Rust, all through the same C calls. No arguments. Ends with 'c: N passed, M failed'.
set -u
if [ $# -ne 0 ]; then
  echo "usage: c/test.sh (no arguments)" >&2
  exit 2
fi
cd "$(dirname "$0")/.." || exit 2
root=$PWD
name=c
# shellcheck source=oracle/common.sh
. oracle/common.sh
work=$(mktemp -d) || exit 2
trap 'rm -rf "$work"' EXIT

for crate in create runner; do
  if c/libraries.py "$crate" >"$work/out" 2>&1; then good "the static library of $crate"; else
    tail -n 5 "$work/out"
    bad "the static library of $crate"
  fi
done
libraries="target/staticlib/librunner.a target/staticlib/libcreate.a"
for library in $libraries; do
  [ -f "$library" ] || finish
done
if ! command -v cc >/dev/null 2>&1; then
  bad "there is no C compiler"
  finish
fi
flags="-std=gnu11 -Wall -Wextra -Werror -Ic"

# P6, P7, P9 to P12 and the other requests, through the header.
# shellcheck disable=SC2086
if cc $flags -O1 c/cases.c $libraries -o "$work/cases" && "$work/cases"; then good "the cases of document 01, through the C header"; else bad "the cases of document 01, through the C header"; fi

# A wrong header is caught: each number that a request or an answer of the cases goes by, one higher, and fields swapped.
built() { # the cases with the header in $work/header; a wrong header that does not build is caught too, but the right one must
  # shellcheck disable=SC2086
  cc -std=gnu11 -w -I"$work/header" -x c - -x none $libraries -o "$work/wrong" <c/cases.c 2>/dev/null
}
mkdir -p "$work/header"
cp c/gurtxozal.h "$work/header/"
if built && "$work/wrong" >/dev/null 2>&1; then good "the right header, built the same way, passes"; else bad "the right header, built the same way, does not pass"; fi
wrong=0
caught=0
missed=""
while read -r number; do
  awk -v name="$number" '{
    if (match($0, "(^| )" name "( = | UINT64_C\\()[0-9]+")) {
      head = substr($0, 1, RSTART + RLENGTH - 1); tail = substr($0, RSTART + RLENGTH)
      match(head, /[0-9]+$/); print substr(head, 1, RSTART - 1) (substr(head, RSTART) + 1) tail
    } else print
  }' c/gurtxozal.h >"$work/header/gurtxozal.h"
  wrong=$((wrong + 1))
  if cmp -s c/gurtxozal.h "$work/header/gurtxozal.h"; then missed="$missed $number(unchanged)"; elif built && "$work/wrong" >/dev/null 2>&1; then missed="$missed $number"; else caught=$((caught + 1)); fi
done < <(
  ops="NEW_OBJECT DUPLICATE RELEASE_PARCEL RETIRE_OBJECT RESERVE TRIM ABORT PUBLISH GET_INFO RESOLVE REPLACE CLOSE SCAN_HANDLES PREPARE_TRANSFER PREPARE_CONSUMPTION ROLLBACK COMMIT
    DIRECT_COMMIT DIRECT_ROLLBACK REMOVE_STOPPING_OWNER TEARDOWN_START TEARDOWN_STEP TEARDOWN_FINISH TAKE_EMPTY_PAGE MAKE_PLAN USE_PLAN DROP_PLAN JUDGE_TRANSFER"
  for op in $ops; do
    echo "GURTXOZAL_OP_$op"
    echo "GURTXOZAL_MUST_$op"
  done
  for number in DONE ALLOCATION INVALID_HANDLE BUSY WRONG_OBJECT_TYPE ACCESS_DENIED UNSUPPORTED_RIGHTS UNSUPPORTED_FLAGS UNSUPPORTED_TRANSFER OBJECT_RETIRED OBJECT_ALREADY_ACTIVE \
    ACTIVE_HANDLE_LIMIT RESERVATION_ID_EXHAUSTED RESERVATION_TOO_LARGE OUTSTANDING_RESERVATION TABLE_FULL TABLE_RETIRED EMPTY_RESERVATION MISUSE MALFORMED ANSWER_SHORT STALE_PLAN \
    FIELD_OP FIELD_TABLE FIELD_OBJECT FIELD_COUNT FIELD_VALUE FIELD_RIGHTS FIELD_FLAGS FIELD_ID FIELD_DESTINATION FIELD_KIND FIELD_KOID FIELD_CURSOR FIELD_ROUTE FIELD_OFFERED_RIGHTS \
    FIELD_OFFERED_KIND FIELD_EXPECTED_KIND FIELD_FORBIDDEN_OBJECT FIELD_FORBIDDEN_KIND \
    MUST_TRANSFER_ITEM MAY_TRANSFER_ITEM MAY_PREPARE_TRANSFER MAY_JUDGE_TRANSFER MUST_PARCEL_ITEM MAY_PARCEL_ITEM ROUTE_BUFFERED ROUTE_STAGED_STARTUP MOVE COPY \
    ANSWER_NUMBER ANSWER_ID ANSWER_BATCH_COUNT ANSWER_BATCH_VALUES ANSWER_INFO_KOID ANSWER_INFO_KIND ANSWER_INFO_RIGHTS ANSWER_INFO_FLAGS ANSWER_RESOLVED_OBJECT ANSWER_RESOLVED_KOID \
    ANSWER_RESOLVED_RIGHTS ANSWER_NEW_VALUE ANSWER_SCAN_LENGTH ANSWER_SCAN_HAS_NEXT ANSWER_SCAN_NEXT ANSWER_SCAN_EXAMINED ANSWER_SCAN_ENTRIES ANSWER_REMOVED ANSWER_REMOVED_CURSOR \
    ANSWER_REMOVED_VALUE ANSWER_REMOVED_KOID ANSWER_REMOVED_KIND ANSWER_REMOVED_RIGHTS ANSWER_REMOVED_FLAGS ANSWER_STEP_REMOVED ANSWER_STEP_KOID ANSWER_STEP_KIND ANSWER_STEP_RIGHTS \
    ANSWER_STEP_FLAGS ANSWER_TAKEN ANSWER_TAKEN_PAGE ANSWER_PLAN_COUNT ANSWER_PLAN_FRAMES ANSWER_JUDGED_NUMBER \
    ANSWER_JUDGED_POSITION ANSWER_JUDGED_PLACE NO_ITEM PLACE_TABLE_RETIRED PLACE_EMPTY_RESERVATION PLACE_RESERVATION_TOO_LARGE PLACE_NO_ROW PLACE_NO_ID PLACE_LISTED_TWICE PLACE_LOOKUP PLACE_LACKS_TRANSFER \
    PLACE_COPY_LACKS_DUPLICATE PLACE_OFFERED_BEYOND_SOURCE PLACE_REQUESTED_BEYOND_OFFERED PLACE_FORBIDDEN_KIND PLACE_FORBIDDEN_OBJECT PLACE_ROUTE_BARS_CLASS PLACE_OTHER_KIND PLACE_COPY_OF_RETIRED PLACE_COPY_AT_LIMIT \
    SCAN_ENTRY_VALUE SCAN_ENTRY_KOID SCAN_ENTRY_KIND SCAN_ENTRY_RIGHTS SCAN_ENTRY_FLAGS; do
    echo "GURTXOZAL_$number"
  done
)
if [ -z "$missed" ]; then good "$caught of $wrong wrong headers, each with one number changed, are caught by the cases"; else bad "wrong headers that were not caught:$missed"; fi
sed -e 's/FIELD_VALUE = 4/FIELD_VALUE = 5/' -e 's/FIELD_RIGHTS = 5/FIELD_RIGHTS = 4/' c/gurtxozal.h >"$work/header/gurtxozal.h"
if built && "$work/wrong" >/dev/null 2>&1; then bad "value and rights swapped in the header are not caught"; else good "value and rights swapped in the header are caught"; fi

# Any words, under the sanitizers where the compiler has them.
sanitize="-fsanitize=address,undefined -fno-sanitize-recover=all"
# shellcheck disable=SC2086
if ! cc $flags -O1 -g $sanitize c/any_words.c $libraries -o "$work/any" 2>"$work/out"; then
  echo "the driver is built without sanitizers: $(tail -n 1 "$work/out")"
  # shellcheck disable=SC2086
  cc $flags -O1 -g c/any_words.c $libraries -o "$work/any" || bad "the driver of any words builds"
fi
if "$work/any" 1 1000000; then good "any words: a million calls"; else bad "any words: a million calls"; fi

# Stack.
# shellcheck disable=SC2086
if cc $flags -O1 c/stack.c $libraries -o "$work/stack" && "$work/stack"; then good "each call uses less than 4,096 bytes of stack, and a publish and a direct commit have no array of handles there"; else bad "each call uses less than 4,096 bytes of stack, and a publish and a direct commit have no array of handles there"; fi

# The recorded lists, the held and the plain run, and the Rust, through the C calls.
has_cargo || finish
export CARGO_TARGET_DIR="$root/target/oracle-port" ORACLE_PORT=target/staticlib
if ! (cd oracle && cargo build --release --offline --quiet) 2>"$work/out"; then
  cat "$work/out"
  bad "the oracle builds with the port"
  finish
fi
program=$CARGO_TARGET_DIR/release/oracle
part replay recorded port
part held-port 0 20000
if ! has_rust "$program"; then
  echo "c: the port was compared with the recorded lists, and with itself in the held and the plain run"
  finish
fi
part port 0 1000000
finish

#!/usr/bin/env bash
# The oracle's part of the gate: builds it and runs its checks. No arguments.
# Where the Rust sources are not beside the repository, it says so and replays the recorded lists on the reading only. Where they are, and the Rust
# can't be built, it fails.
set -u

if [ $# -ne 0 ]; then
    echo "usage: oracle/test.sh (no arguments; the place of the Rust sources can be given in ORACLE_RUST_SOURCES)" >&2
    exit 2
fi
here=$(cd "$(dirname "$0")" && pwd) || exit 2
cd "$here" || exit 2
root=$(dirname "$here")
recorded=../recorded
name=oracle
# shellcheck source=oracle/common.sh
. "$here/common.sh"

for file in cases states plain edges scrambled last-page mixed plans looks judged; do
    if grep -q '^case ' "$recorded/$file.txt" 2>/dev/null; then
        good "recorded/$file.txt has cases"
    else
        bad "recorded/$file.txt has cases"
    fi
done
has_cargo || finish

work=$(mktemp -d) || exit 2
trap 'rm -rf "$work"' EXIT

if ! cargo build --release --offline --quiet 2>"$work/build"; then
    cat "$work/build"
    bad "the oracle builds"
    finish
fi
good "the oracle builds"
program=${CARGO_TARGET_DIR:-target}/release/oracle
reader=${CARGO_TARGET_DIR:-target}/release/words_to_text

# A wrong use must end with status 2 and this message.
refuses() {
    local message=$1
    shift
    "$@" >"$work/out" 2>&1
    if [ $? -eq 2 ] && grep -q -F -- "$message" "$work/out"; then
        good "refused with a clear message: $message"
    else
        bad "not refused with: $message"
        head -n 3 "$work/out"
    fi
}

refuses "a command is missing" "$program"
refuses "unknown command or wrong arguments: nonsense" "$program" nonsense
refuses "'many' is no number" "$program" random many
refuses "can't be read" "$program" replay "$work/nowhere"
refuses "holds no recorded lists" "$program" replay "$work"
refuses "can't be read" "$reader" "$work/nowhere"
mkdir "$work/spoilt"
printf 'recorded 1\ncase one\nabout a test\ncreate 1 zz\n' >"$work/spoilt/one.txt"
refuses "line 4: 'zz' is no hexadecimal word" "$program" replay "$work/spoilt"

# One list through the commands for files: the state as text, as words, and as the second reader's text.
printf 'create 1 1 1 4 1 0 7 3 0 ff 1 5\nb 5 0 2\n65 1 0 7 0\n' >"$work/list"
if "$program" run "$work/list" reading >"$work/run" && sed -n '/^state$/,$p' "$work/run" >"$work/text" \
    && "$program" words "$work/text" >"$work/coded" && "$program" text "$work/coded" >"$work/again" && cmp -s "$work/text" "$work/again"; then
    good "a state's text, through its words and the second reader, is the same text"
else
    bad "a state's text, through its words and the second reader, is the same text"
fi

if ! has_rust "$program"; then
    echo "oracle: the recorded lists are replayed on the reading"
    refuses "this command needs the Rust" "$program" check
    part replay "$recorded"
    part slips "$recorded"
    part held-entry 0 300
    finish
fi
"$program" sources

if "$program" run "$work/list" rust >"$work/rust" && cmp -s "$work/rust" "$work/run"; then
    good "a file of words gives the same on the Rust and on the reading"
else
    bad "a file of words gives the same on the Rust and on the reading"
fi
part check
part same "$recorded"
part replay "$recorded" rust
part replay "$recorded"
part slips "$recorded"
part shrink 1
part held 0 20000
part held-entry 0 300
part entry 0 30000
part random 0 1100000
finish

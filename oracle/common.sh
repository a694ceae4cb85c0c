# shellcheck shell=bash
# Sourced by oracle/test.sh and c/test.sh, with the repository's folder in $root and the name of their closing line in $name.
passed=0
failed=0

good() {
    passed=$((passed + 1))
    echo "ok    $1"
}

bad() {
    failed=$((failed + 1))
    echo "WRONG $1"
}

finish() {
    echo "$name: $passed passed, $failed failed"
    [ "$failed" -eq 0 ]
    exit
}

# Prints the Rust sources that are there: beside the repository, or in the place that ORACLE_RUST_SOURCES names.
rust_sources() {
    local place=${ORACLE_RUST_SOURCES:-../shared/docs/src} file
    [ "${place#/}" = "$place" ] && place=$root/$place
    for file in src/authority.rs src/capability/handle/mod.rs src/capability/handle/storage.rs; do
        if [ -f "$place/$file" ]; then echo "$place/$file"; fi
    done
}

# The Rust is not compared, for a reason: a failure where its sources are there or are named, else a remark.
not_compared() {
    if [ -n "$(rust_sources)" ]; then
        bad "the Rust's sources are there, but $1: the Rust was not compared"
    elif [ -n "${ORACLE_RUST_SOURCES:-}" ]; then
        bad "ORACLE_RUST_SOURCES names the Rust sources: there are none in $ORACLE_RUST_SOURCES"
    else
        echo "$name: the Rust's sources are not beside the repository, so the Rust was not compared"
    fi
}

has_cargo() {
    command -v cargo >/dev/null 2>&1 && return 0
    not_compared "there is no cargo here"
    echo "$name: there is no cargo here, so the recorded lists were not run"
    return 1
}

# Whether the oracle at $1 has the Rust built in.
has_rust() {
    [ "$("$1" sources)" != none ] && return 0
    not_compared "not all of them, or they can't be read"
    return 1
}

# Runs a command of the oracle at $program, its output by way of $work, and adds up its last line.
part() {
    local status last
    "$program" "$@" >"$work/out" 2>&1
    status=$?
    cat "$work/out"
    last=$(tail -n 1 "$work/out")
    if [[ $last =~ ^[a-z-]+:\ ([0-9]+)\ passed,\ ([0-9]+)\ failed$ ]]; then
        passed=$((passed + BASH_REMATCH[1]))
        failed=$((failed + BASH_REMATCH[2]))
        if [ "${BASH_REMATCH[2]}" -eq 0 ] && [ "$status" -ne 0 ]; then
            bad "oracle $1 ends with status $status"
        fi
    else
        bad "oracle $1 ends with status $status and no count"
    fi
}

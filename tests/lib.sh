# Sourced by the tests. Changes to the repository's folder, and makes a temporary folder $work that is removed at the end.
# shellcheck shell=bash
set -euo pipefail
export LC_ALL=C
exec </dev/null
test=${0##*/}
root=$(CDPATH='' cd -- "$(dirname -- "${BASH_SOURCE[0]}")/.." && pwd)
cd -- "$root"
work=$(mktemp -d)
trap 'rm -rf -- "$work"' EXIT
# shellcheck disable=SC2034 # used by the tests
nothing=/dev/null
cases=0
section= # what is tested, for the message of a case that fails

fail() {
    printf 'tests/%s: FAILED: %s%s\n' "$test" "${section:+$section: }" "$1"
    exit 1
}

# expect LABEL STATUS OUT ERR COMMAND...: COMMAND exits with STATUS and prints the contents of the file OUT; its standard error, without the last line
# feed, matches the pattern ERR ('' for nothing).
expect() {
    local label=$1 status=$2 out=$3 err=$4 got=0
    shift 4
    "$@" >"$work/out" 2>"$work/err" || got=$?
    told "$label" "$status" "$got" "$err"
    cmp -- "$out" "$work/out" || fail "$label: standard output differs from $out"
}

# The same for a command that redirected its own output.
told() {
    local label=$1 status=$2 got=$3 err=$4 text
    text=$(cat -- "$work/err")
    [ "$got" -eq "$status" ] || fail "$label: exit status $got, expected $status; on standard error: $text"
    # shellcheck disable=SC2053 # a pattern
    [[ $text == $err ]] || fail "$label: on standard error: '$text', expected '$err'"
    cases=$((cases + 1))
}

# Writes the records of tests/records.py and samples/, with what `place` prints for each, to the new folder $1.
make_records() {
    mkdir -- "$1"
    python3 tests/records.py "$1"
    cp -- samples/*.shot tests/records/*.txt samples/*.txt "$1"
    (
        cd -- "$1"
        echo 'refused 21' | tee {longer,longest,short,spare6}.txt >spare7.txt
        echo 'refused 7' >seven.txt
        echo 'refused 9' | tee {small,least,large}.txt >above.txt
        echo 'refused 11' >even.txt
        echo 'refused 22' >alike.txt
        echo 'refused 23' >unsampled.txt
        cp lane4.txt odd.txt
        echo 'refused 16 3F7E9300' >neighbours.txt
        sed -n 's/^margin/refused 16/p' glare.txt >high.txt
    )
}

# A command with another standard input, output or error, or with a small stack.
cut_at() { python3 "$root/tests/inputs.py" parts "$@"; }
then_fails() { python3 "$root/tests/inputs.py" fails "$@"; }
to_full() { "$@" >/dev/full; }
to_closed() { "$@" >&-; }
quiet() { "$@" 2>&-; }
first_line() { "$@" | head -n 1; }
small_stack() { (ulimit -s "$1" && env -i "$2"); }

# Makes $work/tree, a tree in which the program NAME is a shell script with these lines, and nothing is built.
substitute() { # NAME LINE...
    rm -rf -- "$work/tree"
    mkdir -p "$work/tree/target/bin"
    cp -R "$root/bin" "$root/tables" "$work/tree"
    printf '#!/bin/sh\n' >"$work/tree/bin/build"
    printf '%s\n' '#!/bin/sh' "${@:2}" >"$work/tree/target/bin/$1"
    chmod +x "$work/tree/target/bin/$1"
}

# Has the process $1 ended?
is_gone() { ! grep -qs '^State:[[:space:]]*[^Z[:space:]]' "/proc/$1/status"; }

passed() { printf 'tests/%s: %d cases passed\n' "$test" "$cases"; }

#!/bin/sh
# The tests: the program's output and exit status on each example, and what it reports of random histories of queues and registers; failing system
# calls; the launcher, tools/install, the packages, what is shipped for ARM64 and for other systems, the documents, the steps of docs/USING.md, the
# layout of scripts, some of record/; and each #[test], without its proof. The program is the one that ./lamport_ring runs: the shipped one if it was built from these
# sources. With --prove it is first built here with its proof. What cannot be tested here, for lack of the kit, Python, a C compiler, qemu or Wine,
# is skipped, and the end, or the part itself, says so. ./gate does everything: every proof from nothing, also those of the tests, and the mutants.
# The last line is `N passed, M failed`.
set -u
name=test.sh
started=$(date +%s)
top=$(CDPATH='' cd -- "$(dirname -- "$0")" && pwd)
cd -- "$top"
. tools/building.sh

room=$(mktemp -d) || exit 1
testing=
ranking=
trying=
end() {
    # shellcheck disable=SC2086
    kill -s TERM -- ${testing:+"-$testing"} $ranking $trying 2>/dev/null
    rm -rf "$room"
}
trap end EXIT
trap 'exit 143' TERM
trap 'exit 130' INT
trap 'exit 129' HUP

case "$*" in
"" | --prove) ;;
*)
    say "usage: ./test.sh [--prove]"
    exit 2
    ;;
esac
passed=0
failed=0
missing=

# count FILE: adds the counts in the last line of the file; a part without such a line has failed.
count() {
    cat "$1"
    numbers=$(tail -n 1 "$1" | sed -n 's/.*: \([0-9]*\) passed, \([0-9]*\) failed$/\1 \2/p')
    # shellcheck disable=SC2086
    set -- ${numbers:-0 1}
    passed=$((passed + $1))
    failed=$((failed + $2))
}

# lacks COMMAND WHAT: whether the command is missing; if so, notes that WHAT is skipped.
lacks() {
    ! command -v "$1" >/dev/null || return 1
    missing="$missing
skipped, since $1 is not on the PATH: $2"
}

./lamport_ring "${1:---which}" >"$room/built" &
building=$!
trying=$building

# rank_tests: gives the tests the lowest priority. Linux may schedule by sessions, so that `nice` counts only within one, and each run of tests
# starts one of its own.
rank_tests() {
    while kill -0 "$testing" && sleep 1; do
        ps -A -o pid= -o ppid= | awk -v top="$testing" '
            { above[$1] = $2 }
            END { for (it in above) { for (at = it; at in above && at != top;) at = above[at]; if (at == top) print it } }' |
            while read -r each; do echo 19 >"/proc/$each/autogroup"; done
    done
} 2>/dev/null

# The tests need no proof. They run beside the last crates of a build, which leave processors idle, at a lower priority; in a process
# group of their own, so that they end with this script.
using=
if ! lacks rt "each #[test], the steps of docs/USING.md"; then
    using=using
    # shellcheck disable=SC2016
    setsid nice -n 19 sh -c '
        while kill -0 "$0" 2>/dev/null && [ ! -e crates/lamport_ring/out/rlib/ring_run.sum ]; do sleep 1; done
        exec tests/unproved' "$building" >"$room/unproved" 2>&1 </dev/null &
    testing=$!
    [ ! -w /proc/self/autogroup ] || rank_tests &
    ranking=$!
fi

# try PART..: runs the parts in the background.
tried=
try() {
    for part in "$@"; do
        "tests/$part" >"$room/$part" &
        trying="$trying $!"
        tried="$tried $part"
    done
}

# try_after_examples PART: the same once the examples are done, whose runs with two threads need a processor each.
try_after_examples() {
    {
        while kill -0 "$examples"; do sleep 1; done 2>/dev/null
        exec "tests/$1"
    } >"$room/$1" &
    trying="$trying $!"
    tried="$tried $1"
}

# compiler: the C compilers that are installed.
compiler() { for each in "${CC-}" cc gcc clang; do [ -z "$each" ] || command -v "$each"; done; }

# These need no program.
# shellcheck disable=SC2086
lacks python3 "the tests of the launcher, of what is for ARM64, of the words of faults, of the classes of registers, of the documents, of record/, of the layout of scripts and of docs/TRUST.md" || try launcher trust format $using
if wait "$building"; then
    PROGRAM=$(./lamport_ring --which) || exit 1
    export PROGRAM
    say "the program: $PROGRAM"
    try examples
    examples=$!
    try install
    if command -v python3 >/dev/null; then
        try docs record
        try_after_examples causes
        try_after_examples registers
        try_after_examples machines
        try_after_examples ports
        try_after_examples packages
        if [ "$(compiler)" ]; then
            try_after_examples faults
        else
            missing="$missing
skipped, since there is no C compiler on the PATH: failing system calls (tests/faults)"
        fi
    fi
else
    failed=1
fi
[ "$#" -eq 0 ] || cat "$room/built"
# shellcheck disable=SC2086
wait $trying
trying=
for part in $tried; do count "$room/$part"; done
if [ "$testing" ]; then
    say "the tests without their proofs"
    wait "$testing"
    count "$room/unproved"
fi
took
[ ! "$missing" ] || echo "${missing#?}"
echo "$passed passed, $failed failed"
[ "$failed" -eq 0 ]

#!/bin/bash
# SPDX-License-Identifier: Apache-2.0
# test.sh: the whole test. `rt ci` proves every crate, tries the edits and runs the programs; what it passed on this machine before it
# does not prove again. Then the archives are made of just that, and the tests in C, Python and Rust run on them (`make tests`).
#
# The lines of `rt ci` are printed as they come, but the last one, "N passed, M failed", is held back to be the last of all. Where the
# tests fail, what they said is printed, and they count as one more that failed. `rt ci` itself passes bad edits, which show nothing;
# here they fail. Where it says nothing for half a minute, a line says how far it is.
set -euo pipefail
set -m # a group of processes for each of the two, so that each can be stopped whole

cd "$(dirname "$0")/.."
mkdir -p build/log
started=$SECONDS
proofs_said=build/log/ci.txt
tests_said=build/log/tests.txt
under_way=''

# Stops what is still under way.
# shellcheck disable=SC2317 # called by the trap
stop() {
    [ -z "$under_way" ] || kill -- "-$under_way" 2>/dev/null || true
}
trap stop EXIT
trap 'exit 1' HUP INT TERM

# How far `rt ci` is, by what it has said.
how_far() {
    echo "$(grep -cE '^rt: [a-z0-9_]+ (proved|is kept: .*)$' "$proofs_said") of $(sed 's/#.*//' crates.txt | grep -c ':') crates proved"
}

# Passes lines on as they come, but the last one.
but_the_last() {
    local line held='' status
    while :; do
        status=0
        IFS= read -r -t 30 line || status=$?
        if [ "$status" -gt 128 ]; then
            echo "  .. $(how_far) ($((SECONDS - started)) s)"
        elif [ "$status" -gt 0 ]; then
            return
        else
            [ -z "$held" ] || printf '%s\n' "${held#=}"
            held="=$line"
        fi
    done
}

# Prints the last line, with so many more that failed, and ends.
end() { # STATUS MORE
    local passed failed
    read -r passed failed <<<"$(tail -n 1 "$proofs_said" | sed -n 's/^\([0-9]*\) passed, \([0-9]*\) failed$/\1 \2/p')"
    echo "${passed:-0} passed, $((${failed:-1} + $2)) failed"
    exit "$1"
}

tools/left-by-ci.sh --begin
(rt ci 2>&1 | tee "$proofs_said" | but_the_last) &
under_way=$!
status=0
wait "$under_way" || status=$?
under_way=''
[ "$status" = 0 ] || end "$status" 0
if ! grep -q '^rt: ok' "$proofs_said" || grep -qE '^rt: ok.*, [1-9][0-9]* bad' "$proofs_said"; then
    echo "test: rt ci says of bad edits: see BAD EDIT in $proofs_said"
    end 1 1
fi
tools/left-by-ci.sh --note

began=$SECONDS
echo "test: all is proved; the tests begin"
make --no-print-directory tests >"$tests_said" 2>&1 &
under_way=$!
while kill -0 "$under_way" 2>/dev/null; do
    sleep 1
    [ $(((SECONDS - began) % 30)) -ne 29 ] || echo "  .. the tests: $(tail -n 1 "$tests_said" | cut -c1-100) ($((SECONDS - began)) s)"
done
wait "$under_way" || status=$?
under_way=''
if [ "$status" != 0 ]; then
    cat "$tests_said"
    echo "test: the tests FAILED: what they said stands above and in $tests_said"
    end "$status" 1
fi
echo "test: the tests in C, Python and Rust passed in $((SECONDS - began)) s: $tests_said"
end 0 0

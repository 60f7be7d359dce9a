#!/bin/bash
# SPDX-License-Identifier: Apache-2.0
# proving.sh LOG COMMAND...: runs a command that proves crates (rt all, rt lib, rt ci, rt must-fail), with what it says in LOG, and
# shows meanwhile how far it is: a line for each crate that it is done with, and where nothing is said for ten seconds, the last line
# that it said. The status is the command's.
set -euo pipefail

[ $# -ge 2 ] || { echo "usage: proving.sh LOG COMMAND..." >&2; exit 2; }
said=$1
shift
mkdir -p "$(dirname "$said")"
began=$SECONDS

: >"$said"
"$@" >"$said" 2>&1 &
proofs=$!
trap 'kill "$proofs" 2>/dev/null || true' EXIT
trap 'exit 1' HUP INT TERM

# Shows what was said of whole crates since the last look. Under `rt all` a crate's lines come once it is done, below its name;
# `rt ci` says what it made of each. Whoever builds a library says what it began with.
read_so_far=0
look() {
    local lines
    lines=$(wc -l <"$said")
    [ "$lines" -gt "$read_so_far" ] || return 0
    sed -n "$((read_so_far + 1)),${lines}p" "$said" |
        sed -n -e 's/^== \([a-z0-9_]*\)$/  \1/p' -e 's/^rt: \([a-z0-9_]*\( NOT\)\? \(PROVED\|proved\).*\)/  \1/p' \
            -e 's/^rt: \([a-z0-9_]*\) is kept.*/  \1 is kept/p' -e 's/^rt: must-fail .*\(NOT [A-Z]*\|BAD EDIT\).*/&/p'
    read_so_far=$lines
}

next=10
while kill -0 "$proofs" 2>/dev/null; do
    sleep 1
    before=$read_so_far
    look
    passed=$((SECONDS - began))
    [ "$read_so_far" = "$before" ] || next=$((passed + 10))
    if [ "$passed" -ge "$next" ]; then
        echo "  .. $(tail -n 1 "$said" | cut -c1-100) ($passed s)"
        next=$((passed + 10))
    fi
done

status=0
wait "$proofs" || status=$?
look
exit "$status"

#!/bin/sh
# SPDX-License-Identifier: Apache-2.0
# crates-below.sh CRATE...: prints these crates and each crate of the repository below them, one to a
# line, as crates.txt lists them.
set -eu

cd "$(dirname "$0")/.."
[ -f crates.txt ] || { echo "crates-below: there is no crates.txt at the repository's top" >&2; exit 1; }
awk -v wanted="$*" '
    function visit(name,    below, count, i) {
        if (!(name in needs) || name in seen) return
        seen[name] = 1
        print name
        count = split(needs[name], below, " ")
        for (i = 1; i <= count; i++) visit(below[i])
    }
    { sub(/#.*/, "") }
    /:/ {
        split(substr($0, 1, index($0, ":") - 1), words, " ") # NAME, or NAME staticlib
        needs[words[1]] = substr($0, index($0, ":") + 1)
    }
    END {
        count = split(wanted, first, " ")
        for (i = 1; i <= count; i++) visit(first[i])
    }' crates.txt

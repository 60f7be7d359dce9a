#!/bin/sh
# SPDX-License-Identifier: Apache-2.0
# left-by-ci.sh --begin; left-by-ci.sh --note; left-by-ci.sh CRATE...: whether the built libraries of these crates are those that
# `rt ci` made of the files as they are. The status is 0 if all are.
#
# `rt lib` and `rt check` take a library only where rt has left a stamp beside it, and `rt ci` leaves none: they would prove a second
# time what it has proved. So tools/test.sh marks the time (--begin) before `rt ci`, and adds to build/left-by-ci after it
# (--note), for each library that is newer than that mark, the sums of what it was made from and of what was made. Where `rt ci` found
# libraries of earlier runs it puts them back in the end: those are older, and what was noted of them still stands.
set -eu

[ $# -ge 1 ] || { echo "usage: left-by-ci.sh --begin|--note|CRATE..." >&2; exit 2; }
cd "$(dirname "$0")/.."
mark=build/ci-began
noted=build/left-by-ci

# A line for a crate: its sums, or nothing where it has no library.
line_of() { # CRATE
    format=crates/$1/out/rlib/$1.rlib/format
    [ ! -f "$format" ] || echo "$1 $(tools/sum-of-crate.sh "$1") $(sha256sum <"$format" | cut -d' ' -f1)"
}

case $1 in
--begin)
    mkdir -p build
    : >"$mark"
    ;;
--note)
    for folder in crates/*/out/rlib; do
        crate=${folder#crates/}
        crate=${crate%%/*}
        [ ! -d "$folder" ] || [ -e "$folder/stamp" ] || [ -z "$(find "$folder" -maxdepth 0 -newer "$mark")" ] || line_of "$crate"
    done >>"$noted"
    LC_ALL=C sort -u -o "$noted" "$noted"
    ;;
*)
    [ -s "$noted" ] || exit 1
    for crate in "$@"; do
        line_of "$crate" | grep -qxF -f "$noted" || exit 1
    done
    ;;
esac

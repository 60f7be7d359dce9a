#!/bin/sh
# SPDX-License-Identifier: Apache-2.0
# native-archives.sh CRATE...: makes the archives of these static libraries that are out of date (native-archive.sh).
#
# First all that stands below them is proved and built, by `rt lib` in the folder of each, which begins with what earlier checks kept;
# but not where `rt ci` has just left it (left-by-ci.sh). Then the archives are made, as many at a time as there are processors, and
# at most four.
set -eu

fail() { printf 'native-archives: %s\n' "$*" >&2; exit 1; }

cd "$(dirname "$0")/.."

stale=''
for crate in "$@"; do
    name=$(tools/native-archive.sh --stale "$crate")
    stale="$stale $name"
done
# shellcheck disable=SC2086 # one word a crate
set -- $stale
[ $# -gt 0 ] || exit 0

# What they need, but themselves: no crate stands on a static library.
below=$(tools/crates-below.sh "$@" | grep -vxF "$(printf '%s\n' "$@")" || true)
# shellcheck disable=SC2086
if [ -n "$below" ] && ! tools/left-by-ci.sh $below; then
    for crate in "$@"; do
        tools/proving.sh "build/log/$crate.lib.txt" env -C "crates/$crate" rt lib || {
            cat "build/log/$crate.lib.txt" >&2
            fail "rt lib FAILED in crates/$crate (what was said stands above and in build/log/$crate.lib.txt)"
        }
    done
fi

jobs=$(nproc)
[ "$jobs" -le 4 ] || jobs=4
printf '%s\n' "$@" | xargs -n 1 -P "$jobs" tools/native-archive.sh &
making=$!
began=$(date +%s)
while sleep 1 && kill -0 "$making" 2>/dev/null; do
    seconds=$(($(date +%s) - began))
    [ $((seconds % 10)) -ne 0 ] || echo "  .. archives are being made ($seconds s)"
done
wait "$making" || fail "an archive was not made"

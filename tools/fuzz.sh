#!/bin/sh
# SPDX-License-Identifier: Apache-2.0
# fuzz.sh SECONDS [TARGET]: builds a fuzz target over the proved archive for this machine and runs it for so long, on one
# core and at low priority. TARGET is entries (those of the FM3130's device and of its master, which is meant if none is
# named), captures (the judge of captures), family (the larger family's device), sets (several of these on one line) or
# beside (what stands beside an FM3130: the record of its lamps, two masters on its bus, another clock's trim settings).
# What is written, all below the repository's top, in build/fuzz for entries and in build/fuzz/TARGET for the others:
#
#   TARGET      the target
#   corpus      inputs that reach something new; the next run begins with them
#   found       inputs on which something did not hold
#   log.txt     what libFuzzer said
set -eu

fail() { printf 'fuzz: %s\n' "$*" >&2; exit 1; }

usage() { fail "usage: fuzz.sh SECONDS [entries|captures|family|sets|beside]"; }

[ $# -ge 1 ] && [ $# -le 2 ] || usage
seconds=$1
target=${2:-entries}
out=build/fuzz/$target
case $target in
entries)
    sources="fuzz/entries.c fuzz/fm3130_part.c fuzz/images.c fuzz/masters.c fuzz/calls.c fuzz/holding.c bench/plain.c"
    out=build/fuzz
    ;;
captures) sources="fuzz/captures.c fuzz/verdicts.c bench/plain.c" ;;
family) sources="fuzz/family.c fuzz/family_parts.c fuzz/family_plain.c fuzz/calls.c fuzz/holding.c" ;;
sets) sources="fuzz/sets.c fuzz/set_calls.c fuzz/family_parts.c fuzz/family_plain.c fuzz/calls.c" ;;
beside)
    sources="fuzz/beside.c fuzz/lamps.c fuzz/lamps_plain.c fuzz/lamp_choices.c fuzz/turns.c fuzz/trims.c"
    sources="$sources fuzz/fm3130_part.c fuzz/calls.c bench/plain.c"
    ;;
*) usage ;;
esac
cd "$(dirname "$0")/.."
archive=build/lib/libfm3130.a
log=$out/log.txt
[ -f "$archive" ] || fail "$archive is missing; make it by \`make library\`"

mkdir -p "$out/corpus" "$out/found"
# shellcheck disable=SC2086 # the sources are several words
clang -g -O1 -Wall -Wextra -Werror -fsanitize=fuzzer,address,undefined -fno-sanitize-recover=all \
    $sources fuzz/fenced.c fuzz/rules.c "$archive" -o "$out/$target"

# Leaks are not looked for: nothing is allocated, and the detector cannot work under a tracer.
if ASAN_OPTIONS=detect_leaks=0 nice -n 10 "$out/$target" -max_total_time="$seconds" -max_len=1024 -print_final_stats=1 \
    -artifact_prefix="$out/found/" "$out/corpus" >"$log" 2>&1; then
    grep -E 'Done|stat::(number_of|average)' "$log"
    exit 0
fi
grep -v 'NEW\|REDUCE\|pulse' "$log" >&2
fail "something did not hold; the input stands in $out/found"

#!/bin/sh
# SPDX-License-Identifier: Apache-2.0
# join-archives.sh FOLDER CRATE...: joins FOLDER/libCRATE.a of all the crates into one library for C,
# FOLDER/libfm3130.a.
#
# Each crate's object stays as it is, so a linker takes from the library only those that a program
# calls. Two objects that define one symbol are an error, and then no library is left. One that would
# stay the same byte for byte is left alone, so that nothing is linked anew.
set -eu

fail() { printf 'join-archives: %s\n' "$*" >&2; exit 1; }

[ $# -ge 2 ] || fail "usage: join-archives.sh FOLDER CRATE..."
cd "$(dirname "$0")/.."
tools=$(tools/kit.sh)/toolchain/bin
folder=$1
shift
joined=$folder/libfm3130.a
part=$joined.part

trap 'rm -f "$part"' EXIT
rm -f "$part"
for crate in "$@"; do
    "$tools/llvm-ar" qcsL "$part" "$folder/lib$crate.a" || fail "$folder/lib$crate.a could not be added"
done
if ! "$tools/ld.lld" -r --whole-archive "$part" -o /dev/null; then
    rm -f "$joined"
    fail "$joined: its objects cannot be linked together"
fi
cmp -s "$part" "$joined" || mv "$part" "$joined"

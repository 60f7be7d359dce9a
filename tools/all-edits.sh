#!/bin/sh
# SPDX-License-Identifier: Apache-2.0
# all-edits.sh [CRATE...]: tries every edit, those that the gate tries and the further ones of edits/; or those of the
# crates named alone.
#
# An edit proves anew what it touches, and all of them take hours of a processor. They are tried by `rt must-fail` on a copy of the
# crates outside the repository, over what is proved here already (`make check`); what has not changed since it was last tried is not
# tried again. What was said comes to build/log/edits.txt, where `make edits` reads it. An edit that cannot be applied or read is an
# error here.
set -eu

fail() { printf 'all-edits: %s\n' "$*" >&2; exit 1; }

cd "$(dirname "$0")/.."
for crate in "$@"; do
    [ -d "crates/$crate" ] || fail "there is no crate $crate"
done
said=$PWD/build/log/edits.txt
proving=$PWD/tools/proving.sh
work=$(mktemp -d)
trap 'rm -rf "$work"' EXIT
trap 'exit 1' HUP INT TERM

tar -cf - --exclude='crates/*/out' crates crates.txt | tar -xf - -C "$work"
for folder in edits/*/; do
    crate=$(basename "$folder")
    mkdir -p "$work/crates/$crate/must-fail"
    cp -p "$folder"*.edit "$work/crates/$crate/must-fail/"
done

status=0
(cd "$work" && "$proving" "$said" rt must-fail "$@") || status=$?
grep -cE '^rt: must-fail .*: refused, as it must be' "$said" | sed 's/$/ edits were refused/'
! grep -E '^rt: must-fail .*: (NOT REFUSED|NOT TRIED|BAD EDIT)' "$said" || status=1
exit "$status"

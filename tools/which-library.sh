#!/bin/sh
# SPDX-License-Identifier: Apache-2.0
# which-library.sh [MACHINE]: prints which archive all else is built with, for x86_64 or aarch64 (without a word: for this
# machine), and says on standard error why it is that one. Nothing else decides it.
#
# Where `make lib` has proved the crates as they are now, it is that archive: build/native, or build/official for x86-64. Else it
# is the one in dist/, which needs no kit, if the crates are those it was compiled from and its sum is right. Where they are
# others, there is none, and the status is 3: `make lib` makes one.
set -eu

fail() { printf 'library: %s\n' "$*" >&2; exit 1; }

[ $# -le 1 ] || fail "usage: which-library.sh [MACHINE]"
cd "$(dirname "$0")/.."
here=$(uname -m)
[ "$here" != arm64 ] || here=aarch64
machine=${1:-$here}
case $machine in x86_64 | aarch64) ;; *) fail "there is an archive for x86_64 and one for aarch64, and none for $machine" ;; esac

sources=$(tools/sources.sh)
# Whether a list of sources, beside an archive, is that of the crates as they are.
fits() { # LIST
    [ -f "$1" ] && [ "$(cat "$1")" = "$sources" ]
}

# Whether the archive in dist/ has the sum that is stored for it.
is_as_stored() {
    grep "  $machine/libfm3130.a\$" dist/SUMS | (cd dist && sha256sum --check --status)
}

stored=dist/$machine/libfm3130.a
proved=''
[ "$machine" != "$here" ] || proved=build/native
[ "$machine" != x86_64 ] || proved=build/official
if [ -n "$proved" ] && [ -f "$proved/libfm3130.a" ] && fits "$proved/SOURCES"; then
    echo "library: $proved/libfm3130.a, proved here" >&2
    echo "$proved/libfm3130.a"
    exit 0
fi

[ -f "$stored" ] || fail "$stored is missing"
if ! fits dist/SOURCES; then
    changed=$(printf '%s\n' "$sources" | grep -vxF -f dist/SOURCES | sed 's|.*  crates/\([^/]*\)/.*|\1|' | uniq | paste -sd' ')
    echo "library: dist/ was compiled from other code (changed: ${changed:-files are gone}); \`make lib\` proves and compiles this" >&2
    exit 3
fi
is_as_stored || fail "$stored is not what dist/SUMS says"
echo "library: $stored, which the gate has proved; \`make lib\` proves it here" >&2
echo "$stored"

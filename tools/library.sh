#!/bin/sh
# SPDX-License-Identifier: Apache-2.0
# library.sh [--or-prove]: sees that build/lib has the library that tools/which-library.sh chooses. What is written:
#
#   build/lib/MACHINE/libfm3130.a   for x86_64 and aarch64
#   build/lib/libfm3130.a           the one for this machine
#   build/lib/libfm3130.so          the same as a shared library, linked by CC or cc
#   build/lib/libfm3130-bus.so      what `fm3130 bus` loads into a program, linked likewise
#   build/lib/fm3130.pc             for pkg-config
#
# What would stay the same byte for byte is left alone, so that nothing is linked anew. Where there is no library of the crates as
# they are, the status is 3; with --or-prove `make lib` makes one first, if the kit is at hand.
set -eu

cd "$(dirname "$0")/.."
version=$(sed -n 's/^.define FM3130_VERSION "\(.*\)"$/\1/p' include/fm3130.h)
part=build/lib/part.$$
trap 'rm -f "$part"' EXIT

status=0
archive=$(tools/which-library.sh) || status=$?
if [ "$status" = 3 ] && [ "${1:-}" = --or-prove ] && command -v rt >/dev/null; then
    exec make --no-print-directory lib
fi
[ "$status" = 0 ] || exit "$status"

# Copies a file, unless it is there.
copy() { # FROM TO
    cmp -s "$1" "$2" || { cp "$1" "$part" && mv "$part" "$2"; }
}

mkdir -p build/lib/x86_64 build/lib/aarch64
copy "$archive" build/lib/libfm3130.a
for machine in x86_64 aarch64; do
    # `make lib` makes one for this machine and one for x86-64; that for arm64 is then in dist/, or there is none.
    if archive=$(tools/which-library.sh "$machine" 2>/dev/null); then
        copy "$archive" "build/lib/$machine/libfm3130.a"
    else
        rm -f "build/lib/$machine/libfm3130.a"
    fi
done
tools/shared-library.sh build/lib/libfm3130.a "$version" "${CC:-cc}"
tools/bus-library.sh build/lib/libfm3130.a "${CC:-cc}"
tools/pkg-config.sh "\${pcfiledir}/../../include" "\${pcfiledir}" >build/lib/fm3130.pc

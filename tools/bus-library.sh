#!/bin/sh
# SPDX-License-Identifier: Apache-2.0
# bus-library.sh ARCHIVE COMPILER: makes libfm3130-bus.so beside ARCHIVE, libfm3130.a: the library that `fm3130 bus` loads
# into a program, so that /dev/i2c-N is the proved device there. It shows only the functions of the C library that it
# stands before.
set -eu

fail() { printf 'bus-library: %s\n' "$*" >&2; exit 1; }

[ $# = 2 ] || fail "usage: bus-library.sh ARCHIVE COMPILER"
archive=$1
compiler=$2
library=$(dirname "$archive")/libfm3130-bus.so
part=$library.part

trap 'rm -f "$part"' EXIT
"$compiler" -std=gnu11 -O2 -Wall -Wextra -Wpedantic -Werror -Iinclude -fPIC -fvisibility=hidden -shared preload/*.c "$archive" -ldl \
    -Wl,--exclude-libs,ALL -Wl,-z,defs -Wl,-z,relro -Wl,-z,now -o "$part"
cmp -s "$part" "$library" || mv "$part" "$library"

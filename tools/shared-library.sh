#!/bin/sh
# SPDX-License-Identifier: Apache-2.0
# shared-library.sh ARCHIVE VERSION COMPILER: makes libfm3130.so beside ARCHIVE, libfm3130.a, of all its objects, for
# programs that load a library while they run, as python/ does.
#
# Its soname has the first number of VERSION: by include/fm3130.h a host must be changed only when that one changes. A copy by
# that name stands beside it, for programs that were linked with it (`rt ci` refuses links).
set -eu

fail() { printf 'shared-library: %s\n' "$*" >&2; exit 1; }

[ $# = 3 ] || fail "usage: shared-library.sh ARCHIVE VERSION COMPILER"
archive=$1
soname=libfm3130.so.${2%%.*}
compiler=$3
folder=$(dirname "$archive")
part=$folder/libfm3130.so.part

trap 'rm -f "$part"' EXIT
# fm3130_judge needs memcpy and memset of the C library; a symbol that nobody has, or code that cannot be moved, is an error.
"$compiler" -shared -Wl,--whole-archive "$archive" -Wl,--no-whole-archive -Wl,--version-script=tools/shared-library.map \
    -Wl,-soname,"$soname" -Wl,-z,defs -Wl,-z,text -Wl,-z,relro -Wl,-z,now -o "$part"
cmp -s "$part" "$folder/libfm3130.so" || mv "$part" "$folder/libfm3130.so"
cmp -s "$folder/libfm3130.so" "$folder/$soname" || { cp "$folder/libfm3130.so" "$part" && mv "$part" "$folder/$soname"; }

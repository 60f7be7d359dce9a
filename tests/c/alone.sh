#!/usr/bin/env bash
# SPDX-License-Identifier: Apache-2.0
# alone.sh FOLDER ARCHIVE COMPILER...: links each object of the archive by itself and without any library, as include/fm3130.h
# says of it. One object needs the functions that are named there, which firmware/runtime.c has. FOLDER is made anew.
set -euo pipefail

needing='c_judge*.o'
needed='memcpy memset'

folder=$1
archive=$2
shift 2
runtime=$folder/runtime.o

fail() { printf 'alone.sh: %s: %s\n' "$archive" "$*" >&2; exit 1; }

# Links objects into a program that begins nowhere: all that is asked is whether each name has a place.
linked() { # COMPILER... OBJECT...
    "$@" -nostdlib -static -Wl,-e,0 -o "$folder/program" ||
        fail "${object##*/} does not link without a library"
}

rm -rf "$folder"
mkdir -p "$folder/objects"
"$@" -O2 -ffreestanding -c firmware/runtime.c -o "$runtime"
(cd "$folder/objects" && ar x "$OLDPWD/$archive")

count=0
for object in "$folder"/objects/*.o; do
    # shellcheck disable=SC2053 # a pattern
    if [[ ${object##*/} == $needing ]]; then
        missing=$(nm -u "$object" | awk '{ print $2 }' | LC_ALL=C sort | paste -sd' ')
        [ "$missing" = "$needed" ] || fail "${object##*/} needs '$missing', and not '$needed' as include/fm3130.h says"
        linked "$@" "$object" "$runtime"
    else
        linked "$@" "$object"
    fi
    count=$((count + 1))
done
[ "$count" -gt 10 ] || fail "$count objects are few"
echo "ctest: $archive: $count objects link without a library; that of c_judge needs $needed"

#!/usr/bin/env bash
# SPDX-License-Identifier: Apache-2.0
# library.sh: tools/which-library.sh takes the archive that was proved here, else that of dist/, and neither where the crates
# are others or dist/ is damaged. It is tried on a copy of the files that it looks at, outside the repository, since `rt ci` refuses
# .rt files anywhere but in crates/.
set -euo pipefail

folder=$(mktemp -d)
trap 'rm -rf "$folder"' EXIT
machine=$(uname -m)
mkdir -p "$folder/tools"
cp -r crates.txt dist "$folder/"
cp tools/crates-below.sh tools/sources.sh tools/which-library.sh "$folder/tools/"
tools/sources.sh | awk '{ print $2 }' | tar -cf - -T - | tar -xf - -C "$folder"

# It must print this, end with this status, and say these words.
must() { # STATUS ARCHIVE WORDS
    local status=0 archive
    archive=$("$folder/tools/which-library.sh" 2>"$folder/said") || status=$?
    if [ "$status" != "$1" ] || [ "$archive" != "$2" ] || ! grep -q -e "$3" "$folder/said"; then
        echo "library.sh: status $status, '$archive', where '$2' was due; it said:" >&2
        cat "$folder/said" >&2
        exit 1
    fi
}

(cd "$folder" && tools/sources.sh >dist/SOURCES) # dist/ may be behind the crates here: another test says so
must 0 "dist/$machine/libfm3130.a" 'which the gate has proved'

proved=native
[ "$machine" != x86_64 ] || proved=official
mkdir -p "$folder/build/$proved"
cp "dist/$machine/libfm3130.a" "$folder/build/$proved/libfm3130.a"
must 0 "dist/$machine/libfm3130.a" 'which the gate has proved'
cp "$folder/dist/SOURCES" "$folder/build/$proved/SOURCES"
must 0 "build/$proved/libfm3130.a" 'proved here'

# The code of a crate that the library is compiled from.
file=$(awk 'NR == 1 { print $2 }' "$folder/dist/SOURCES")
crate=$(echo "$file" | cut -d/ -f2)
echo >>"$folder/$file"
must 3 '' "(changed: $crate)"
(cd "$folder" && tools/sources.sh >"build/$proved/SOURCES")
must 0 "build/$proved/libfm3130.a" 'proved here'

rm -r "$folder/build"
(cd "$folder" && tools/sources.sh >dist/SOURCES)
printf 'x' >>"$folder/dist/$machine/libfm3130.a"
must 1 '' 'is not what dist/SUMS says'
echo "ctest: the library is taken from where it was proved"

#!/usr/bin/env bash
# SPDX-License-Identifier: Apache-2.0
# install.sh COMPILER: `make install` puts a command, a library, manual pages and completions below a folder that work there,
# with every page that the headers cite, and `make uninstall` takes exactly these away. The folder lies outside the repository,
# below which no links are installed.
set -euo pipefail

compiler=$1
folder=$(mktemp -d)
trap 'rm -rf "$folder"' EXIT
fail() { printf 'install.sh: %s\n' "$*" >&2; exit 1; }

mkdir -p "$folder/to/usr/lib"
echo 'of somebody else' >"$folder/to/usr/lib/libother.a"
installed=$folder/to/usr
make --no-print-directory install DESTDIR="$folder/to" PREFIX=/usr >"$folder/said"

# The command, and its version, which is the header's.
version=$(sed -n 's/^.define FM3130_VERSION "\(.*\)"$/\1/p' "$installed/include/fm3130.h")
[ "$("$installed/bin/fm3130" --version)" = "fm3130 $version" ] || fail "the command is not of version $version"

# A program that is linked with each of the two libraries.
printf '#include <fm3130.h>\nint main(void) {\n    static uint8_t image[64];\n    return (int)fm3130_fresh(image, sizeof image);\n}\n' \
    >"$folder/program.c"
"$compiler" "$folder/program.c" -I"$installed/include" "$installed/lib/libfm3130.a" -o "$folder/whole"
"$compiler" "$folder/program.c" -I"$installed/include" -L"$installed/lib" -lfm3130 -o "$folder/linked"
"$folder/whole" || fail "the program with the archive"
LD_LIBRARY_PATH=$installed/lib "$folder/linked" || fail "the program with the shared library"
grep -qx "Version: $version" "$installed/lib/pkgconfig/fm3130.pc" || fail "fm3130.pc is not of version $version"
grep -qx 'libdir=/usr/lib' "$installed/lib/pkgconfig/fm3130.pc" || fail "fm3130.pc names another folder"

# Every page that is cited; a manual page for every command, with the words of its help.
# shellcheck disable=SC2013 # a name is one word
for page in $(grep -oh 'docs/[A-Z]*\.md' include/*.h | sort -u); do
    [ -f "$installed/share/doc/fm3130/${page#docs/}" ] || fail "$page is cited and not installed"
done
for text in rust/fm3130-cli/src/help/*.txt; do
    name=$(basename "$text" .txt)
    [ "$name" = help ] && name='' || name=-$name
    page=$(cd "$installed/share/man" && ls man?/fm3130"$name".[15]) || fail "$text has no manual page"
    # Every line stands there, but for those with the name: the signs that a manual page needs are taken away again.
    sed -e 's/^\\&//' -e 's/\\-/-/g' -e 's/\\e/\\/g' -e 's/^\.SH //' "$installed/share/man/$page" >"$folder/page"
    missing=$(sed -e 1,3d -e 's/^    //' "$text" | grep -vxF -f "$folder/page" || true)
    [ -z "$missing" ] || fail "$page lacks: $missing"
done

# What bash offers.
offers() { # WORDS EXPECTED
    local offered
    # shellcheck disable=SC2086 # one word a word
    offered=$(bash -c '. "$1"; shift; compopt() { :; }; COMP_WORDS=("$@"); COMP_CWORD=$(($# - 1)); _fm3130; echo "${COMPREPLY[*]}"' \
        bash "$installed/share/bash-completion/completions/fm3130" $1)
    [ "$offered" = "$2" ] || fail "bash offers '$offered' for '$1', and not '$2'"
}
offers 'fm3130 ru' run
offers 'fm3130 run --mem' --memory
offers 'fm3130 run --part fm31' 'fm3130 fm3164 fm31256'
offers 'fm3130 help scr' script
offers 'fm3130 run Makef' Makefile

# All is gone again, and nothing else.
make --no-print-directory uninstall DESTDIR="$folder/to" PREFIX=/usr >>"$folder/said"
left=$(cd "$folder/to" && find . ! -type d)
[ "$left" = ./usr/lib/libother.a ] || fail "make uninstall left: $left"
echo "ctest: $(sed -n 's/^\(installed [0-9]* files\) below.*/\1/p' "$folder/said") and took them away again"

#!/bin/sh
# SPDX-License-Identifier: Apache-2.0
# dist.sh [check] CRATE...: makes in build/dist what dist/ is to hold, of the proved modules that `make lib` left, and then makes
# dist/ the same. With `check`, dist/ is only compared: what differs is named, and is an error.
#
#   TARGET/libfm3130.a   for x86_64, aarch64 and each target of tools/controller-options.sh
#   fm3130.wasm          for browsers and Node
#   fm3130.html          the page, which needs no other file
#   SOURCES, KIT         the sums of the files that these were compiled from, and the kit's name
#   SUMS                 the sums of all of these
#
# All of it is compiled by the kit's own compiler, which gives the same bytes on every machine. What the machine's own linker would
# make, the shared library and programs, is linked where it is used.
set -eu

fail() { printf 'dist: %s\n' "$*" >&2; exit 1; }

check=''
[ "${1:-}" != check ] || { check=yes; shift; }
cd "$(dirname "$0")/.."
[ $# -ge 1 ] || fail "usage: dist.sh [check] CRATE..."
. tools/controller-options.sh
tools=$(tools/kit.sh)/toolchain/bin
made=build/dist

work=$(mktemp -d)
trap 'rm -rf "$work"' EXIT
trap 'exit 1' HUP INT TERM

# On arm64 this archive is the native one; elsewhere it is compiled from the same modules with the same options.
archive_for_aarch64() { # CRATE...
    if [ "$(uname -m)" = aarch64 ]; then
        cp build/native/libfm3130.a "$made/aarch64/libfm3130.a"
        return
    fi
    objects=''
    for crate in "$@"; do
        # shellcheck disable=SC2046 # one word an option
        compile_module "build/bitcode/$crate.bc" "$work/$crate.o" $(options_for aarch64)
        objects="$objects $work/$crate.o"
    done
    # shellcheck disable=SC2086 # one word an object
    "$tools/llvm-ar" qcs "$made/aarch64/libfm3130.a" $objects
}

# ---- what is to be in dist/

rm -rf "$made"
mkdir -p "$made/x86_64" "$made/aarch64"
cp build/official/libfm3130.a "$made/x86_64/libfm3130.a"
archive_for_aarch64 "$@"
tools/controller-archives.sh "$@"
for target in $controller_targets; do
    mkdir "$made/$target"
    cp "build/controller/$target/libfm3130.a" "$made/$target/libfm3130.a"
done
tools/web-module.sh build/web/fm3130.wasm "$@"
cp build/web/fm3130.wasm "$made/fm3130.wasm"
tools/web-page.py "$made/fm3130.wasm" "$made/fm3130.html"
tools/sources.sh >"$made/SOURCES"
rt version >"$made/KIT"
(cd "$made" && find . -type f ! -name SUMS | sed 's|^\./||' | LC_ALL=C sort | xargs sha256sum >"$work/SUMS")
mv "$work/SUMS" "$made/SUMS"

# ---- and what is

if differing=$(diff -rq dist "$made"); then
    echo "dist: dist/ is what was just made of the proved crates, byte for byte"
    exit 0
fi
if [ -n "$check" ]; then
    printf '%s\n' "$differing" >&2
    fail "dist/ is NOT what was just made of the proved crates (the files are named above): \`make dist\` makes it anew"
fi
rm -rf dist
cp -r "$made" dist
printf '%s\n' "$differing"
echo "dist: dist/ is made anew ($(du -sk dist | cut -f1) kB); commit it with the change that made it so"

#!/bin/sh
# SPDX-License-Identifier: Apache-2.0
# controller-archives.sh CRATE...: compiles the proved modules of the crates for controllers. What is written:
#
#   build/controller/TARGET/libfm3130.a   one for each target of tools/controller-options.sh
#   build/controller/sizes.txt            bytes of text and data, a line for each target and crate
#   build/controller/stamp                a sum over all that these were made from
#
# build/bitcode/CRATE.bc is what tools/native-archive.sh kept; before it is used it is seen to be the program that was proved
# (check_modules). Nothing is done while the stamp still fits.
set -eu

fail() { printf 'controller-archives: %s\n' "$*" >&2; exit 1; }

[ $# -ge 1 ] || fail "usage: controller-archives.sh CRATE..."
cd "$(dirname "$0")/.."
. tools/controller-options.sh
tools=$(tools/kit.sh)/toolchain/bin
built=build/controller

# ---- what the archives are made from

# shellcheck disable=SC2086 # one word a target
sum=$({
    rt version
    cat tools/controller-archives.sh tools/controller-options.sh
    for crate in "$@"; do sha256sum "build/bitcode/$crate.bc" "build/official/lib$crate.a"; done
} | sha256sum | cut -d' ' -f1)
if [ "$(cat "$built/stamp" 2>/dev/null)" = "$sum" ]; then
    echo "controller-archives: $built is up to date"
    exit 0
fi

rm -rf "$built"
mkdir -p "$built"
work=$(mktemp -d)
trap 'rm -rf "$work"' EXIT
trap 'exit 1' HUP INT TERM
check_modules "$@"

# ---- an archive for each target

for target in $controller_targets; do
    mkdir -p "$work/$target" "$built/$target"
    objects=''
    for crate in "$@"; do
        # shellcheck disable=SC2046 # one word an option
        compile_module "build/bitcode/$crate.bc" "$work/$target/$crate.o" $(options_for "$target")
        size "$work/$target/$crate.o" |
            awk -v target="$target" -v crate="$crate" 'NR == 2 { print target, crate, $1, $2 + $3 }' >>"$built/sizes.txt"
        objects="$objects $work/$target/$crate.o"
    done
    # shellcheck disable=SC2086 # one word an object, in the order of the crates on every machine
    "$tools/llvm-ar" rcs "$built/$target/libfm3130.a" $objects
    echo "controller-archives: $# modules compiled for $target"
done
echo "$sum" >"$built/stamp"
echo "controller-archives: $built made for $controller_targets"

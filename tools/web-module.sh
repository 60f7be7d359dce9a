#!/bin/sh
# SPDX-License-Identifier: Apache-2.0
# web-module.sh TARGET CRATE...: compiles the proved modules of the crates for WebAssembly and links them
# into one module, TARGET, that imports nothing and exports all their functions.
#
# build/bitcode/CRATE.bc is what tools/native-archive.sh kept; before it is used it is seen to be the program that was proved
# (tools/controller-options.sh).
#
# In the module an address has 32 bits and a length 64. A struct of two words comes back in memory, at an
# address that the caller gives in front. The stack stands first, so that running out of it traps instead of
# writing elsewhere; the caller's buffers go after __heap_base.
set -eu

fail() { printf 'web-module: %s\n' "$*" >&2; exit 1; }

[ $# -ge 2 ] || fail "usage: web-module.sh TARGET CRATE..."
cd "$(dirname "$0")/.."
. tools/controller-options.sh
tools=$(tools/kit.sh)/toolchain/bin
target=$1
shift

work=$(mktemp -d)
trap 'rm -rf "$work"' EXIT
trap 'exit 1' HUP INT TERM

check_modules "$@"
objects=''
for crate in "$@"; do
    # shellcheck disable=SC2046 # one word an option
    compile_module "build/bitcode/$crate.bc" "$work/$crate.wasm.o" $(options_for wasm32)
    objects="$objects $work/$crate.wasm.o"
done

# The kit's one program is a linker for WebAssembly too, where it is called by that name.
ln -s "$tools/ld.lld" "$work/wasm-ld"
# shellcheck disable=SC2086 # one word an object, in the order of the crates on every machine
"$work/wasm-ld" --no-entry --stack-first -z stack-size=65536 --export-dynamic --export=__heap_base --strip-all \
    $objects -o "$work/joined.wasm" || fail "the modules cannot be linked together"
mkdir -p "$(dirname "$target")"
cmp -s "$work/joined.wasm" "$target" || install -m 644 "$work/joined.wasm" "$target"

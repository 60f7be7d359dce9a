#!/bin/sh
# SPDX-License-Identifier: Apache-2.0
# web.sh CRATE...: makes build/web: the module fm3130.wasm, fm3130.mjs and what it needs for programs, and the page fm3130.html. Where the crates were
# proved here the module is compiled from them, and else it is that of dist/, which has the same bytes (tools/which-library.sh).
set -eu

fail() { printf 'web: %s\n' "$*" >&2; exit 1; }

[ $# -ge 1 ] || fail "usage: web.sh CRATE..."
cd "$(dirname "$0")/.."
mkdir -p build/web
case $(tools/which-library.sh 2>/dev/null) in
build/*) tools/web-module.sh build/web/fm3130.wasm "$@" ;;
dist/*)
    grep '  fm3130.wasm$' dist/SUMS | (cd dist && sha256sum --check --status) || fail "dist/fm3130.wasm is not what dist/SUMS says"
    cp dist/fm3130.wasm build/web/fm3130.wasm
    ;;
*) fail "there is no library; \`make lib\` makes one" ;;
esac
cp web/fm3130.mjs web/entries.mjs web/family.mjs build/web/
tools/web-page.py build/web/fm3130.wasm build/web/fm3130.html
for file in build/web/*; do echo "$file: $(wc -c <"$file") bytes"; done

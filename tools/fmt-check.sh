#!/bin/sh
# SPDX-License-Identifier: Apache-2.0
# fmt-check.sh: says which .rt and .antt files are not in the layout of `rt fmt`, which writes them anew. `rt ci` refuses those too.
set -eu

cd "$(dirname "$0")/.."
rattle=$(tools/kit.sh)/bin/rattle
find crates/*/src crates/*/specs crates/*/proofs \( -name '*.rt' -o -name '*.antt' \) -type f 2>/dev/null | LC_ALL=C sort |
    xargs "$rattle" fmt --check

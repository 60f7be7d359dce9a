#!/bin/sh
# SPDX-License-Identifier: Apache-2.0
# kit.sh: prints the folder of the Rattle kit that `rt` works with, or says what is missing.
#
# `rt doc` prints the page to read first, KIT/START-HERE.md. KIT/bin has rattle, which proves and compiles a crate; KIT/toolchain
# has clang, llvm-ar and ld.lld; KIT/rlibs the kit's own libraries. The kit runs on x86-64 alone.
set -eu

fail() { printf 'kit: %s\n' "$*" >&2; exit 1; }

command -v rt >/dev/null || fail "there is no rt on the PATH: proving needs the Rattle kit; README.md says what is done without it"
guide=$(rt doc)
kit=${guide%/*}
for part in bin/rattle toolchain/bin/clang toolchain/bin/llvm-ar rlibs/std.rlib; do
    [ -e "$kit/$part" ] || fail "the kit at $kit has no $part"
done
printf '%s\n' "$kit"

#!/bin/sh
# SPDX-License-Identifier: Apache-2.0
# sum-of-crate.sh CRATE: prints one sum over what a crate is proved from: its line of crates.txt, its code, specs and proofs.
set -eu

[ $# -eq 1 ] || { echo "usage: sum-of-crate.sh CRATE" >&2; exit 2; }
cd "$(dirname "$0")/.."
{
    grep "^$1[ :]" crates.txt
    for part in src specs proofs; do
        [ ! -d "crates/$1/$part" ] || find "crates/$1/$part" -type f -exec sha256sum {} +
    done | LC_ALL=C sort
} | sha256sum | cut -d' ' -f1

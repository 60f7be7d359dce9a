#!/bin/sh
# SPDX-License-Identifier: Apache-2.0
# sources.sh: prints the sums of all files that the library is compiled from: the code (src/) of each static library of crates.txt,
# and of each crate below it. `sha256sum --check` reads them.
set -eu

cd "$(dirname "$0")/.."
export LC_ALL=C
exported=$(sed -n 's/^\([a-z0-9_]*\) staticlib *:.*/\1/p' crates.txt)
# shellcheck disable=SC2046,SC2086 # one word a crate
find $(tools/crates-below.sh $exported | sed 's|.*|crates/&/src|') -type f | sort | xargs sha256sum

#!/usr/bin/env bash
# SPDX-License-Identifier: Apache-2.0
# outside.sh FOLDER: what the archives for controllers below FOLDER need from outside is what docs/CONTROLLER.md says, memset and memcpy
# and on the Cortex-M0 a division, each by the names that its machine's compiler has for it, and nothing else.
set -euo pipefail

# By Arm's names: memclr is memset of 0, and lmul is in two functions that cannot be called there (FM3130_TWO_WORDS).
arm='__aeabi_memclr __aeabi_memclr4 __aeabi_memcpy __aeabi_memset'
division='__aeabi_uidiv __aeabi_uidivmod __aeabi_lmul'

fail() { printf 'outside.sh: %s\n' "$*" >&2; exit 1; }

# The names that an archive's objects leave to others, without those that it has itself.
outside() { # ARCHIVE
    readelf -sW "$1" | awk '$8 != "" && ($5 == "GLOBAL" || $5 == "WEAK") { print ($7 == "UND" ? "needs" : "has"), $8 }' |
        LC_ALL=C sort -u | awk '$1 == "has" { has[$2] = 1 } $1 == "needs" && !($2 in has) { print $2 }'
}

asked() { # MACHINE NAME...
    local archive=$folder/$1/libfm3130.a name allowed=" ${*:2} "
    [ -f "$archive" ] || fail "$archive is not there"
    readelf -sW "$archive" | grep ' fm3130_run$' >/dev/null || fail "$archive has no fm3130_run"
    for name in $(outside "$archive"); do
        [[ $allowed == *" $name "* ]] || fail "$archive needs $name, which docs/CONTROLLER.md does not name"
    done
}

folder=$1
asked riscv32 memcpy memset
# shellcheck disable=SC2086 # a word a name
asked thumbv6m $arm $division
# shellcheck disable=SC2086
asked thumbv7em $arm
# shellcheck disable=SC2086
asked thumbv7emhf $arm
echo "ctest: the archives for controllers need nothing from outside but what docs/CONTROLLER.md says"

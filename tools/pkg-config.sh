#!/bin/sh
# SPDX-License-Identifier: Apache-2.0
# pkg-config.sh INCLUDE LIB: prints fm3130.pc for a folder of headers and a folder of libraries.
set -eu

[ $# = 2 ] || { echo "usage: pkg-config.sh INCLUDE LIB" >&2; exit 2; }
cd "$(dirname "$0")/../include"
version=$(sed -n 's/^.define FM3130_VERSION "\(.*\)"$/\1/p' fm3130.h)
sed -e "s|@INCLUDE@|$1|" -e "s|@LIB@|$2|" -e "s|@VERSION@|$version|" fm3130.pc.in

#!/bin/sh
# SPDX-License-Identifier: Apache-2.0
# run-x86-64.sh PROGRAM [WORD...]: runs a statically linked program for x86-64, on another machine by Debian's emulator
# (tools/setup.sh). Its status is the program's. A program that opens /proc/self/maps crashes the emulator.
set -eu

[ $# -ge 1 ] || { echo "usage: run-x86-64.sh PROGRAM [WORD...]" >&2; exit 2; }
[ "$(uname -m)" = x86_64 ] && exec "$@"
exec qemu-x86_64 "$@"

#!/bin/sh
# SPDX-License-Identifier: Apache-2.0
# setup.sh [bench|command|controller|fuzz|library|python|sigrok|web]: sees that all that `make test` needs is on this Debian
# machine, and installs what is missing. With a word: what the library of dist/ (library) and the command need, the measurements,
# the emulated controllers, the fuzzer, the tests of the package for Python, those in sigrok-cli, or those of the page in a browser
# (web). It says nothing and needs no network where all is there. The Rattle kit itself is in no package: what needs `rt` stops
# without it.
set -eu

fail() { printf 'setup: %s\n' "$*" >&2; exit 1; }

case ${1:-} in '' | controller) "$(dirname "$0")/kit.sh" >/dev/null ;; esac

missing=''
# Notes PACKAGE as missing unless COMMAND is there.
need() { # COMMAND PACKAGE
    command -v "$1" >/dev/null || missing="$missing $2"
}

# Notes PACKAGE as missing unless the compiler finds the C library to link statically. A compiler
# that does not know the file prints its bare name.
need_static_libc() { # COMPILER PACKAGE
    case $("$1" -print-file-name=libc.a 2>/dev/null) in */*) ;; *) missing="$missing $2" ;; esac
}

# Notes PACKAGE as missing unless clang links a fuzz target with the sanitizers.
need_fuzzer() { # PACKAGE
    echo 'int LLVMFuzzerTestOneInput(const unsigned char *at, unsigned long size) { return !at && size; }' |
        clang -x c -fsanitize=fuzzer,address,undefined -o /dev/null - 2>/dev/null || missing="$missing $1"
}

# Notes PACKAGE as missing unless Debian's own Python has MODULE.
need_python() { # MODULE PACKAGE
    /usr/bin/python3 -c "import $1" 2>/dev/null || missing="$missing $2"
}

need make make
need cc gcc
case ${1:-} in
library) ;;
*)
    need cargo cargo
    need rustc rustc
    ;;
esac

# What the tests of the package for Python need.
need_pytest() {
    need /usr/bin/python3 python3
    need_python pytest python3-pytest
    need_python smbus2 python3-smbus2 # to see that the package has its methods
}

case ${1:-} in
'')
    need c++ g++ # to see that the header for C is one for C++ too
    need_static_libc cc libc6-dev
    if [ "$(uname -m)" != x86_64 ]; then
        # to link a program with the official archive, which is for x86-64
        need x86_64-linux-gnu-gcc gcc-x86-64-linux-gnu
        need_static_libc x86_64-linux-gnu-gcc libc6-dev-amd64-cross
        need qemu-x86_64 qemu-user # to run that program
    fi
    need_pytest
    need /usr/sbin/i2cdetect i2c-tools # to see that they run on `fm3130 bus`
    need_python smbus python3-smbus
    ;;
library | command) ;;
python) need_pytest ;;
bench) need valgrind valgrind ;;
controller)
    need qemu-system-arm qemu-system-arm
    need qemu-system-riscv32 qemu-system-misc
    need arm-none-eabi-gcc gcc-arm-none-eabi
    ;;
fuzz)
    need clang clang
    need_fuzzer libclang-rt-14-dev # of Debian 12's clang
    ;;
sigrok) need sigrok-cli sigrok-cli ;;
web)
    need node nodejs
    need chromium chromium
    need chromedriver chromium-driver
    need_python selenium python3-selenium
    ;;
*) fail "usage: setup.sh [bench|command|controller|fuzz|library|python|sigrok|web]" ;;
esac

[ -n "$missing" ] || exit 0
[ "$(id -u)" = 0 ] || fail "missing, and only root can install it: apt-get install$missing"

echo "setup: installing$missing"
log=$(mktemp)
trap 'rm -f "$log"' EXIT
export DEBIAN_FRONTEND=noninteractive
# shellcheck disable=SC2016 # the inner shell's words
install='log=$1; shift; { apt-get update && apt-get install -y --no-install-recommends "$@"; } >"$log" 2>&1'
# shellcheck disable=SC2086 # one word a package
"$(dirname "$0")/patient.sh" 'being installed' sh -c "$install" sh "$log" $missing ||
    { cat "$log" >&2; fail "apt-get could not install$missing"; }

#!/bin/sh
# SPDX-License-Identifier: Apache-2.0
# native-archive.sh [--stale] CRATE: compiles a static library of crates.txt, once all below it is built (native-archives.sh sees to
# that). With --stale it only prints the crate's name, where there is something to do.
#
# `rattle build` checks the crate, lowers it to one LLVM module and has a clang compile that, as `rt lib` has it do. Here it is
# given a toolchain of links, whose clang is a small script: it keeps a copy of the module and then calls the kit's own clang. So
# the archive is what `rt lib` makes, byte for byte, and the module is at hand for other machines (controller-options.sh). What is
# written, all below the repository's top:
#
#   build/official/libCRATE.a   the archive, for x86-64
#   build/bitcode/CRATE.bc      the proved program as an LLVM module
#   build/native/libCRATE.a     that module compiled for this machine
#   build/native/CRATE.stamp    a sum over all that these were made from
#   build/log/CRATE.txt         what the prover and the compiler said
#
# Nothing is done while the stamp still fits. Exported functions must take integers and slices and return at most two words: a larger
# struct is returned in another way on each kind of machine.
set -eu

fail() { printf 'native-archive: %s\n' "$*" >&2; exit 1; }

ask=''
[ "${1:-}" != --stale ] || { ask=yes; shift; }
[ $# -eq 1 ] || fail "usage: native-archive.sh [--stale] CRATE"
crate=$1
cd "$(dirname "$0")/.."
top=$PWD
. tools/controller-options.sh
kit=$(tools/kit.sh)
tools=$kit/toolchain/bin
machine=$(uname -m)

# ---- what the archive is made from

# Prints one sum over the kit, the machine, the tools and the files of the crates.
sum_of() { # CRATE...
    {
        rt version
        echo "$machine"
        sha256sum tools/native-archive.sh tools/controller-options.sh
        for name in "$@"; do grep "^${name}[ :]" crates.txt; done
        for name in "$@"; do
            for part in src specs proofs; do [ ! -d "crates/$name/$part" ] || printf '%s\0' "crates/$name/$part"; done
        done | xargs -0 -I{} find {} -type f | LC_ALL=C sort | xargs sha256sum
    } | sha256sum | cut -d' ' -f1
}

below=$(tools/crates-below.sh "$crate")
grep -q "^$crate staticlib *:" crates.txt || fail "crates.txt has no static library $crate"

official=build/official/lib$crate.a
bitcode=build/bitcode/$crate.bc
native=build/native/lib$crate.a
stamp=build/native/$crate.stamp
log=$top/build/log/$crate.txt

# shellcheck disable=SC2086 # one word a crate
sum=$(sum_of $below)
if [ -f "$official" ] && [ -f "$bitcode" ] && [ -f "$native" ] && [ "$(cat "$stamp" 2>/dev/null)" = "$sum" ]; then
    echo "native-archive: $native is up to date" >&2
    exit 0
fi
[ -z "$ask" ] || { echo "$crate"; exit 0; }

# ---- a toolchain of links whose clang keeps the module

began=$(date +%s)
mkdir -p build/official build/bitcode build/native build/log
rm -f "$official" "$bitcode" "$native" "$stamp" # where this run fails, no older archive is left to link
work=$(mktemp -d) # no link may lie in the repository
trap 'rm -rf "$work"' EXIT
trap 'exit 1' HUP INT TERM

mkdir -p "$work/toolchain/bin"
ln -s "$kit/toolchain/lib" "$work/toolchain/lib"
for tool in "$tools"/*; do
    [ "${tool##*/}" = clang ] || ln -s "$tool" "$work/toolchain/bin/"
done
ln -s "$tools" "$work/toolchain/real"

# rattle starts clang with an empty environment, so the script finds all from its own place.
cat >"$work/toolchain/bin/clang" <<'CLANG'
#!/bin/sh
tools=${0%/bin/*}
for word in "$@"; do
    case $word in
    *.bc)
        if [ -e "$tools/kept.bc" ]; then echo "native-archive: more than one module" >&2; exit 1; fi
        command -p cp "$word" "$tools/kept.bc" || exit 1
        ;;
    esac
done
exec "$tools/real/clang" "$@"
CLANG
chmod +x "$work/toolchain/bin/clang"

# ---- the two archives

# Runs a command that writes to the log; where it fails, shows the log and ends.
logged() { # WHAT COMMAND...
    what=$1
    shift
    "$@" >>"$log" 2>&1 || { cat "$log" >&2; fail "$crate: $what FAILED (what was said stands above and in $log)"; }
}

# The words that `rt lib` gives to rattle, but for the toolchain. The crates that it names, and those below them:
set -- --crate-name "$crate" src/lib.rt --extern "std=$kit/rlibs/std.rlib" -L "dependency=$kit/rlibs"
# shellcheck disable=SC2013 # one word a crate
for name in $(sed -n "s/^$crate staticlib *://p" crates.txt); do
    set -- "$@" --extern "$name=$top/crates/$name/out/rlib/$name.rlib"
done
for name in $below; do
    [ "$name" = "$crate" ] || set -- "$@" -L "dependency=$top/crates/$name/out/rlib"
done
set -- "$@" --antt-project "$kit/rattle/logic/antt-project.json" --logic-built "$kit/logic_built" --jobs 1 --links "$crate=" \
    --crate-type staticlib --backend llvm --incremental out/incremental --toolchain "$work/toolchain" -o "$work/made.a"

# rt too locks the crate's folder while it works in it.
: >"$log"
mkdir -p "crates/$crate/out"
logged "rattle build" flock "crates/$crate" env -C "crates/$crate" "$kit/bin/rattle" build "$@"
kept=$work/toolchain/kept.bc
[ -f "$kept" ] || fail "rattle build compiled no LLVM module of $crate: nothing to make a native archive from"

# Compiled for x86-64, the module must be the official object byte for byte: so it is the module
# that the archive was made from, and the options are enough to make the same code.
# shellcheck disable=SC2046 # one word an option
compile_module "$kept" "$work/x86_64.o" $(options_for x86_64)
"$tools/llvm-ar" p "$work/made.a" >"$work/official.o"
cmp -s "$work/x86_64.o" "$work/official.o" ||
    fail "$crate: the module compiled here for x86-64 is not the official object: has the kit's compile line changed?"

# shellcheck disable=SC2046
compile_module "$kept" "$work/$crate.o" $(options_for "$machine")
logged "llvm-ar" "$tools/llvm-ar" rcs "$work/lib$crate.a" "$work/$crate.o"

cp "$work/made.a" "$official"
cat "$kept" >"$bitcode" # the compiler's own copy is for its owner alone
cp "$work/lib$crate.a" "$native"
echo "$sum" >"$stamp"
echo "native-archive: $native made for $machine from the proved module of $crate ($(($(date +%s) - began)) s)"

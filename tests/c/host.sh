#!/usr/bin/env bash
# SPDX-License-Identifier: Apache-2.0
# host.sh HOST FOLDER: the host program as its users call it. What is wrong must be said with the
# right exit code and lose nothing. FOLDER is made anew.
set -euo pipefail

host=$(realpath "$1")
stored=$(realpath "$(dirname "$0")")/expected
rm -rf "$2"
mkdir -p "$2"
cd "$2"
cases=0

differ() { printf 'host.sh: DIFFERENT: %s\n' "$*" >&2; exit 1; }

# The host must end with CODE, say WORDS, and leave every file as it was.
fails() { # CODE WORDS ARGUMENT...
    local code=$1 words=$2 before got=0
    shift 2
    before=$(sha256sum -- *)
    "$host" "$@" >/dev/null 2>../said || got=$?
    [ "$got" = "$code" ] || differ "host $*: exit code $got, must be $code"
    grep -qF -- "$words" ../said || differ "host $*: said $(cat ../said), must say $words"
    [ "$(sha256sum -- *)" = "$before" ] || differ "host $*: a file has changed"
    cases=$((cases + 1))
}

same() { # FILE FILE
    cmp -- "$1" "$2" || differ "$1 and $2"
    cases=$((cases + 1))
}

# K12's exact run, from a file and from standard input.
printf '\0\3\2\3\2\2\2\2\2\3\1' >exact
printf '\5\5\4\5\4\4\4\4\4\4\5' >expected
"$host" exact --answers answers >told
same answers expected
grep -q '^  write A0h  ACK   slave byte: memory, write$' told || differ "K12 in words"
"$host" - --quiet --answers piped <exact
same piped expected

# The session: its words are stored; a device that is kept in files between pieces is the same one.
"$host" --session --save-events session --answers whole >words
same words "$stored/session.txt"
"$host" session --quiet --image image.1 --memory memory.1
split -b 7 session piece.
for piece in piece.*; do
    "$host" "$piece" --image image.2 --memory memory.2 --answers "answers.$piece" >>told
done
same image.1 image.2
same memory.1 memory.2
grep -q '^begins inside: data byte from the memory, ' told || differ "a piece that begins inside a byte"
cat answers.piece.* >pieces
same pieces whole

# The counting, on another part: its words are stored.
"$host" --counting --save-events counting.events --answers counting.answers >counting
same counting "$stored/counting.txt"

# What is wrong, and nothing lost by it.
printf '\0\3\11' >unknown
head -c 63 /dev/zero >short
head -c 64 /dev/zero >zeros
mkdir kept
mv unknown short zeros kept
cp exact kept
cp image.1 kept/image
cp memory.1 kept/memory
cd kept
device=(--image image --memory memory)
fails 2 'give a file of EVENTS'
fails 2 'give a file of EVENTS' --session --counting
fails 2 'give a file of EVENTS' exact --counting
fails 2 'no --image or --memory with it' --counting --image image
fails 2 '--counting is there to be read' --counting --quiet
fails 1 'no/x: ' --counting --answers no/x
fails 2 'unknown option --speed' exact --speed
fails 2 '--image needs a FILE' exact --image
fails 2 'one word too many: short' exact short
fails 2 'name one file' exact --image image --memory ./image
fails 2 'name one file' exact --answers ./exact
fails 1 'none: ' none "${device[@]}"
fails 1 'no/x: ' exact "${device[@]}" --answers no/x
fails 1 'not a regular file' exact "${device[@]}" --answers /dev/null
fails 3 'unknown: byte 2 is 09h: some event byte is above 7 (number 3)' unknown "${device[@]}" --answers new
fails 4 'short: the file has 63 bytes: image is not 64 bytes' exact --image short
fails 4 'zeros: image is not 64 bytes, or no well-formed state' exact --image zeros --memory memory
fails 4 'image: the file has 64 bytes: memory is not 8,192 bytes' exact --memory image
got=0
"$host" exact "${device[@]}" >/dev/full 2>../said || got=$?
[ "$got" = 1 ] || differ "standard output that is full: exit code $got, must be 1"
same memory ../memory.1
same image ../image.1
echo "ctest: the host, $cases cases: as expected"

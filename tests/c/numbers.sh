#!/usr/bin/env bash
# SPDX-License-Identifier: Apache-2.0
# numbers.sh FOLDER COMPILER...: no C of ours drops a number. A header made of the declarations of the entries has the
# compiler refuse a call whose number nobody looks at; the host, the firmware, the tests, the fuzzer and the guide's
# programs, which guide.py has left in FOLDER/guide, are compiled with it. What a board of tests/controller has of its
# own calls no entry and is for its processor alone.
set -euo pipefail

folder=$1/numbers
guide=$1/guide
shift
rm -rf "$folder"
mkdir -p "$folder"
declared='^(uint64_t|unsigned|struct [a-z0-9_]+) ((fm31|pins|levels)[a-z0-9_]*)\(.*'
{
    printf '#include "%s"\n' fm3130.h fm31.h pins.h levels.h
    echo '#define LOOKED_AT(entry) extern __typeof__(entry) entry __attribute__((warn_unused_result))'
    sed -nE "s/$declared/LOOKED_AT(\2);/p" include/fm3130.h include/fm31.h firmware/{pins,levels}.h
} >"$folder/numbers.h"
entries=$(grep -c '^LOOKED_AT' "$folder/numbers.h")

compiles() { # FILE COMPILER...
    local file=$1
    shift
    "$@" -D_DEFAULT_SOURCE -Ifirmware -Itests/wires -include "$folder/numbers.h" -c "$file" -o /dev/null
}

printf 'void drop(uint8_t *image);\nvoid drop(uint8_t *image) {\n    fm3130_fresh(image, 64);\n}\n' >"$folder/drop.c"
if [ "$entries" -lt 30 ] || compiles "$folder/drop.c" "$@" 2>/dev/null; then
    echo "numbers.sh: a dropped number is not refused; $entries entries were found" >&2
    exit 1
fi
files=0
boards='tests/controller/(m0|m4|riscv32)\.c'
for file in host/*.c firmware/*.c firmware/example/firmware.c tests/{wires,levels,c,controller}/*.c fuzz/*.c "$guide"/*.c; do
    [[ $file =~ $boards ]] && continue
    compiles "$file" "$@" || { echo "numbers.sh: $file: see above" >&2; exit 1; }
    # The same wires, with firmware/levels.c at their end.
    [[ $file != tests/wires/* ]] || compiles "$file" "$@" -DWIRES_LEVELS || { echo "numbers.sh: $file: see above" >&2; exit 1; }
    files=$((files + 1))
done
echo "ctest: no number of $entries entries is dropped in $files files"

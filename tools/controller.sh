#!/bin/sh
# SPDX-License-Identifier: Apache-2.0
# controller.sh test: runs the tests of tests/controller on emulated boards, with the archives of
# tools/controller-archives.sh, and prints one table of what came out (build/controller/table.txt).
#
# controller.sh count [TREE [CRATE...]]: only the instructions and the stack of one call, of the modules of a tree
# (TREE/build/bitcode), or of these crates alone.
#
# A target is a processor; a board is one that the emulator plays. The programs in C are compiled by the kit's own
# compiler, and some once more by GCC, since firmware mostly is. They are linked without a library; <stdint.h>
# comes from the C compiler at hand, whose file for such programs knows no machine. Instructions are counted by the
# emulator's clock (-icount), which goes on by one span at each of them, so the figures are the same on every machine.
set -eu

fail() { printf 'controller: %s\n' "$*" >&2; exit 1; }

cd "$(dirname "$0")/.."
. tools/controller-options.sh
tools=$(tools/kit.sh)/toolchain/bin
built=build/controller
sources=tests/controller
wires='tests/wires/wires.c tests/wires/master.c tests/wires/sessions.c'
frames=crates/main_standin/stdin
lines=crates/main_standin/stdout
expected=firmware/example/expected.txt

# What is played on the wires: a tick at every n-th place of the session, and of the turn of a year; times of noise.
wires_words='61 1 1000'
wires_words_gcc='97 7 1000'
cost_stride=301

work=$(mktemp -d)
trap 'rm -rf "$work"' EXIT
trap 'exit 1' HUP INT TERM

# ---- boards

# The board that plays a target: the name of its files in tests/controller.
board_for() { # TARGET
    case $1 in
    thumbv7em | thumbv7emhf) echo m4 ;;
    thumbv6m) echo m0 ;;
    riscv32) echo riscv32 ;;
    esac
}

emulator_for() { # BOARD
    case $1 in
    m4) echo qemu-system-arm -M mps2-an386 -icount shift=7 ;;
    m0) echo qemu-system-arm -M microbit -icount shift=7 ;;
    riscv32) echo qemu-system-riscv32 -M virt -bios none -icount shift=0 ;;
    esac
}

# Runs a program on a board. What it says goes to standard output, and its status is handed on.
emulate() { # BOARD PROGRAM WORD...
    emulator=$(emulator_for "$1") program=$2
    shift 2
    words=arg=program
    for word in "$@"; do words=$words,arg=$word; done
    status=0
    # shellcheck disable=SC2086 # a command and its words
    timeout 600 $emulator -nographic -monitor none -serial none -chardev "file,id=said,path=$work/said" \
        -semihosting-config "enable=on,target=native,chardev=said,$words" -kernel "$program" </dev/null || status=$?
    cat "$work/said"
    return $status
}

# ---- compiling and linking

strict='-std=c99 -O2 -Wall -Wextra -Wpedantic -Werror -ffreestanding -fno-builtin -ffunction-sections -fdata-sections'

# GCC for a target: its command and the options that name the target.
gcc_for() { # TARGET
    case $1 in
    thumbv7em) echo arm-none-eabi-gcc -mthumb -mcpu=cortex-m4 -mfloat-abi=soft ;;
    thumbv7emhf) echo arm-none-eabi-gcc -mthumb -mcpu=cortex-m4 -mfloat-abi=hard -mfpu=fpv4-sp-d16 ;;
    thumbv6m) echo arm-none-eabi-gcc -mthumb -mcpu=cortex-m0 -mfloat-abi=soft ;;
    esac
}

# What a target's programs are told: the Cortex-M0 has room for one memory only.
defines_for() { # TARGET
    case $1 in thumbv6m) echo -DWIRES_ONE_MEMORY ;; esac
}

# And which firmware is at the end of the wires (run_program).
firmware=

# Links a program of these C files, by the kit's tools or by GCC.
link_by_kit() { # TARGET SCRIPT ARCHIVE INCLUDE PROGRAM SOURCE...
    target=$1 script=$2 archive=$3 include=$4 program=$5
    shift 5
    rm -f "$work"/*.c.o
    for source in "$@"; do
        # shellcheck disable=SC2046,SC2086 # one word an option
        "$tools/clang" $(options_for "$target") $strict $(defines_for "$target") $firmware \
            -isystem "$(cc -print-file-name=include)" -I"$include" -Ifirmware \
            -c "$source" -o "$work/$(echo "$source" | tr / _).o" || fail "$source: not compiled for $target"
    done
    "$tools/ld.lld" -L"$(dirname "$script")" -T "$script" --gc-sections "$work"/*.c.o --whole-archive "$archive" -o "$program" ||
        fail "$program: not linked for $target"
}

link_by_gcc() { # TARGET SCRIPT ARCHIVE INCLUDE PROGRAM SOURCE...
    target=$1 script=$2 archive=$3 include=$4 program=$5
    shift 5
    # shellcheck disable=SC2046,SC2086 # one word an option
    $(gcc_for "$target") $strict $(defines_for "$target") $firmware -I"$include" -Ifirmware -nostdlib -nostartfiles \
        -Wl,--gc-sections,-z,noexecstack -L"$(dirname "$script")" -T "$script" "$@" "$archive" -lgcc -o "$program" ||
        fail "$program: not linked for $target by GCC"
}

# The files of a program of tests/controller, the board's own among them.
files_of() { # PROGRAM BOARD
    case $1 in
    count) echo "$sources/count.c" "$sources/table.c" ;;
    cost) echo "$sources/cost.c" "$sources/table.c" tests/wires/master.c tests/wires/sessions.c firmware/pins.c ;;
    cost_levels) echo "$sources/cost_levels.c" "$sources/table.c" tests/wires/master.c tests/wires/sessions.c firmware/levels.c ;;
    wires) echo "$sources/wires.c" "$wires" firmware/pins.c ;;
    wires_levels) echo "$sources/wires.c" "$wires" firmware/levels.c ;;
    *) echo "$sources/$1.c" ;;
    esac
    echo "$sources/support.c" "$sources/$2.c" firmware/runtime.c
}

# Links a program by kit or gcc, runs it on the target's board, and leaves what it says in $work/out.
run_program() { # BY TARGET ARCHIVE INCLUDE PROGRAM WORD...
    by=$1 target=$2 archive=$3 include=$4 program=$5
    shift 5
    board=$(board_for "$target")
    elf=$work/$program.$target.$by
    case $program in *_levels) firmware=-DWIRES_LEVELS ;; *) firmware= ;; esac
    # shellcheck disable=SC2046 # one word a file
    "link_by_$by" "$target" "$sources/$board.ld" "$archive" "$include" "$elf" $(files_of "$program" "$board")
    emulate "$board" "$elf" "$@" >"$work/out" || { cat "$work/out" >&2; fail "$program on $target ($by) FAILED"; }
}

# ---- counting

counted_head() { printf '%-12s %-34s %8s %8s %8s %8s\n' target call calls average worst stack; }

# Adds a target's name to the rows that a program said, in columns.
counted_rows() { # TARGET
    awk -F'\t' -v target="$1" '{ printf "%-12s %-34s %8d %8d %8d %8s\n", target, $1, $2, $3, $4, $5 ? $5 : "" }' "$work/out"
}

# Every row that was counted has a ceiling in the program's file and stays below it.
check_ceilings() { # TARGET PROGRAM
    case $2 in cost_levels) ceilings=$sources/ceilings_levels.txt ;; *) ceilings=$sources/ceilings.txt ;; esac
    awk -F'\t' -v target="$1" '
        NR == FNR { if ($1 == target) most[$2] = $3; next }
        !($1 in most) { printf "controller: %s: no ceiling for: %s\n", target, $1; bad = 1; next }
        $4 > most[$1] { printf "controller: %s: %s: %d instructions, the ceiling is %d\n", target, $1, $4, most[$1]; bad = 1 }
        END { exit bad }' "$ceilings" "$work/out" >&2 || fail "ceilings ($ceilings) are exceeded on $1"
}

count() { # TREE CRATE...
    tree=$1
    shift
    [ -d "$tree/build/bitcode" ] || fail "$tree/build/bitcode is missing; make it by \`make lib\`"
    # shellcheck disable=SC2046 # one word a module
    [ $# -gt 0 ] || set -- $(cd "$tree/build/bitcode" && ls ./*.bc)
    counted_head
    for target in $controller_targets; do
        rm -f "$work"/*.module.o "$work/counted.a"
        for crate in "$@"; do
            crate=$(basename "$crate" .bc)
            # shellcheck disable=SC2046 # one word an option
            compile_module "$tree/build/bitcode/$crate.bc" "$work/$crate.module.o" $(options_for "$target")
        done
        "$tools/llvm-ar" rcs "$work/counted.a" "$work"/*.module.o
        run_program kit "$target" "$work/counted.a" "$tree/include" count "$frames"
        counted_rows "$target"
    done
}

# ---- all tests

# Says one row of the second table: what was run, and what came out.
passed() { # TARGET WHAT
    printf '%-12s %-34s %s\n' "$1" "$2" "$(cat "$work/out")"
}

test_target() { # TARGET
    archive=$built/$1/libfm3130.a
    test_header "$1"
    for program in count cost cost_levels; do
        case $program in count) word=$frames ;; *) word=$cost_stride ;; esac
        run_program kit "$1" "$archive" include $program "$word"
        check_ceilings "$1" "$program"
        counted_rows "$1" >>"$work/counted"
    done
    run_program kit "$1" "$archive" include refusals
    passed "$1" "K12 and refusals" >>"$work/passed"
    run_program kit "$1" "$archive" include frames "$frames" "$lines"
    passed "$1" "frames as the second program" >>"$work/passed"
    run_program kit "$1" "$archive" include line "$frames"
    passed "$1" "fm3130_line beside Clocks" >>"$work/passed"
    # shellcheck disable=SC2086 # three words
    run_program kit "$1" "$archive" include wires $wires_words
    passed "$1" "a master on the wires" >>"$work/passed"
    # shellcheck disable=SC2086 # three words
    run_program kit "$1" "$archive" include wires_levels $wires_words
    passed "$1" "the same, by levels.c" >>"$work/passed"
    [ -n "$(gcc_for "$1")" ] || return 0
    run_program gcc "$1" "$archive" include refusals
    passed "$1" "K12 and refusals, callers by GCC" >>"$work/passed"
    # shellcheck disable=SC2086 # three words
    run_program gcc "$1" "$archive" include wires $wires_words_gcc
    passed "$1" "a master on the wires, by GCC" >>"$work/passed"
    # shellcheck disable=SC2086 # three words
    run_program gcc "$1" "$archive" include wires_levels $wires_words_gcc
    passed "$1" "the same, by levels.c and GCC" >>"$work/passed"
}

# A function that returns two words is an error of compilation where the archive returns them in another way.
refuses_two_words() { # COMPILER OPTION...
    ! echo '#include <fm3130.h>
        struct fm3130_ran f(uint8_t *i, uint8_t *e) { return fm3130_run(i, 64, i, 8192, e, 1, e, 1); }' |
        "$@" -x c - -O2 -ffreestanding -Iinclude -c -o "$work/refused.o" 2>"$work/words" && grep -q fm3130_run_number "$work/words"
}

test_header() { # TARGET
    case $1 in riscv32) return 0 ;; esac
    # shellcheck disable=SC2046 # one word an option
    refuses_two_words "$tools/clang" $(options_for "$1") -isystem "$(cc -print-file-name=include)" ||
        fail "the header lets fm3130_run through on $1"
    # shellcheck disable=SC2046 # one word an option
    refuses_two_words $(gcc_for "$1") || fail "the header lets fm3130_run through on $1 (GCC)"
    echo 'fm3130_run does not compile' >"$work/out"
    passed "$1" "the header, by both compilers" >>"$work/passed"
}

# The example under the emulator says what is expected; that for the board's own pins is linked.
test_example() {
    files='firmware/example/firmware.c firmware/example/mps2.c firmware/pins.c firmware/runtime.c'
    archive=$built/thumbv7em/libfm3130.a
    # shellcheck disable=SC2086 # one word a file
    link_by_kit thumbv7em firmware/example/mps2.ld "$archive" include "$built/example.elf" $files firmware/example/gpio.c
    # shellcheck disable=SC2086 # one word a file
    link_by_kit thumbv7em firmware/example/mps2.ld "$archive" include "$work/played.elf" $files firmware/example/played.c
    # shellcheck disable=SC2046 # a command and its words
    timeout 60 $(emulator_for m4) -nographic -monitor none -serial "file:$work/uart" \
        -semihosting-config enable=on,target=native -kernel "$work/played.elf" </dev/null || fail "the example FAILED"
    diff -u "$expected" "$work/uart" >&2 || fail "the example says something else than $expected"
    printf '%-12s %-34s %s\n' thumbv7em "the example's words" "as $expected" >>"$work/passed"
}

# Bytes of a firmware's parts: the static libraries that it calls, pins.c and levels.c.
say_sizes() {
    printf '%-12s %-34s %8s %8s\n' target part text data
    awk '$2 ~ /^(c_run_c|c_pins_c|c_step_c|c_line_c)$/ { printf "%-12s %-34s %8d %8d\n", $1, "crate " $2, $3, $4 }' "$built/sizes.txt"
    for target in $controller_targets; do
        for part in pins levels; do
            # shellcheck disable=SC2046,SC2086 # one word an option
            "$tools/clang" $(options_for "$target") $strict -isystem "$(cc -print-file-name=include)" -Iinclude -Ifirmware \
                -c "firmware/$part.c" -o "$work/$part.o"
            size "$work/$part.o" |
                awk -v target="$target" -v part="$part.c" 'NR == 2 { printf "%-12s %-34s %8d %8d\n", target, part, $1, $2 + $3 }'
        done
    done
}

test_all() {
    : >"$work/counted"
    : >"$work/passed"
    for target in $controller_targets; do
        test_target "$target"
    done
    test_example
    {
        say_sizes
        echo
        counted_head
        cat "$work/counted"
        echo
        printf '%-12s %-34s %s\n' target test 'came out right'
        cat "$work/passed"
    } >"$built/table.txt"
    cat "$built/table.txt"
}

case ${1:-} in
test) test_all ;;
count)
    shift
    [ $# -gt 0 ] || set -- .
    count "$@"
    ;;
*) fail "usage: controller.sh test | count [TREE [CRATE...]]" ;;
esac

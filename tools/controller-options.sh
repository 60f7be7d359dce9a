# shellcheck shell=sh
# SPDX-License-Identifier: Apache-2.0
# controller-options.sh, to be read by the other scripts: the targets, and how a module is compiled for one. The script that
# reads it has `fail` and the folders `tools` (the kit's compiler) and `work`.

# thumbv7em and thumbv7emhf: Cortex-M4, without and with floating point in its calls; thumbv6m: Cortex-M0;
# riscv32: RV32IMAC.
controller_targets=${TARGETS:-thumbv7em thumbv7emhf thumbv6m riscv32}

# The options that name a target to the kit's compiler. x86-64 is the official archive's, so its options are rattle's own; what runs
# on a controller or in a browser has no use for position-independent code.
options_for() { # TARGET
    case $1 in
    x86_64 | aarch64) echo --target="$1-linux-gnu" -fPIC ;;
    wasm32) echo --target=wasm32-unknown-unknown ;;
    thumbv7em) echo --target=thumbv7em-none-eabi -mfloat-abi=soft ;;
    thumbv7emhf) echo --target=thumbv7em-none-eabihf -mfloat-abi=hard -mfpu=fpv4-sp-d16 ;;
    thumbv6m) echo --target=thumbv6m-none-eabi -mfloat-abi=soft ;;
    riscv32) echo --target=riscv32-unknown-elf -march=rv32imac -mabi=ilp32 ;;
    *) fail "no target $1: it is x86_64, aarch64, wasm32 or one of $controller_targets" ;;
    esac
}

# Compiles a module with those options of rattle's that shape code. The modules name a processor of x86-64, which
# another machine does not know and leaves aside; it says so for each function, and nothing else is kept quiet.
compile_module() { # MODULE OBJECT OPTION...
    module=$1 object=$2
    shift 2
    "$tools/clang" "$@" --no-default-config -Wno-override-module -O3 -ffunction-sections -fdata-sections \
        -mllvm -trap-unreachable -mllvm -no-trap-after-noreturn -mllvm -no-x86-call-frame-opt -mllvm -disable-machine-licm \
        -mllvm -disable-postra-machine-licm -mllvm -sink-common-insts=false -c -x ir "$module" -o "$object" 2>"$work/words" ||
        { cat "$work/words" >&2; fail "$module: not compiled for $1"; }
    ! grep -v 'is not a recognized processor for this target' "$work/words" >&2 || fail "$module: $1: see above"
}

# Sees that the modules that tools/native-archive.sh kept are the programs that were proved: compiled for x86-64 each must be the
# official object, byte for byte. Nothing is compiled while both are those that were compared last.
check_modules() { # CRATE...
    for crate in "$@"; do
        [ -f "build/bitcode/$crate.bc" ] && [ -f "build/official/lib$crate.a" ] ||
            fail "build/bitcode/$crate.bc is missing; make it by \`make lib\`"
    done
    compared=$(for crate in "$@"; do sha256sum "build/bitcode/$crate.bc" "build/official/lib$crate.a"; done)
    [ "$(cat build/bitcode/compared 2>/dev/null)" != "$compared" ] || return 0
    for crate in "$@"; do
        # shellcheck disable=SC2046 # one word an option
        compile_module "build/bitcode/$crate.bc" "$work/x86_64.o" $(options_for x86_64)
        "$tools/llvm-ar" p "build/official/lib$crate.a" >"$work/official.o"
        cmp -s "$work/x86_64.o" "$work/official.o" ||
            fail "build/bitcode/$crate.bc compiled for x86-64 is not the official object"
    done
    printf '%s\n' "$compared" >build/bitcode/compared
}

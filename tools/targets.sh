# The machines that the board library is made for, and how it is made: sourced by tools/target and by the comparisons.
# Whoever sources it has sourced tools/setup.sh, and stands in the repository's folder. All but 'target' run in a shell
# of their own, so that their variables are nobody else's.

targets='cortex-m3 cortex-m0plus riscv32 riscv64 aarch64 aarch64-linux x86-64'
entries='quermanic_fresh quermanic_check quermanic_step quermanic_lamp quermanic_why quermanic_mend'
rounds='quermanic_why 17' # why goes from task to task: sixteen, and one that is met again
memory_stack=32 # bytes of stack that a memory function of the board counts for

# target NAME: sets what clang is to know of this machine; false where there is no such target.
#   triple, layout   as LLVM names the machine and lays out its types
#   cpu              further words
#   pushed           bytes of stack that a call pushes besides the frames
target() {
    pushed=0
    case $1 in
    cortex-m3 | cortex-m0plus) layout='e-m:e-p:32:32-Fi8-i64:64-v128:64:128-a:0:32-n32-S64' ;;
    riscv32) layout='e-m:e-p:32:32-i64:64-n32-S128' ;;
    riscv64) layout='e-m:e-p:64:64-i64:64-i128:128-n32:64-S128' ;;
    aarch64 | aarch64-linux)
        layout='e-m:e-p270:32:32-p271:32:32-p272:64:64-i8:8:32-i16:16:32-i64:64-i128:128-n32:64-S128-Fn32'
        ;;
    x86-64) layout= ;;
    *) return 1 ;;
    esac
    case $1 in
    cortex-m3) triple=thumbv7m-unknown-none-eabi cpu='-mcpu=cortex-m3' ;;
    cortex-m0plus) triple=thumbv6m-unknown-none-eabi cpu='-mcpu=cortex-m0plus' ;;
    riscv32) triple=riscv32-unknown-none-elf cpu='-march=rv32imac -mabi=ilp32 -mcmodel=medany' ;;
    riscv64) triple=riscv64-unknown-none-elf cpu='-march=rv64imac -mabi=lp64 -mcmodel=medany' ;;
    aarch64) triple=aarch64-unknown-none-elf cpu='-mno-unaligned-access -mgeneral-regs-only' ;;
    aarch64-linux) triple=aarch64-unknown-linux-gnu cpu='-fPIC' ;;
    x86-64) triple=x86_64-unknown-linux-gnu cpu='-march=x86-64 -fPIC' pushed=8 ;;
    esac
}

# retarget NAME EXPORTS [PLANT]: prints a kept module for the machine that 'target' set (tools/targets/retarget.awk).
retarget() (
    awk -v triple=$triple -v layout=$layout -v exports="$2" -v plant="${3-}" -f tools/targets/retarget.awk \
        "target/module/$1.ll"
)

# compile_module LEVEL FILE.ll FILE WORDS..: a retargeted module, with the kit's own words but for the machine, to an
# object (-c), or to assembly text (-S -fstack-usage, which leaves beside it, in FILE.su, what the frames take).
compile_module() (
    level=$1 module=$2 made=$3
    shift 3
    "$(kit_tools)/bin/clang" --target=$triple $cpu "-$level" -ffreestanding -ffunction-sections -fdata-sections \
        -mllvm -trap-unreachable -mllvm -no-trap-after-noreturn -mllvm -disable-machine-licm \
        -mllvm -disable-postra-machine-licm -mllvm -sink-common-insts=false --no-default-config -no-canonical-prefixes \
        -fno-crash-diagnostics -Werror "$@" -x ir "$module" -o "$made"
)

# section_sizes FILE.o: prints 'flash N' and 'ram N', the bytes of code and constants, and of variables.
section_sizes() (
    "$(kit_tools)/bin/ld.lld" -r --print-map "$1" -o /dev/null | awk '
        function number(hex,    n, i) {
            for (i = 1; i <= length(hex); i++) n = 16 * n + index("0123456789abcdef", substr(hex, i, 1)) - 1
            return n
        }
        NF == 5 && $5 ~ /^\.(text|rodata|srodata)/ { flash += number($3) }
        NF == 5 && $5 ~ /^\.(data|bss|sdata|sbss)/ { ram += number($3) }
        END { print "flash " flash + 0; print "ram " ram + 0 }'
)

# stack_bounds FOLDER: prints 'stack ENTRY BYTES' and 'wants NAME' of the library there: see tools/targets/stack.awk.
stack_bounds() (
    awk -v entries="$entries" -v rounds="$rounds" -v wanted=$memory_stack -v pushed=$pushed -f tools/targets/stack.awk \
        "$1/board.su" "$1/board.s"
)

# make_library NAME OUT [LEVEL [PLANT]]: the board library for a target, in the folder OUT: libboard.a; figures (a line
# each: flash, ram, the stack bound of each entry, and what it wants); and quermanic-stack.ld, the bounds for a
# linker's script. LEVEL is O3 without it. PLANT is for the trials: see tools/targets/retarget.awk.
make_library() (
    out=$2 level=${3-O3} tools=$(kit_tools)
    target "$1" && mkdir -p "$out" && rm -f "$out/libboard.a" "$out/figures" &&
        awk -f tools/targets/clean.awk target/module/board.ll || return 1
    if [ "$1" = x86-64 ]; then # as the kit has it: what it makes of the kept module is its archive
        object=$("$tools/bin/llvm-ar" t target/staticlib/libboard.a) && cp target/module/board.ll "$out/board.ll" &&
            cp target/module/board.object "$out/board.o" || return 1
        [ "$object" = board.o ] || cp "$out/board.o" "$out/$object" || return 1 # as the kit names it in its archive
    else
        object=board.o
        retarget board 6 "${4-}" >"$out/board.ll" &&
            compile_module "$level" "$out/board.ll" "$out/board.o" -c || return 1
    fi
    compile_module "$level" "$out/board.ll" "$out/board.s" -S -fstack-usage &&
        (cd "$out" && "$tools/bin/llvm-ar" rcD libboard.a "$object") &&
        section_sizes "$out/board.o" >"$out/figures" && stack_bounds "$out" >>"$out/figures" &&
        awk '$1 == "stack" { print toupper($2) "_STACK = " $3 ";" }' "$out/figures" >"$out/quermanic-stack.ld"
)

# native_library [FOLDER]: prints the folder of the board library for this machine: the kit's own, or the same module
# compiled for it, in FOLDER or among the targets.
native_library() (
    out=${1-target/targets/aarch64-linux}
    case $machine in
    x86_64 | amd64) echo target/staticlib ;;
    aarch64) make_library aarch64-linux "$out" >&2 && echo "$out" ;;
    *) echo "There is no target for this machine, $machine." >&2 && return 1 ;;
    esac
)

# native_archive NAME EXPORTS: prints the folder of a library for this machine, the kit's own or the same module compiled
# for it; it exports so many functions.
native_archive() (
    tools/module "$1" >&2 || return 1
    case $machine in
    x86_64 | amd64) echo target/staticlib ;;
    aarch64)
        out=target/targets/aarch64-linux
        target aarch64-linux && mkdir -p $out && rm -f "$out/lib$1.a" && retarget "$1" "$2" >"$out/$1.ll" &&
            compile_module O3 "$out/$1.ll" "$out/$1.o" -c &&
            (cd $out && "$(kit_tools)/bin/llvm-ar" rcD "lib$1.a" "$1.o") && echo $out
        ;;
    *) echo "There is no target for this machine, $machine." >&2 && return 1 ;;
    esac
)

# native_program: prints the bench program for this machine: the kit's own, or the same module compiled and linked
# for it.
native_program() (
    tools/module bench_program >&2 || return 1
    case $machine in
    x86_64 | amd64) echo "$PWD/target/bin/bench_program" ;;
    aarch64)
        out=target/targets/aarch64-linux
        need cc gcc && target aarch64-linux && mkdir -p $out && retarget bench_program 0 >$out/bench_program.ll &&
            compile_module O3 $out/bench_program.ll $out/bench_program.o -c &&
            cc -o $out/bench_program $out/bench_program.o && echo "$PWD/$out/bench_program"
        ;;
    *) echo "There is no target for this machine, $machine." >&2 && return 1 ;;
    esac
)

# How the trial's program is built for an emulated machine: sourced by tests/machines/run and tests/instructions.
# Whoever sources it has sourced tools/setup.sh, targets.sh and firmware.sh, and stands in the repository's folder.

machines='cortex-m3 riscv32 riscv64'

# need_emulator MACHINE: its emulator is there, or is installed, or one sentence says what to install.
need_emulator() {
    case $1 in
    cortex-m3) need qemu-system-arm qemu-system-arm ;;
    *) # some distributions have a package for RISC-V, others one for many machines
        command -v "qemu-system-$1" >/dev/null 2>&1 || add_packages qemu-system-riscv >/dev/null 2>&1 </dev/null
        need "qemu-system-$1" qemu-system-misc
        ;;
    esac
}

# calls_on MACHINE OUT LIBRARY [WORDS..]: builds tests/board/calls.c for a machine, over the library in a folder, with
# more words for the compiler, into the folder OUT. Leaves there the script 'calls', which runs it: what BOARD_CALLS
# is to name.
calls_on() (
    on=$1 place=$2 library=$3
    shift 3
    target "$on" && mkdir -p "$place" || return 1
    case $on in
    cortex-m3)
        start='examples/showcase/startup.c examples/showcase/console.c'
        link="--defsym ram_bytes=0x200000 -T examples/showcase/mps2-an385.ld" exponent=10
        ;;
    *) start=tests/machines/virt.c link="-T tests/machines/virt.ld" exponent=0 ;;
    esac
    objects=
    for file in tests/board/calls.c tests/machines/pipe.c examples/showcase/memory.c $start; do
        object=$place/$(basename "$file" .c).o
        compile_c "$file" "$object" -Itests/board "$@" || return 1
        objects="$objects $object"
    done
    "$(kit_tools)/bin/ld.lld" --gc-sections -L "$library" $link $objects -lboard -o "$place/calls.elf" || return 1
    cat >"$place/calls" <<END && chmod +x "$place/calls"
#!/bin/sh
. '$PWD/tools/firmware.sh'
emulate $on '$PWD/$place/calls.elf' $exponent -semihosting-config enable=on,target=native
END
)

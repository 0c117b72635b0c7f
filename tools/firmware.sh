# Firmware for emulated machines, compiled and linked by the kit's tools, and run: sourced by ./example and the trials.
# Whoever sources it has sourced tools/setup.sh and tools/targets.sh, and stands in the repository's folder.

# compile_c FILE.c FILE.o [WORDS..]: C of ours for the machine that 'target' set, with no header but ours.
compile_c() (
    file=$1 object=$2
    shift 2
    "$(kit_tools)/bin/clang" --target=$triple $cpu --no-default-config -O2 -std=gnu11 -Wall -Wextra -Werror \
        -ffreestanding -fno-builtin -fno-strict-aliasing -ffunction-sections -fdata-sections \
        -nostdinc -isystem tools/targets/include -Iinclude "$@" -c "$file" -o "$object"
)

# link_cortex_m3 FILE.elf FILE.o..: firmware for the Cortex-M3, over the library in target/targets/cortex-m3.
link_cortex_m3() (
    elf=$1
    shift
    "$(kit_tools)/bin/ld.lld" --gc-sections -L target/targets/cortex-m3 -T examples/showcase/mps2-an385.ld \
        "$@" -lboard -o "$elf"
)

# emulate MACHINE FILE.elf EXPONENT WORDS..: runs firmware on an emulated machine. Its clock counts instructions,
# 2^EXPONENT ns for each, so that every run is the same. WORDS are for the emulator. It ends where the firmware ends
# itself.
emulate() (
    case $1 in
    cortex-m3) emulator=qemu-system-arm board='-M mps2-an385' ;;
    riscv32) emulator=qemu-system-riscv32 board='-M virt -bios none -m 16M' ;;
    riscv64) emulator=qemu-system-riscv64 board='-M virt -bios none -m 16M' ;;
    *) return 1 ;;
    esac
    elf=$2 exponent=$3
    shift 3
    $emulator $board -display none -monitor none -serial none -icount "shift=$exponent,sleep=off" -kernel "$elf" "$@"
)

# watch_cortex_m3 FILE.elf: runs firmware there at 64 ns an instruction, about the pace of a part at 25 MHz; what it
# says is standard output.
watch_cortex_m3() {
    emulate cortex-m3 "$1" 6 -chardev stdio,id=out -semihosting-config enable=on,target=native,chardev=out </dev/null
}

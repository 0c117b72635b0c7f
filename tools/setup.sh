# What ./test, ./bench and the comparisons need beyond the Rattle kit, and how they run what it builds: sourced by each.

# The kit builds for x86-64 Linux. On another machine its programs run under an emulator beside the kit's compiler, if it
# has one there, and C is compiled across.
machine=$(uname -m)
case $machine in
x86_64 | amd64) emulated=no c_prefix= c_packages=gcc ;;
*) emulated=yes c_prefix=x86_64-linux-gnu- c_packages='gcc-x86-64-linux-gnu libc6-dev-amd64-cross' ;;
esac
c_compiler=${c_prefix}gcc c_lister=${c_prefix}objdump

# kit_home, kit_tools: print the Rattle kit's folder, and the one of its compiler.
kit_home() {
    rt_path=$(readlink -f "$(command -v rt)") || rt_path=
    printf '%s\n' "${rt_path%/bin/rt}"
}
kit_tools() {
    printf '%s/toolchain\n' "$(kit_home)"
}

# stale FILE: it is missing, or some source is newer. What the kit leaves in a crate's out/ is no source. Whoever asks has
# the repository's folder in root.
stale() {
    [ ! -e "$1" ] || [ -n "$(find "$root/crates" "$root/crates.txt" -name out -prune -o -type f -newer "$1" -print \
        2>/dev/null)" ]
}

# emulator: sets parts to the folder that has the kit's emulator, or says in one sentence what is missing.
emulator() {
    if ! command -v rt >/dev/null 2>&1; then
        echo "Please put the Rattle kit's command rt on the PATH: the kit's emulator runs x86-64 programs here." >&2
        return 1
    fi
    parts=$(kit_tools)
    [ -x "$parts/bin/qemu-x86_64" ] && return 0
    echo "This machine ($machine) is no x86-64, and the Rattle kit's emulator is not at '$parts/bin'." >&2
    return 1
}

# run_built PROGRAM [WORDS..]: runs this x86-64 program here, by itself or by the emulator.
run_built() {
    if [ $emulated = yes ]; then
        emulator || return 1
        set -- "$parts/bin/qemu-x86_64" "$parts/lib/ld-linux-x86-64.so.2" --library-path "$parts/lib" "$@"
    fi
    "$@"
}

# quoted TEXT: prints it as one word of a shell's script, whatever it holds.
quoted() {
    printf "'%s'" "$(printf '%s\n' "$1" | sed "s/'/'\\\\''/g")"
}

# runnable PROGRAM: prints what runs this x86-64 program here: itself, or a script beside it that calls the emulator.
# The script is put there whole, and only where it is missing or another: whoever runs it meanwhile is not disturbed.
runnable() {
    [ $emulated = yes ] || {
        printf '%s\n' "$1"
        return
    }
    emulator || return 1
    script=$(printf '#!/bin/sh\nexec %s %s --library-path %s %s "$@"' "$(quoted "$parts/bin/qemu-x86_64")" \
        "$(quoted "$parts/lib/ld-linux-x86-64.so.2")" "$(quoted "$parts/lib")" "$(quoted "$1")")
    if [ ! -x "$1.emulated" ] || [ "$(cat "$1.emulated")" != "$script" ]; then
        printf '%s\n' "$script" >"$1.emulated.$$" && chmod +x "$1.emulated.$$" &&
            mv -f "$1.emulated.$$" "$1.emulated" || return 1
    fi
    printf '%s\n' "$1.emulated"
}

# add_packages PACKAGE..: from the distribution's packages, where this user may.
add_packages() {
    as=
    if [ "$(id -u)" != 0 ]; then
        sudo -n true 2>/dev/null || return 1
        as='sudo -n'
    fi
    if command -v apt-get >/dev/null 2>&1; then
        $as apt-get install -y "$@" || { $as apt-get update && $as apt-get install -y "$@"; }
    elif command -v dnf >/dev/null 2>&1; then
        $as dnf install -y "$@"
    elif command -v zypper >/dev/null 2>&1; then
        $as zypper --non-interactive install "$@"
    elif command -v pacman >/dev/null 2>&1; then
        $as pacman -S --noconfirm "$@"
    else
        return 1
    fi
}

# need COMMAND PACKAGE..: the command is there, or is installed, or one sentence says what to install.
need() {
    wanted=$1
    shift
    command -v "$wanted" >/dev/null 2>&1 && return 0
    add_packages "$@" >&2 </dev/null && command -v "$wanted" >/dev/null 2>&1 && return 0
    echo "Please install the package $*: the command $wanted is missing." >&2
    return 1
}

# rust COMMAND..: a command of Rust, the distribution's own where it is there: the tests are to build with the oldest
# compiler that a fresh machine may install, so a newer one beside it is passed over.
rust() (
    [ ! -x "/usr/bin/$1" ] || PATH=/usr/bin:/bin
    exec "$@"
)

# kit: the Rattle kit and the commands that it calls; as root it runs programs as nobody, by setpriv.
kit() {
    if ! command -v rt >/dev/null 2>&1; then
        echo "Please install the Rattle kit and put its command rt on the PATH." >&2
        return 1
    fi
    need awk gawk && need cmp diffutils && need find findutils && { [ "$(id -u)" != 0 ] || need setpriv util-linux; }
}

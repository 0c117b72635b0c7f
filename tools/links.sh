# A folder of links that stands in for the kit, with a clang of ours in it, so that what the kit makes on its way can be
# kept and nothing of the kit is changed: sourced by what keeps it. Whoever sources it has sourced tools/setup.sh.

# stand_in FOLDER: makes it as this folder, in one of its own, since rt keeps what it shares beside its kit; standard
# input is the script for clang. rt finds its kit by the place of its own file, so its two files are copied: FOLDER/bin/rt
# is what to call.
stand_in() {
    home=$(kit_home) tools=$(kit_tools)
    # As root rt runs a program as nobody, who must reach the kit's loader through the links.
    umask 022
    chmod 755 "${1%/*}" && mkdir -p "$1/bin" "$1/toolchain/bin" && cp "$home/bin/rt" "$home/bin/rtlib.py" "$1/bin" || return 1
    for part in "$home"/* "$home/bin"/* "$tools"/* "$tools/bin"/*; do
        place=$1/${part#"$home"/}
        [ -e "$place" ] || ln -s "$part" "$place" || return 1
    done
    rm "$1/toolchain/bin/clang" && cat >"$1/toolchain/bin/clang" && chmod 755 "$1/toolchain/bin/clang"
}

# The programs that tell of tables and runs (tools/view): sourced by ./table, ./bench and their tests. Whoever sources
# it has sourced tools/setup.sh and tools/targets.sh, and has the repository's folder in root.

# newer_than FILE PATH..: true where the file is missing, or something under the paths is newer.
newer_than() (
    file=$1
    shift
    [ ! -x "$file" ] || [ -n "$(find "$@" -type f -newer "$file")" ]
)

# room_for FOLDER: makes it, or says in one sentence that it cannot be.
room_for() {
    { mkdir -p "$1" && [ -w "$1" ]; } 2>/dev/null && return 0
    echo "The folder '$1' cannot be written to, and something must be built there." >&2
    return 1
}

# view_program: builds the program that tells where it is missing or older; prints where it is. It is not optimised:
# that would take four times as long, for whoever waits for a table.
view_program() (
    program=$root/target/view/view
    if newer_than "$program" "$root/tools/view"; then
        need rustc rustc && room_for "$root/target/view" && rust rustc --edition 2021 -D warnings \
            -o "$program.$$" "$root/tools/view/main.rs" && mv -f "$program.$$" "$program" || return 1
    fi >&2
    printf '%s\n' "$program"
)

# calls_program: proves the board library where that is to be done, and builds the program that calls it for the one
# that tells; prints where it is. The library is compiled in a folder of its own, so that no test is disturbed.
calls_program() (
    program=$root/target/view/calls
    cd "$root" && room_for target/view && tools/module board >&2 || return 1
    set -- tests/board/calls.c tests/board/stdio.c
    if newer_than "$program" target/module/board.ll tests/board/pipe.h include "$@"; then
        need cc gcc && library=$(native_library target/view/library 2>target/view/calls.log) &&
            cc -O2 -Iinclude -o "$program.$$" "$@" "$library/libboard.a" 2>>target/view/calls.log &&
            mv -f "$program.$$" "$program" || {
            cat target/view/calls.log
            return 1
        }
    fi >&2
    printf '%s\n' "$program"
)

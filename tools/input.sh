# How a command reads its file: sourced by ./bench, ./table, ./why and ./mend. Whoever sources it has refuse, the
# repository's folder in root, and what it is called in who.

# work_folder: makes work, a temporary folder, which is gone when the command ends.
work_folder() {
    work=$(mktemp -d 2>/dev/null) || refuse 'no temporary folder can be made; TMPDIR may name a place for it.'
    trap 'rm -rf "$work"' EXIT
    trap 'exit 129' HUP
    trap 'exit 130' INT
    trap 'exit 143' TERM
}

# bytes_of OCTAL: the bytes that its lines are printf formats of.
bytes_of() {
    while IFS= read -r line; do
        printf "$line" || return 1
    done <"$1"
}

most=65537 # a byte more than the bench takes

# read_input FILE HEX: the bytes of a file, or of standard input (-), in work/input: of hex where HEX is yes or its name
# ends so, else as they are. They pass through a file, so that a read that fails is seen. Sets named, the file's name
# for a sentence.
read_input() {
    named=$1 hex=$2
    case $1 in
    -) named='standard input' ;;
    *.[hH][eE][xX]) hex=yes ;;
    esac
    if [ "$1" != - ]; then
        [ -e "$1" ] || refuse "there is no file '$1'."
        [ ! -d "$1" ] || refuse "'$1' is a folder and no file."
        [ -r "$1" ] || refuse "'$1' cannot be read."
        exec <"$1" || exit 1
    fi
    if [ "$hex" = yes ]; then
        cat >"$work/text" 2>/dev/null || refuse "'$named' could not be read to its end."
        od -An -v -tu1 <"$work/text" | who=$who named=$named awk -f "$root/tools/hex.awk" >"$work/octal" || exit 1
        bytes_of "$work/octal" >"$work/input" 2>/dev/null || refuse "there is no room for the input in '$work'."
    else
        head -c $most >"$work/input" 2>/dev/null || refuse "'$named' could not be read to its end."
    fi
    exec </dev/null
}

# names_of: the names that a .hex file gives to tasks, flags and subprograms, in a comment '# names: ..'; nothing of any
# other.
names_of() {
    [ "$hex" != yes ] || tr '\r' '\n' <"$work/text" | sed -n 's/^[ \t]*#[ \t]*names:[ \t]*//p' | tr '\n' ','
}

# put_out FILE WHAT: what was made, to standard output, or a sentence; quiet where whoever reads it has enough.
put_out() {
    cat "$1" 2>/dev/null
    ended=$?
    [ $ended -lt 128 ] || exit $ended
    [ $ended -eq 0 ] || refuse "$2 could not be written to standard output."
}

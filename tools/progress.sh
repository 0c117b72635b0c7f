# How far a proof is: sourced by the commands that prove. Whoever sources it has the repository's folder in root.

# crates_below NAME..: prints these crates and those that they rest on, the lowest first; without NAME all.
crates_below() {
    awk -v wanted="$*" '
        function visit(name,    i, n, list) {
            if (name in seen || !(name in rests)) return
            seen[name] = 1
            n = split(rests[name], list, " ")
            for (i = 1; i <= n; i++) visit(list[i])
            print name
        }
        { sub(/#.*/, "") }
        /:/ {
            name = $1
            sub(/:.*/, "", name)
            sub(/^[^:]*:/, "")
            rests[name] = $0
            if (wanted == "") all = all " " name
        }
        END {
            n = split(wanted all, names, " ")
            for (i = 1; i <= n; i++) visit(names[i])
        }' "$root/crates.txt"
}

# What rt says is read line by line by the shell itself: an awk may wait for more before it looks at a line.

# is_done LINE: true where rt ci or rt must-fail says that a crate or a must-fail edit is done.
is_done() {
    case $1 in
    'rt: must-fail '*': '* | 'rt: '[a-z]*' proved' | 'rt: '[a-z]*' NOT PROVED'* | 'rt: '[a-z]*' is kept: '*) return 0 ;;
    *) return 1 ;;
    esac
}

# now_is CRATES..: what is proved next, as the end of a line.
now_is() {
    [ -z "${1-}" ] || printf '; now %s' "$1"
}

# told_of WHO CRATES..: reads what rt says of these crates, the last of which it was called for, and tells a line for each
# that is done, and one before them. rt says which crate it begins with, unless that is built already, and then whether
# it is proved; the crates before one that it begins with are done.
told_of() {
    who=$1 total=$(($# - 1)) done=0 begun=
    shift
    echo "$who: proving $total crates, which takes minutes$(now_is "$1")"
    while IFS= read -r line; do
        printf '%s\n' "$line" >&4
        case $line in
        'rt: chose --jobs '*' for '*)
            begun=$(date +%s) name=${line##* for }
            while [ $# -gt 0 ] && [ "$1" != "$name" ]; do
                done=$((done + 1)) told=$1
                shift
                echo "$who: $told proved before, $done of $total$(now_is "$@")"
            done
            continue
            ;;
        'logic=proved '*) verb=proved ;;
        'logic=not-proved'*) verb='NOT PROVED' ;;
        *) continue ;;
        esac
        how=' before' done=$((done + 1)) told=${1-}
        [ -z "$begun" ] || how=" in $(($(date +%s) - begun)) s"
        begun=
        [ $# -eq 0 ] || shift
        echo "$who: $told $verb$how, $done of $total$(now_is "$@")"
    done
}

# proving WHO LOG NAME COMMAND..: a command of rt that proves the crate NAME and what it rests on. What it says goes to
# LOG, and a line a crate to standard error: which of how many, and its seconds. The status is the command's.
proving() {
    who=$1 said=$2 crates=$(crates_below "$3")
    shift 3
    ended=$({ { "$@" 3>&- 2>&1; echo $? >&3; } | told_of "$who" $crates 4>"$said" >&2; } 3>&1)
    return "$ended"
}

# built NAME [RT]: has rt, or another command in its place, prove and build the program or the library for C NAME, and
# leaves it as target/bin/NAME or target/staticlib/libNAME.a. A program is run by that, on its own input. The archive of
# NAME_c is libNAME.a. Whoever calls it has sourced tools/setup.sh.
built() (
    name=$1 rt=${2-rt} made=$root/crates/$1/out
    cd "$root/crates/$name" || exit 1
    if [ -e src/main.rt ]; then
        given=/dev/null
        [ ! -e stdin ] || given=stdin
        "$rt" run <$given >/dev/null && mkdir -p "$root/target/bin" &&
            cp "$made/$name" "$root/target/bin/$name.$$" && mv -f "$root/target/bin/$name.$$" "$root/target/bin/$name"
    else
        archive=$root/target/staticlib/lib${name%_c}.a
        "$rt" lib && mkdir -p "$root/target/staticlib" && cp "$made/lib$name.a" "$archive.$$" &&
            mv -f "$archive.$$" "$archive"
    fi
)

# counted TOTAL: what rt says, as it comes; each crate and each must-fail edit that is done is counted. A tally is
# marked as rt's own.
counted() {
    done=0
    while IFS= read -r line; do
        case $line in [0-9]*' passed, '[0-9]*' failed') line="rt: $line" ;; esac
        if is_done "$line"; then
            done=$((done + 1))
            line="$line [$done of $1]"
        fi
        printf '%s\n' "$line"
    done
}

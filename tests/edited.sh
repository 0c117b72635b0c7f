# How an edit is made in a copy: sourced by the tests that try edits. Whoever sources it has refuse, and a folder made.

# edited EDIT FOLDER: makes each replacement of an edit in the folder; each text must stand there exactly once. It runs in
# a shell of its own, so that its variables are nobody else's: where it says that an edit does not fit, its status is 1.
edited() (
    edit=$1 folder=$2 file='' old=''
    while IFS= read -r line || [ -n "$line" ]; do
        case $line in
        'file: '*) file=$folder/${line#file: } ;;
        'old: '*) old=${line#old: } ;;
        'new: '*)
            [ -f "$file" ] || refuse "$edit names no file of the crates."
            OLD=$old NEW=${line#new: } awk '
                { text = text $0 "\n" }
                END {
                    old = ENVIRON["OLD"]
                    at = index(text, old)
                    rest = substr(text, at + length(old))
                    if (old == "" || !at || index(rest, old)) exit 1
                    printf "%s%s%s", substr(text, 1, at - 1), ENVIRON["NEW"], rest
                }' "$file" >"$made/edited" || refuse "$edit: '$old' does not stand exactly once in $file."
            mv "$made/edited" "$file" || exit 1
            ;;
        esac
    done <"$edit"
)

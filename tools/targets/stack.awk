# The deepest stack of each entry of a library, from its frames and its calls: awk [-v ..] -f stack.awk FILE.su FILE.s
# FILE.su is what clang's -fstack-usage says of the frames, FILE.s the assembly text that the library is made of.
#   entries   the functions to tell of
#   wanted    the bytes that a function of another library counts for
#   pushed    the bytes that a call itself pushes (8 on x86-64)
#   rounds    'ENTRY N ..': below this entry functions may call each other in a circle, which is proved to come round N
#             times at most; the bound is then N times that of one round with all it calls
# Prints 'stack ENTRY BYTES' for each entry, and 'wants NAME' for each function that the library calls and has not.
# It refuses any other recursion, a call through a register and a frame of no fixed size.

function refuse(why) {
    print "the stack has no bound: " why > "/dev/stderr"
    refused = 1
    exit 1
}

function bare(name) {
    gsub(/"/, "", name)
    sub(/@PLT$/, "", name)
    return name
}

# The bytes that a function and all it calls take at most. What is counted inside a circle is not kept.
function depth(name,    list, count, i, below, most) {
    while (name in alias) name = alias[name]
    if (!(name in is_here)) { wants[name] = 1; return wanted }
    if (name in known) return known[name]
    if (name in open) {
        if (!times) refuse("recursion through " name)
        if (circle != "" && circle != name) refuse("two circles, through " circle " and " name)
        circle = name
        return 0
    }
    if (!(name in frame)) refuse("no frame is known of " name)
    open[name] = 1
    count = split(calls[name], list, "\n")
    for (i = 1; i <= count; i++) {
        below = pushed + depth(list[i])
        if (below > most) most = below
    }
    delete open[name]
    if (circle == "") return known[name] = frame[name] + most
    if (circle != name) return frame[name] + most
    circle = ""
    return known[name] = times * (frame[name] + most)
}

BEGIN {
    # a call or a last jump to a name; through a register; a jump through a register, as a switch has with its table
    direct = "^(bl|b|b\\.w|call|callq|tail|jmp|jmpq|j)$"
    through = "^(blx|blr|jalr|bx|br|jr)$"
    jump = "^(br|jr|jmp|jmpq)$"
}

# ---- FILE.su: FILE:NAME <tab> bytes <tab> static
FILENAME ~ /\.su$/ {
    count = split($0, part, "\t")
    name = part[1]
    sub(/^[^:]*:/, "", name)
    if (part[count] != "static") refuse(name " has a frame that is " part[count])
    frame[bare(name)] = part[count - 1] + 0
    next
}

# ---- FILE.s
$1 == ".type" && /[%@]function/ {
    name = $2
    sub(/,[%@]function.*/, "", name)
    is_function[bare(name)] = 1
    next
}
$1 == ".set" { # one name for another function
    name = $2
    sub(/,$/, "", name)
    alias[bare(name)] = bare($3)
    next
}
/^[^ \t.#@;][^ \t]*:/ { # a label
    name = $1
    sub(/:$/, "", name)
    name = bare(name)
    if (name in is_function) { here = name; is_here[here] = 1; has_table = 0 }
    next
}
/\.LJTI/ { has_table = 1 }
($1 ~ through && $2 != "lr") || ($1 ~ direct && $2 ~ /^\*/) {
    if ($1 !~ jump || !has_table) refuse(here " calls through a register: " $0)
    next
}
$1 ~ direct && $2 !~ /^\.L/ { calls[here] = calls[here] (calls[here] == "" ? "" : "\n") bare($2) }

END {
    if (refused) exit 1
    count = split(rounds, list, " ")
    for (i = 1; i < count; i += 2) round[list[i]] = list[i + 1]
    count = split(entries, list, " ")
    for (i = 1; i <= count; i++) {
        if (!(list[i] in is_here)) refuse("there is no function " list[i])
        times = round[list[i]] + 0
        print "stack " list[i] " " depth(list[i])
    }
    for (name in wants) print "wants " name | "sort"
}

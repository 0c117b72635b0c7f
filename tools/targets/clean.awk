# Whether an LLVM module rests on the width of a pointer, or on what a small processor lacks: awk -f clean.awk FILE.ll
# Refused, each with its function:
# - a pointer made a number or a number a pointer, a comparison of pointers but with null, inline assembly, a call
#   through a pointer
# - an address that is not made by bytes (getelementptr i8)
# - a slot that is accessed as a pointer and as something else, and a slot of a pointer that is narrower than 8 bytes
# - a division but by a power of two, which a processor without division would need a helper for
# - any other instruction than those that are known to be right; numbers over 64 bits, floats, vectors; any other
#   aggregate than a pair. A pair of numbers lies in a slot as each number would, at a multiple of its own length: so it
#   does on x86-64, and on each target whose layout has i64:64
# - a pair with a pointer, which is shorter on 32 bits, but as a value in registers, and in a load as retarget.awk
#   takes it, by halves
# That a slot is accessed at two widths of numbers is let pass: all targets have the lowest byte first.

function refuse(why) {
    print "the module is not clean for 32 bits: " here ": " why > "/dev/stderr"
    if (++refused >= 20) exit 1
}

function is_power_of_two(word,    n) {
    n = word + 0
    if (word !~ /^[0-9]+$/ || n < 1) return 0
    while (n % 2 == 0) n /= 2
    return n == 1
}

# A load or store of a type at an address: the slot is a base and an offset from it.
function access(type, address,    base, offset) {
    sub(/,$/, "", address)
    base = (address in base_of) ? base_of[address] : address
    offset = (address in offset_of) ? offset_of[address] : 0
    if (type == "ptr") pointer_at[base, offset] = 1
    else number_at[base, offset] = type
}

# How many bytes a number or a pointer has on x86-64.
function bytes(type) { return type == "ptr" ? 8 : substr(type, 2) / 8 }

# The two halves of a pair, as access() has them.
function access_pair(first, second, address,    base, offset) {
    sub(/,$/, "", address)
    sub(/,$/, "", first)
    access(first, address)
    base = (address in base_of) ? base_of[address] : address
    offset = (address in offset_of) ? offset_of[address] : 0
    offset += bytes(second) > bytes(first) ? bytes(second) : bytes(first)
    if (second == "ptr") pointer_at[base, offset] = 1
    else number_at[base, offset] = second
}

# That the eight bytes of each pointer's slot are accessed as a pointer alone.
function end_of_function(    slot, part, near, other, width) {
    for (slot in pointer_at) {
        split(slot, part, SUBSEP)
        for (near = -7; near < 8; near++) {
            if (!((part[1], part[2] + near) in number_at)) continue
            other = number_at[part[1], part[2] + near]
            width = substr(other, 2) / 8
            if (near >= 0 || near + width > 0)
                refuse(part[1] " + " part[2] " holds a pointer, and " other " is accessed at " near " from it")
        }
    }
    split("", base_of)
    split("", offset_of)
    split("", pointer_at)
    split("", number_at)
    inside = 0
}

# A text in which no pair that is let pass has its braces: one of numbers; and with a pointer one that is a value's type,
# before the value. The type of what lies in memory stands elsewhere: as a whole, in an array, in the parentheses of byval.
function without_pairs(text) {
    gsub(/"[^"]*"/, "name", text) # a name may hold braces
    gsub(/[{] i(8|16|32|64), i(8|16|32|64) [}]/, "pair", text)
    gsub(/[{] (i(8|16|32|64)|ptr), (i(8|16|32|64)|ptr) [}] /, "pair ", text)
    return text
}

BEGIN {
    count = split("alloca load store getelementptr call br ret icmp zext sext trunc add sub mul udiv urem and or " \
                  "xor shl lshr switch unreachable select phi extractvalue", list, " ")
    for (i = 1; i <= count; i++) known[list[i]] = 1
}

/^define / {
    inside = 1
    here = $0
    sub(/^[^@]*@/, "", here)
    sub(/\(.*/, "", here)
    functions++
    bare = without_pairs($0)
    if (bare ~ /[{].*ptr.*[}]/) refuse("an aggregate that is no pair in a register: " $0)
    next
}
/^}/ { end_of_function(); next }
!inside || !/^  / { next }

{
    line = $0
    sub(/^ +/, "", line)
    result = ""
    if (match(line, /^%[^ ]+ = /)) {
        result = substr(line, 1, RLENGTH - 3)
        line = substr(line, RLENGTH + 1)
    }
    sub(/^(tail|musttail|notail) /, "", line)
    count = split(line, word, " ")
    operation = word[1]
}
operation ~ /^(i[0-9]+|\])/ { next } # a case of a switch
{ instructions++ }
!(operation in known) { refuse("an instruction that is not known to be right: " line) }
line ~ /(^|[^a-zA-Z0-9_.%])(i128|float|double|half|fp128|x86_fp80|<[0-9]+ x)/ {
    refuse("a number that small processors lack: " line)
}
line ~ /[{}]/ {
    bare = without_pairs(line)
    sub(/^load [{] (i(8|16|32|64)|ptr), (i(8|16|32|64)|ptr) [}], ptr [^ ]+, align 8(,|$)/, "load pair", bare)
    if (bare ~ /[{}]/ || operation == "store") { refuse("an aggregate that is no pair in a register: " line); next }
}
operation == "icmp" && word[3] == "ptr" && line !~ /^icmp (eq|ne) ptr [^ ]+, null$/ { refuse("a comparison of pointers: " line) }
line ~ / asm / { refuse("inline assembly: " line) }
operation == "call" && line !~ /^call [^%]*@/ { refuse("a call through a pointer: " line) }
operation ~ /^(udiv|urem)$/ && !is_power_of_two(word[count]) {
    refuse("a division that is not by a power of two: " line)
}
operation == "getelementptr" {
    if (line !~ /^getelementptr (inbounds |nuw |nusw )*i8, ptr [^ ]+, i64 [^ ]+$/)
        refuse("an address that is not made by bytes: " line)
    else if (word[count] ~ /^[0-9]+$/) {
        base = word[count - 2]
        sub(/,$/, "", base)
        base_of[result] = (base in base_of) ? base_of[base] : base
        offset_of[result] = word[count] + ((base in offset_of) ? offset_of[base] : 0)
    }
}
operation == "load" && word[2] == "{" { access_pair(word[3], word[4], word[7]); next }
operation == "load" { sub(/,$/, "", word[2]); access(word[2], word[4]) }
operation == "store" { access(word[2], word[5]) }

END {
    if (!functions) { here = FILENAME; refuse("it has no function") }
    if (refused) exit 1
    print "the module is clean: " functions " functions, " instructions " instructions"
}

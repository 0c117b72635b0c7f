# An LLVM module for x86-64 as one for another: awk -v triple=T -v layout=L -v exports=N -f retarget.awk FILE.ll
# The edits: triple and layout are replaced; three attributes that are of x86-64 go; each of the N exported functions
# that return a byte extends it to a whole register (zeroext), which callers on Arm-32 and RISC-V count on and the kit
# does not say; and each load of a pair with a pointer becomes two, of its halves, which lie where x86-64 has them. Each
# edit must match as often as expected, the last one as often as an aggregate with a pointer is loaded, and nothing of
# x86-64 may be left: else the status is 1.
# For the trials something may be planted (-v plant=..): dirty, that the functions leave a bit above the byte that they
# return, as they may where nothing says that it is extended; or bare, that they do, and that it is not extended, which
# is the fault to be found.

function refuse(why) {
    print "the module cannot be retargeted: " why > "/dev/stderr"
    refused = 1
    exit 1
}

BEGIN { if (layout !~ /-i64:64-/) refuse("its layout does not say that a number of 64 bits lies at a multiple of eight") }

/^target triple = / { $0 = "target triple = \"" triple "\""; triples++ }
/^target datalayout = / { $0 = "target datalayout = \"" layout "\""; layouts++ }
/^attributes / { attributes += sub(/ "probe-stack"="inline-asm" "stack-probe-size"="3072" "target-cpu"="x86-64-v2"/, "") }
/^define / { exported = !/^define internal / }
/ load [^{]*[{][^}]*ptr/ { wholes++ }
/^  %[^ ]+ = load [{] (i(8|16|32|64), ptr|ptr, (i(8|16|32|64)|ptr)) [}], ptr [^ ]+, align 8(,|$)/ {
    halved++
    first = substr($5, 1, length($5) - 1)
    pair = "{ " first ", " $6 " }"
    print "  " $1 ".first = load " first ", ptr " substr($9, 1, length($9) - 1)
    print "  " $1 ".place = getelementptr i8, ptr " $9 " i64 8"
    print "  " $1 ".second = load " $6 ", ptr " $1 ".place"
    print "  " $1 ".half = insertvalue " pair " poison, " first " " $1 ".first, 0"
    $0 = "  " $1 " = insertvalue " pair " " $1 ".half, " $6 " " $1 ".second, 1"
}
exported && /^define noundef i8 @/ {
    if (plant != "bare") sub(/noundef i8/, "noundef zeroext i8")
    extended++
}
exported && plant != "" && /^  ret i8 / { # the empty assembly hides from the compiler what the bits are
    print "  %wide = zext i8 " $3 " to i32"
    print "  %more = or i32 %wide, 65536"
    print "  %same = call i32 asm sideeffect \"\", \"=r,0\"(i32 %more)"
    print "  %byte = trunc i32 %same to i8"
    $0 = "  ret i8 %byte"
}
/x86|probe-stack|stack-probe/ { refuse("line " NR " still names x86-64: " $0) }
{ print }

END {
    if (refused) exit 1
    if (triples != 1) refuse("it has " triples + 0 " triples, and not 1")
    if (layouts != 1) refuse("it has " layouts + 0 " layouts, and not 1")
    if (attributes != 1) refuse("it has " attributes + 0 " lists of attributes for x86-64, and not 1")
    if (halved != wholes) refuse(halved + 0 " loads of a pair with a pointer are made two, and not " wholes + 0)
    if (extended != exports) refuse(extended + 0 " exported functions return a byte, and not " exports)
}

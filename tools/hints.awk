# What is wrong with a configuration that gave 'stop 2': its bytes as numbers (od -An -v -tu1), to one sentence.
# The file's name is in the environment, as named.

function tell(words) {
    printf "bench: %s\n", words
    exit
}

function wrong(place, why) {
    tell(sprintf("the configuration is wrong at byte %d (%02X): %s.", place, byte[place], why))
}

function is_digit(b) { return b >= 48 && b <= 57 || b >= 65 && b <= 70 || b >= 97 && b <= 102 }

# Whether all that is no comment is hex digits and blanks, and there is some.
function looks_like_hex(    i, comment, digits) {
    for (i = 1; i <= n; i++) {
        if (byte[i] == 10 || byte[i] == 13) comment = 0
        else if (byte[i] == 35) comment = 1
        else if (comment || byte[i] == 32 || byte[i] == 9) continue
        else if (is_digit(byte[i])) digits++
        else return 0
    }
    return digits > 1
}

# The first byte that breaks a rule, from the first on; what stands where is in tasks and i.
function judge(    i, tasks) {
    if (n == 0) tell("the input is empty; it begins with a configuration, 40 and the granule.")
    if (byte[1] != 64) wrong(1, "a configuration begins with 40")
    if (n > 1 && byte[2] == 0) wrong(2, "the granule is 1 to 255 ms")
    for (i = 3; i <= n && byte[i] == 65; i += 3) {
        if (++tasks > 16) wrong(i, "there are 16 tasks at most, and this is one more")
        if (i + 1 <= n && byte[i + 1] > 15) wrong(i + 1, "a task\047s own priority is 0 to 15")
        if (i + 2 <= n && byte[i + 2] > 1) wrong(i + 2, "a task\047s mark is 0, not started, or 1, started")
    }
    if (i <= n && byte[i] != 66) wrong(i, "after the granule, and after a task, comes a task (41) or the end (42)")
    if (i <= n && !tasks) wrong(i, "the configuration has no task (41)")
    tell(sprintf("the input ends within the configuration, after %d bytes; 42 ends a configuration.", n))
}

{ for (k = 1; k <= NF; k++) byte[++n] = $k + 0 }

END {
    if (looks_like_hex())
        tell("\047" ENVIRON["named"] "\047 looks like hex, and was taken as it is; say --hex, or name it .hex.")
    judge()
}

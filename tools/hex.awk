# Hex with comments, its bytes as numbers (od -An -v -tu1), to printf formats in octal, 64 bytes a line.
# A line ends with LF, CR or both. What is no hex is told on standard error with its line, and the status is 1.
# Who reads which file stands in the environment, as who and named.

function stop(why) {
    printf "%s: \047%s\047, line %d: %s.\n", ENVIRON["who"], ENVIRON["named"], line, why | "cat >&2"
    failed = 1
    exit 1
}

function word_ends() {
    if (half != "") stop("an odd number of hex digits in a row")
}

function digit(b) {
    if (b >= 48 && b <= 57) return b - 48
    if (b >= 65 && b <= 70) return b - 55
    if (b >= 97 && b <= 102) return b - 87
    stop("a character that is no hex digit")
}

function put(d) {
    if (half == "") {
        half = d
        return
    }
    text = text sprintf("\\%03o", half * 16 + d)
    half = ""
    if (++n % 64 == 0) {
        print text
        text = ""
    }
}

BEGIN { line = 1 }

{
    for (i = 1; i <= NF; i++) {
        b = $i + 0
        if (b == 10 || b == 13) {
            word_ends()
            if (b == 13 || last != 13) line++
            comment = 0
        }
        else if (b == 35 && !comment) {
            word_ends()
            comment = 1
        }
        else if (!comment && (b == 32 || b == 9)) word_ends()
        else if (!comment) put(digit(b))
        last = b
    }
}

END {
    if (failed) exit 1
    word_ends()
    if (text != "") print text
}

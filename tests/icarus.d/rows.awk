# Draws rows of inputs for a module within its widths: the first input behind the clock, a reset, is up in the first row and seldom later;
# others have small numbers, so that they repeat. They are known, but for so many as `unknown` says, from 0 to 1: these have some unknown bits.
#   awk -v rows=COUNT [-v unknown=SHARE] [-v digits=1] -f rows.awk MODULE.v
# Numbers are decimal, values with unknown bits binary behind a `b`; with `digits` all are plain binary digits.
{ sub(/\/\/.*/, "") }
$1 == "input" {
    text = $0
    sub(/^ *input */, "", text)
    bits = 1
    if (match(text, /^\[[0-9]+/)) bits = substr(text, 2, RLENGTH - 1) + 1
    for (n = split(text, names, ","); n > 0; n--) width[++inputs] = bits
}
# The number as a value of so many bits; the first row is known.
function value(number, bits,    text, mark, i) {
    mark = unknown > 0 && rand() < unknown && k > 0
    for (i = 0; i < bits; i++) {
        text = (mark && rand() < 0.5 ? "x" : int(number / 2 ^ i) % 2) text
    }
    if (digits) return text
    return text ~ /x/ ? "b" text : number
}
END {
    srand(7)
    for (k = 0; k < rows; k++) {
        number = k == 0 || rand() < 0.02 ? 1 : 0
        if (width[2] > 1) number = int(rand() * 2 ^ width[2])
        line = value(number, width[2])
        for (i = 3; i <= inputs; i++) line = line " " value(int(rand() * 2 ^ (width[i] < 3 ? width[i] : 3)), width[i])
        if (k % 4 == 3) line = before
        print line
        before = line
    }
}

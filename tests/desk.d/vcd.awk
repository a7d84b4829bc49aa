# Reads a value change dump and prints a line for each cycle: its number, and the values of registers and wires after the clock's rise,
# in decimal, x where no bit is known, else b and the bits. Registers are the variables of kind `reg`, wires those after the last of them.
function decimal(bits,    n, i) {
    if (bits ~ /^[xX]+$/) return "x"
    if (bits ~ /[xX]/) return "b" tolower(bits)
    n = 0
    for (i = 1; i <= length(bits); i++) n = 2 * n + substr(bits, i, 1)
    return sprintf("%.0f", n)
}
function show(    i, seen, line) {
    if (time < 0 || time % 10 != 5 || time < 15) return
    line = (time - 15) / 10
    seen = 0
    for (i = 1; i <= count; i++) {
        if (kind[i] == "reg") seen = 1
        if (seen) line = line " " value[code[i]]
    }
    print line
}
BEGIN { time = -1 }
$1 == "$var" { count++; kind[count] = $2; code[count] = $4; next }
/^\$/ { next }
/^#/ { show(); time = substr($1, 2) + 0; next }
/^b/ { value[$2] = decimal(substr($1, 2)); next }
/^[01xX]/ { value[substr($1, 2)] = decimal(substr($1, 1, 1)); next }
END { show() }

# Reads a value change dump and prints, for every fifth unit of time up to `last`, the values of all variables by name, in all their binary
# digits: those that are left out are x where the first is x, else 0.
function plain(bits, code,    front) {
    bits = tolower(bits)
    front = substr(bits, 1, 1) == "x" ? "x" : "0"
    while (length(bits) < width[code]) bits = front bits
    return bits
}
function show(upto,    i) {
    for (; shown < upto && shown <= last; shown += 5)
        for (i = 1; i <= count; i++) print shown, name[i], value[code[i]] | "sort -k1,1n -k2,2"
}
BEGIN { shown = 0 }
$1 == "$var" { name[++count] = $5; code[count] = $4; width[$4] = $3; next }
/^\$/ { next }
/^#/ { show(substr($1, 2) + 0); next }
/^b/ { value[$2] = plain(substr($1, 2), $2); next }
/^[01xX]/ { value[substr($1, 2)] = plain(substr($1, 1, 1), substr($1, 2)); next }
END { show(last + 5) }

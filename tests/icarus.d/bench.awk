# Writes a test bench that runs a module as the command does: row k of the inputs with the clock low at time 10 k + 10, the clock's rise at
# 10 k + 15, and at 10 k + 19 a row of the table.
#   awk -v rows=INPUTS [-v digits=1] [-v wave=WAVE] [-v heading=TITLES] -f bench.awk MODULE.v
# With `digits` the inputs are binary digits, x among them, else decimal numbers.
# `heading` is the first line of the command's table; without it no table is printed, without `wave` no waveform is written.
{ sub(/\/\/.*/, "") }
$1 == "module" { module = $2; sub(/\(.*/, "", module) }
$1 == "input" {
    text = $0
    sub(/^ *input */, "", text)
    range = ""
    if (match(text, /^\[[^]]*\]/)) {
        range = substr(text, 1, RLENGTH) " "
        text = substr(text, RLENGTH + 1)
    }
    gsub(/[ ;]/, "", text)
    n = split(text, names, ",")
    for (i = 1; i <= n; i++) {
        name[++inputs] = names[i]
        shape[inputs] = range
    }
}
# The table's columns: as wide as their titles with the blanks in front.
function columns(    rest, format, values, word) {
    rest = heading
    while (match(rest, /^ *[^ ]+/)) {
        word = substr(rest, 1, RLENGTH)
        format = format "%" RLENGTH "d"
        gsub(/ /, "", word)
        values = values ", " (values == "" ? "cycle" : "m." word)
        rest = substr(rest, RLENGTH + 1)
    }
    return "\"" format "\"" values
}
END {
    print "module bench;"
    print "  integer file, got, cycle;"
    for (i = 1; i <= inputs; i++) print "  reg " shape[i] name[i] ";"
    for (i = 2; i <= inputs; i++) print "  reg " shape[i] "next_" name[i] ";"
    for (i = 2; i <= inputs; i++) {
        format = format (i == 2 ? "" : " ") (digits ? "%b" : "%d")
        targets = targets ", next_" name[i]
        taken = taken " " name[i] " = next_" name[i] ";"
    }
    ports = name[1]
    for (i = 2; i <= inputs; i++) ports = ports ", " name[i]
    read = "got = $fscanf(file, \"" format "\"" targets ");"
    print "  " module " m(" ports ");"
    print "  initial begin"
    if (wave != "") print "    $dumpfile(\"" wave "\"); $dumpvars(0, m);"
    if (heading != "") print "    $display(\"" heading "\");"
    print "    file = $fopen(\"" rows "\", \"r\");"
    print "    cycle = 0;"
    print "    " read
    print "    #10;"
    print "    while (got == " inputs - 1 ") begin"
    print "      " name[1] " = 0;" taken
    print "      #5 " name[1] " = 1;"
    print "      #4 " (heading == "" ? ";" : "$display(" columns() ");")
    print "      #1 cycle = cycle + 1;"
    print "      " read
    print "    end"
    print "    $finish;"
    print "  end"
    print "endmodule"
}

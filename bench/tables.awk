# The tables of docs/BENCHMARKS.md from the lines
#     MACHINE CALL M MEASURE UNITS COUNT
# MACHINE is proved or plain. A measure with two numbers of units gives what one unit adds; any other the mean of its calls.

function key(machine, measure, size) { return machine " " measure " " size }

$4 != "-" {
    k = key($1, $4, $3)
    if (!(k in calls)) { units[k] = $5; first[k] = $6 }
    else if ($5 != units[k]) slope[k] = ($6 - first[k]) / ($5 - units[k])
    calls[k]++
    sum[k] += $6
    if ($6 > largest[k]) largest[k] = $6
}

# A number: whole, or with one digit behind the point; whole from 1,000 on, with commas.
function shown(x,    s, n) {
    if (x == "") return "–"
    if (x < 1000) return x == int(x) ? sprintf("%d", x) : sprintf("%.1f", x)
    s = sprintf("%.0f", x)
    for (n = length(s) - 3; n > 0; n -= 3) s = substr(s, 1, n) "," substr(s, n + 1)
    return s
}

function value(machine, measure, size,    k) {
    k = key(machine, measure, size)
    if (!(k in calls)) return ""
    return k in slope ? slope[k] : sum[k] / calls[k]
}

# What a block adds to a call of linear cost.
function per_block(machine, measure) {
    return (value(machine, measure, 4096) - value(machine, measure, 1024)) / 3072
}

# A row of the first table. What checked C and tuned C take was counted elsewhere, and is given where it is of the same work.
function first_row(text, proved, plain, checked, tuned) {
    printf "| %s | %s | %s | %s | %s |\n", text, shown(proved), shown(plain), shown(checked), shown(tuned)
    beside("plain", text, proved, plain)
    beside("checked", text, proved, checked)
    beside("tuned", text, proved, tuned)
}

# Keeps the row in mind where it is above this column.
function beside(column, text, proved, other) {
    if (other != "" && proved > other) above[column] = (above[column] == "" ? "" : above[column] "; ") text
}

function row(text, measure, checked, tuned) {
    first_row(text, value("proved", measure, 1024), value("plain", measure, 1024), checked, tuned)
    texts[++rows] = text; measures[rows] = measure
}

function block_row(text, measure, checked) {
    first_row(text ", each block", per_block("proved", measure), per_block("plain", measure), checked, "")
    linear_texts[++linear] = text; linear_measures[linear] = measure
}

function above_list(column, words) {
    print "\n**Above " words ":** " (above[column] == "" ? "none" : above[column]) "."
}

function size_row(text, measure) {
    printf "| %s | %s | %s | %s |\n", text, shown(value("proved", measure, 1024)), shown(value("proved", measure, 4096)), shown(value("proved", measure, 16384))
}

# What a block adds to Allocate chain, less the unit that it pays for. It does not depend on M.
function chain_row(machine, text) {
    printf "| %s | %s | %s | %s |\n", text, shown(value(machine, "chain", 1024)), shown(value(machine, "sweeping-free", 1024)), shown(value(machine, "chain", 1024) - value(machine, "sweeping-free", 1024))
}

# A call on field k, and what each block walked adds: from field 6, in the first block, to 1,791, in the 256th.
function field_row(machine, text, measure) {
    printf "| %s | %s | %s | %s | %s | %s |\n", text, shown(value(machine, measure "-6", 1024)), shown(value(machine, measure "-7", 1024)), shown(value(machine, measure "-70", 1024)), shown(value(machine, measure "-1791", 1024)), shown((value(machine, measure "-1791", 1024) - value(machine, measure "-6", 1024)) / 255)
}

# What a row adds to an export: of one block by Export and by Export objects, of two blocks, and what each block adds to a longer row.
function export_row(machine, text,    long) {
    long = (value(machine, "export-objects-100", 1024) - value(machine, "export-objects-2", 1024)) / 98
    printf "| %s | %s | %s | %s | %s |\n", text, shown(value(machine, "export", 1024)), shown(value(machine, "export-objects-1", 1024)), shown(value(machine, "export-objects-2", 1024)), shown(long)
}

# In microseconds, at 3 GHz.
function time(n) { return sprintf("%.2f to %.2f", n / 9000, n / 6000) }

function worst_row(text, machine,    k) {
    k = key(machine, "long", 1024)
    printf "| %s | %s | %s | %s | %s |\n", text, shown(sum[k] / calls[k]), shown(largest[k]), shown(largest[key(machine, "dear", 1024)]), time(largest[key(machine, "dear", 1024)])
}

# Of the small report: Allocate's mean, a whole cycle, and its units.
function small_row(text, machine) {
    printf "| %s | %s | %s | %s |\n", text, shown(value(machine, "small", 16384)), shown(value(machine, "small-cycle", 16384)), shown(units[key(machine, "small-cycle", 16384)])
}

function small_table() {
    print "\n### A small report on the largest heap: 100 rows, U = 10, M = 16,384\n"
    printf "| Instructions | Allocate, mean of %s | A whole cycle in one Work | Units of that cycle |\n", shown(calls[key("proved", "small", 16384)])
    print "|---|---:|---:|---:|"
    small_row("Proved", "proved")
    small_row("Plain C", "plain")
}

END {
    if (small) { small_table(); exit }
    print "\n### Each unit and each call\n"
    print "| Instructions | Proved | Plain C | Checked C, elsewhere | Tuned C, elsewhere |"
    print "|---|---:|---:|---:|---:|"
    row("Marking, no references", "marking-0", 24, 17)
    row("Marking, 1 reference to a black block", "marking-1", 49, 36)
    row("Marking, 2 references to a black block", "marking-2", 64, 48)
    row("Marking, 8 references to a black block", "marking-8", 154, 120)
    row("Marking, 1 reference to a grey block", "marking-grey-1", 54, 40)
    row("Marking, 2 references to a grey block", "marking-grey-2", 74, 56)
    row("Marking, 8 references to a grey block", "marking-grey-8", 194, 152)
    row("Marking, 1 reference to a white block", "marking-white-1", 63)
    row("Marking, 2 references to white blocks", "marking-white-2", 95)
    row("Marking, 8 references to white blocks", "marking-white-8", 254)
    row("Sweeping a free block", "sweeping-free", 21, 7)
    row("Sweeping a black block", "sweeping-black", 28, 13)
    row("Sweeping a white block, which is freed", "sweeping-white", 45, 21)
    row("Starting a cycle", "starting")
    row("Turning to the sweep", "turning")
    row("Work of one unit, which starts a cycle", "starting-alone", 128, 118)
    row("Work of one unit, which turns to the sweep", "turning-alone", 123, 110)
    row("Work of no units", "work-0", 102)
    row("Read", "read", 90)
    row("Look", "look", 73)
    row("State", "state")
    row("Store number", "store-number", 97)
    row("Store reference, idle", "store-reference", 133)
    row("Store reference, marking, a white target", "store-reference-white", 136)
    row("Set root, idle", "set-root", 86)
    row("Set root, marking, a white target", "set-root-white", 95)
    row("Allocate at U = 4, eight blocks live", "allocate-4", 331, 289)
    row("Allocate at U = 10, eight blocks live", "allocate-10", 459, 333)
    row("Allocate at U = 4, a quarter lives in a list", "allocate-list-4", 369, 321)
    row("Allocate at U = 10, a quarter lives in a list", "allocate-list-10", 554, 424)
    block_row("Audit, a free heap", "audit-free", 35)
    block_row("Audit, a mixed heap", "audit-mixed")
    block_row("Audit, eight references in every block", "audit-8", 142)
    block_row("Format", "format", 17.4)
    block_row("Save, a free heap", "save-free")
    block_row("Save, eight references in every block", "save-8")
    block_row("Load, a free heap", "load-free")
    block_row("Load, eight references in every block", "load-8")
    block_row("Why, a free block", "why-free")
    block_row("Why, the last block of a list", "why-list")
    block_row("Why, eight references in every block", "why-8")
    above_list("plain", "plain C")
    above_list("checked", "checked C")
    above_list("tuned", "tuned C")

    print "\n### The worst Allocate, U = 10, M = 1,024\n"
    printf "| Instructions | Mean of %s | Largest of %s | The dearest call | Estimate of it, microseconds |\n", shown(calls[key("proved", "long", 1024)]), shown(calls[key("proved", "long", 1024)])
    print "|---|---:|---:|---:|---:|"
    worst_row("Proved", "proved")
    worst_row("Plain C", "plain")

    small_table()

    print "\n### Objects longer than a block, M = 1,024\n"
    print "| Instructions of Allocate chain | Each block, with its unit | The unit: sweeping a free block | Each block beyond its unit |"
    print "|---|---:|---:|---:|"
    chain_row("proved", "Proved")
    chain_row("plain", "Plain C")
    print "\n| Instructions, by the field | k = 6 | k = 7 | k = 70 | k = 1,791 | Each block walked |"
    print "|---|---:|---:|---:|---:|---:|"
    field_row("proved", "Read field, proved", "read-field")
    field_row("plain", "Read field, plain C", "read-field")
    field_row("proved", "Store field number, proved", "store-field-number")
    field_row("plain", "Store field number, plain C", "store-field-number")
    field_row("proved", "Store field reference, proved", "store-field-reference")
    field_row("plain", "Store field reference, plain C", "store-field-reference")

    print "\n### Exports, M = 1,024\n"
    print "| Instructions | Export, each row | Export of objects, each row of 7 fields | Each row of 14 fields | Each block more |"
    print "|---|---:|---:|---:|---:|"
    export_row("proved", "Proved")
    export_row("plain", "Plain C")

    print "\n### With the size of the heap, proved\n"
    print "| Instructions | M = 1,024 | M = 4,096 | M = 16,384 |"
    print "|---|---:|---:|---:|"
    for (i = 1; i <= rows; i++) size_row(texts[i], measures[i])
    for (i = 1; i <= linear; i++) size_row(linear_texts[i] ", the whole call", linear_measures[i])
}

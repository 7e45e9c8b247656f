# The tables of bench/run, from its four files: check, counted, stack, size. Exits 1 where a step of the station takes too much stack.

function grouped(n, s) {
    s = ""
    while (n >= 1000) {
        s = sprintf(",%03d", n % 1000) s
        n = int(n / 1000)
    }
    return n s
}

function ratio(a, b) { return b > 0 ? sprintf("%.2f", a / b) : "-" }

function is_frame(name) { return name ~ /^frame/ }

function is_step(name) { return name ~ /^station step/ }

# The goals, and the stack of a step with which the gate fails.
function most_times(name) { return is_frame(name) ? 1.25 : name == "striking" ? 1.1 : 1 }

function stack_under(name) { return is_step(name) ? 750 : name == "striking" ? 400 : 300 }

BEGIN {
    most_code = 17500
    failing_stack = 1024
}

function shape(on) { return on ~ /flat/ ? "flat" : on ~ /deep/ ? "deep" : "random" }

FNR == 1 { file++ }

file == 1 { inputs = $1; changed = $2; refused = $3 }

file == 2 {
    key = $1 SUBSEP $3
    if (!(key in units)) {
        keys[++count] = key
        operation[count] = $1
        on[count] = $3
        units[key] = $4
        of[key] = $5
    }
    cost[key, $6] = $7
}

file == 3 { stack_name[++stacks] = $1; function_of[stacks] = $2; stack_ours[stacks] = $3; stack_plain[stacks] = $4 }

file == 4 { text_ours[$1] = $3; rodata_ours[$1] = $4; text_plain[$1] = $5; rodata_plain[$1] = $6 }

# A table: its head and its rows, cells apart by |. A column that has "-" in every row is not printed.
function head(cells) { delete filled; rows = 0; columns = split(cells, heads, "|") }

function row(cells, cell, c) {
    row_of[++rows] = cells
    split(cells, cell, "|")
    for (c = 1; c <= columns; c++)
        if (cell[c] != "-")
            filled[c] = 1
}

function printed(cell, c, line) {
    line = "|"
    for (c = 1; c <= columns; c++)
        if (c in filled)
            line = line " " cell[c] " |"
    print line
}

function print_table(cell, r, rule) {
    printed(heads)
    for (r in filled)
        rule = rule "|---"
    print rule "|"
    for (r = 1; r <= rows; r++) {
        split(row_of[r], cell, "|")
        printed(cell)
    }
}

function frame_row(i, key, ours, plain, other) {
    key = keys[i]
    ours = cost[key, "ours"]
    plain = cost[key, "plain"]
    other = cost[key, "spandsp"]
    row(sprintf("%s|%s|%d|%s|%s|%s|%.1f|%.1f|%s|%s", operation[i], on[i], units[key], grouped(ours), grouped(plain), \
        ratio(ours, plain), ours / units[key], plain / units[key], other ? grouped(other) : "-", other ? ratio(ours, other) : "-"))
}

function other_row(i, ours, plain) {
    ours = cost[keys[i], "ours"]
    plain = cost[keys[i], "plain"]
    row(sprintf("%s|%s|%s|%s|%s", operation[i], on[i], grouped(ours), grouped(plain), ratio(ours, plain)))
}

# Remembers the costs at 16, 32 and 64 octets, in the order in which they are met.
function remember(i, size, line) {
    size = of[keys[i]]
    if (size == 0)
        return
    line = operation[i] SUBSEP shape(on[i])
    if (!(line in seen)) {
        seen[line] = 1
        line_of[++lines] = line
    }
    at[line, size] = cost[keys[i], "ours"]
    plain_at[line, size] = cost[keys[i], "plain"]
}

function growth_row(j, line, part, low, high, factor) {
    line = line_of[j]
    split(line, part, SUBSEP)
    low = (at[line, 32] - at[line, 16]) / 16
    high = (at[line, 64] - at[line, 32]) / 32
    factor = high / low
    if (factor > steepest) {
        steepest = factor
        steepest_on = part[1] ", " part[2]
    }
    row(sprintf("%s|%s|%s|%s|%s|%.1f|%.1f|%s", part[1], part[2], grouped(at[line, 16]), grouped(at[line, 32]), grouped(at[line, 64]), \
        low, high, ratio(plain_at[line, 64] - plain_at[line, 32], 2 * (plain_at[line, 32] - plain_at[line, 16]))))
}

# How far octets are from a goal.
function left(octets, most) {
    return sprintf("%s octets, %s %s", grouped(octets), grouped(octets > most ? octets - most : most - octets), octets > most ? "above" : "left")
}

function goal(text, met, told) { printf "- %s: %s, %s.\n", text, met ? "met" : "missed", told }

END {
    printf "\nBoth gave the same answers and the same octets in every buffer on the %d measured inputs and on %s changed ones, of which %s sent or stored nothing.\n", inputs, grouped(changed), grouped(refused)

    print "\n## Frames\n"
    print "The information's octets are random-looking, the same sixteen over and over, or all ones; 2 opening flags and 1 closing one.\n"
    head("operation|octets|bits|ours|plain|ours / plain|ours a bit|plain a bit|spandsp|ours / spandsp")
    for (i = 1; i <= count; i++)
        if (is_frame(operation[i]))
            frame_row(i)
    print_table()

    print "\n## Messages and the station\n"
    print "Flat is one long NPar block with every bit set; deep is many Par(2) blocks with SPar(2). The step has the fullest own table and sixteen wishes of all of it, of which only the last is ready.\n"
    head("operation|on|ours|plain|ours / plain")
    for (i = 1; i <= count; i++)
        if (!is_frame(operation[i]))
            other_row(i)
    print_table()

    print "\n## Growth\n"
    print "Ours at 16, 32 and 64 octets, and what an octet more costs between them.\n"
    head("operation|on|16|32|64|an octet, 16 to 32|an octet, 32 to 64|plain: the second by the first")
    for (i = 1; i <= count; i++)
        remember(i)
    for (j = 1; j <= lines; j++)
        growth_row(j)
    print_table()

    print "\n## Stack\n"
    print "The largest over the inputs above, in octets from the operation's own entry. Its return address counts; what its caller holds, arguments too, does not. A step is measured where `step` is entered, which the function named here calls; the other operations are inside of the functions named here.\n"
    head("operation|function|ours|plain|ours / plain|goal, under")
    for (k = 1; k <= stacks; k++)
        row(sprintf("%s|`%s`|%s|%s|%s|%s", stack_name[k], function_of[k], grouped(stack_ours[k]), grouped(stack_plain[k]), \
            ratio(stack_ours[k], stack_plain[k]), grouped(stack_under(stack_name[k]))))
    print_table()

    print "\n## Code\n"
    print "Octets of what the function needs, linked alone, without the C library (`memcpy`, `memset`).\n"
    head("operation|ours .text|plain .text|ours / plain|ours .rodata|plain .rodata")
    for (k = 1; k <= stacks; k++) {
        name = stack_name[k]
        row(sprintf("%s|%s|%s|%s|%s|%s", name, grouped(text_ours[name]), grouped(text_plain[name]), \
            ratio(text_ours[name], text_plain[name]), grouped(rodata_ours[name]), grouped(rodata_plain[name])))
    }
    print_table()

    print "\n## Goals\n"
    for (k = 1; k <= stacks; k++) {
        name = stack_name[k]
        worst = 0
        for (i = 1; i <= count; i++)
            if (operation[i] == name && cost[keys[i], "ours"] / cost[keys[i], "plain"] > worst) {
                worst = cost[keys[i], "ours"] / cost[keys[i], "plain"]
                worst_on = on[i]
            }
        goal(sprintf("instructions at most %.2f times plain's, %s", most_times(name), name), worst <= most_times(name), \
            sprintf("at worst %.3f times (%s)", worst, worst_on))
    }
    goal("cost grows linearly, an octet from 32 to 64 costing at most 1.10 times one from 16 to 32", steepest <= 1.1, \
        sprintf("at worst %.2f times (%s)", steepest, steepest_on))
    for (k = 1; k <= stacks; k++) {
        name = stack_name[k]
        octets = stack_ours[k]
        goal("stack under " grouped(stack_under(name)) " octets, " name, octets < stack_under(name), left(octets, stack_under(name)))
        if (is_step(name) && octets >= failing_stack)
            failed = 1
    }
    for (k = 1; k <= stacks; k++) {
        name = stack_name[k]
        if (is_step(name))
            goal(".text at most " grouped(most_code) " octets, " name, text_ours[name] <= most_code, left(text_ours[name], most_code))
    }
    exit failed
}

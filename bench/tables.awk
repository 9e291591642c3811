# The targets' table of docs/BENCHMARK.md and the tables of bench/RESULTS.md, from a file of instructions and one of
# nanoseconds, with lines of: call, side, n, number. Where a line comes again, the least number counts. Ratios are ours
# over the other's: below 1 we take less.

BEGIN {
    sizes = split("256 1024 4096 65536", size, " ")
    thousands["256"] = "256"; thousands["1024"] = "1,024"; thousands["4096"] = "4,096"; thousands["65536"] = "65,536"
    calls = split("lookup row bake baked-row baked-row-near least least-row inverse invert read write accept sorted " \
        "nudge log-nudge take-back float linear loop", call, " ")
    label["lookup"] = "one lookup"
    label["row"] = "a row of lookups"
    label["bake"] = "bake, each position"
    label["baked-row"] = "a row on the baked table; the Rust: its row on the curve"
    label["baked-row-near"] = "the same, each position near the one before it"
    label["least"] = "one least input; the Rust: its inverse"
    label["least-row"] = "a row of least inputs; the Rust: its inverse for each"
    label["inverse"] = "one inverse"
    label["invert"] = "`invert_lut` to 4,096 entries, each; Little CMS: a reversal"
    label["read"] = "curv read, each entry; the Rust: a plain loop"
    label["write"] = "curv write, each entry"
    label["accept"] = "accept, each entry; the Rust: a plain loop over neighbours"
    label["sorted"] = "accept, each entry; the Rust: `is_sorted`"
    label["nudge"] = "one nudge"
    label["log-nudge"] = "one logged nudge"
    label["take-back"] = "one take-back"
    label["float"] = "`lut_interp_linear_float`"
    label["linear"] = "`lut_interp_linear`"
    label["loop"] = "the loop around single calls, by itself"
    gammas = split("power tag-power power-table tag-power-table", gamma, " ")
    label["power"] = "one value, exponent 144179/65536"
    label["tag-power"] = "one value, a gamma tag's 563/256"
    label["power-table"] = "a table, each entry, exponent 144179/65536"
    label["tag-power-table"] = "a table, each entry, a gamma tag's 563/256"
    of_tables["accept"] = of_tables["power-table"] = of_tables["tag-power-table"] = 1
}

{
    kind = FILENAME ~ /instructions$/ ? "instructions" : "ns"
    have[kind] = 1
    keep(kind, $1, $2, $3, $4)
    # accept stands in two rows, against either of the Rust's loops
    if ($1 == "accept" && $2 == "ours") keep(kind, "sorted", "ours", $3, $4)
    if ($1 == "accept" && $2 == "sorted") keep(kind, "sorted", "inlined", $3, $4)
}

function keep(kind, name, side, n, x) {
    if (!((kind, name, side, n) in value) || x + 0 < value[kind, name, side, n] + 0)
        value[kind, name, side, n] = x
}

function shown(x) {
    if (x == "") return ""
    if (x < 10) return sprintf("%.2f", x)
    if (x < 1000) return sprintf("%.1f", x)
    return sprintf("%.0f", x)
}

function ratio(a, b) { return a == "" || b == "" || b == 0 ? "" : sprintf("%.2f", a / b) }

function at(kind, name, side, n) { return value[kind, name, side, n] }

function row(kind, name, n,    ours, called, inlined, lcms) {
    ours = at(kind, name, "ours", n)
    if (ours == "") return
    called = at(kind, name, "called", n)
    inlined = at(kind, name, "inlined", n)
    lcms = at(kind, name, "lcms", n)
    printf "| %s | %s | %s | %s | %s | %s | %s | %s | %s |\n", label[name], thousands[n], shown(ours), shown(called), \
        shown(inlined), shown(lcms), ratio(ours, called), ratio(ours, inlined), ratio(ours, lcms)
}

function table(kind, title,    c, s) {
    if (!have[kind]) return
    printf "\n### %s\n\n", title
    print "The columns \"to ..\" are ratios, ours to the other's.\n"
    print "| call | n | ours | Rust, called | Rust, own loop | Little CMS | to called | to own loop | to Little CMS |"
    print "|---|---|---|---|---|---|---|---|---|"
    for (c = 1; c <= calls; c++)
        for (s = 1; s <= sizes; s++)
            row(kind, call[c], size[s])
}

function gamma_row(kind, name, n, shown_n,    ours, libc, lcms) {
    ours = at(kind, name, "ours", n)
    if (ours == "") return
    libc = at(kind, name, "libc", n)
    lcms = at(kind, name, "lcms", n)
    printf "| %s | %s | %s | %s | %s | %s | %s |\n", label[name], shown_n, shown(ours), shown(libc), shown(lcms), \
        ratio(ours, libc), ratio(ours, lcms)
}

# One value has no n: the sizes only draw other questions, and that of the targets stands for all.
function gamma_rows(kind, name,    s) {
    if (!(name in of_tables)) {
        gamma_row(kind, name, 1024, "")
        return
    }
    for (s = 1; s <= sizes; s++)
        gamma_row(kind, name, size[s], thousands[size[s]])
}

function gamma_table(kind, title,    c) {
    if (!have[kind]) return
    printf "\n### %s\n\n", title
    print "The columns \"to ..\" are ratios, ours to the other's.\n"
    print "| what | n | ours | the C library's `pow` | Little CMS | to `pow` | to Little CMS |"
    print "|---|---|---|---|---|---|---|"
    for (c = 1; c <= gammas; c++)
        gamma_rows(kind, gamma[c])
}

function judged(x, most) { return x == "" || x + 0 <= most + 0 ? x : "**" x "**" }

function judged_ratio(kind, name, side, most) {
    return judged(ratio(at(kind, name, "ours", 1024), at(kind, name, side, 1024)), most)
}

function target(words, name, side, most) { target_each(words, name, side, most, most) }

# Where nanoseconds have a target of their own.
function target_each(words, name, side, most, most_ns) {
    printf "| %s | %s | %s | %s |\n", words, limits(most, most_ns), judged_ratio("instructions", name, side, most), \
        judged_ratio("ns", name, side, most_ns)
}

function limits(most, most_ns) {
    return most == most_ns ? most : most ", and " most_ns " in ns"
}

# Instructions more than another call of ours.
function target_more(words, name, less, most) {
    printf "| %s | %s | %s |  |\n", words, most, judged(shown(whole_less(name, less, 1024)), most)
}

# Nanoseconds of a whole call, its instructions beside them.
function target_whole(words, name, most) {
    printf "| %s | %s | %s | %s |\n", words, most, shown(whole("instructions", name, 1024)), \
        judged(shown(whole("ns", name, 1024)), most)
}

function targets() {
    print "\n### Targets, at n = 1,024\n"
    print "Ratios, ours to the other's. The last three rows are no ratios: the target of a logged nudge is in"
    print "instructions, those of gamma curves are in nanoseconds. In bold where the target is missed.\n"
    print "| what | at most | instructions | ns |"
    print "|---|---|---|---|"
    target("a row on the baked table, to the Rust's row", "baked-row", "inlined", "0.20")
    target("the same, each position near the one before it", "baked-row-near", "inlined", "0.20")
    target_each("one lookup, to Little CMS's", "lookup", "lcms", "0.60", "0.80")
    target("one inverse, to the Rust's", "inverse", "called", "1.00")
    target("`invert_lut`, to the Rust's", "invert", "inlined", "1.00")
    target_each("a row of least inputs, to the Rust's inverse for each value", "least-row", "inlined", "0.50", "0.20")
    target("accept, to the Rust's `is_sorted`", "sorted", "inlined", "1.20")
    target("curv read, to a plain Rust loop", "read", "inlined", "1.30")
    target("`lut_interp_linear_float`, to the Rust's", "float", "called", "1.20")
    target("`lut_interp_linear`, to the Rust's", "linear", "called", "1.20")
    target("the same, to the Rust's own loop", "linear", "inlined", "1.00")
    target_each("one lookup, to the Rust's", "lookup", "called", "0.85", "1.00")
    target_each("a row of lookups, to the Rust's row", "row", "inlined", "0.70", "0.80")
    target_more("one logged nudge, less one nudge", "log-nudge", "nudge", "30")
    target_whole("one value of a gamma curve, exponent 144179/65536, in ns", "power", "1000")
    target_whole("a gamma curve's table of 1,024 entries, the same exponent, in ns", "power-table", "1000000")
}

# A line of whole calls; less is the call whose cost is taken off, or nothing.
function growth(words, name, less,    s) {
    printf "| %s |", words
    for (s = 1; s <= sizes; s++)
        printf " %s |", shown(whole_less(name, less, size[s]))
    print ""
}

function whole_less(name, less, n,    x) {
    x = whole("instructions", name, n)
    return x == "" || less == "" ? x : x - whole("instructions", less, n)
}

function whole(kind, name, n,    x) {
    x = at(kind, name, "ours", n)
    return x == "" || !(name in of_tables) ? x : x * n
}

function growths() {
    if (!have["instructions"]) return
    print "\n### How cost grows\n"
    print "Executed instructions of our whole calls.\n"
    print "| call | n = 256 | 1,024 | 4,096 | 65,536 |"
    print "|---|---|---|---|---|"
    growth("one lookup", "lookup", "")
    growth("a row of one lookup", "row-of-one", "")
    growth("accept: one scan of the order", "accept", "")
    growth("one nudge", "nudge", "")
    growth("one nudge, less accept", "nudge", "accept")
    growth("one logged nudge, less one nudge", "log-nudge", "nudge")
    growth("one take-back, less one nudge", "take-back", "nudge")
    growth("one least input", "least", "")
    growth("one least input, less accept", "least", "accept")
    growth("a row of one least input, less accept", "least-row-of-one", "accept")
    growth("a row of least inputs, for each value more", "least-row", "")
}

END {
    targets()
    growths()
    table("instructions", "Executed instructions for each answer")
    table("ns", "Nanoseconds for each answer, the best of many rounds")
    gamma_table("instructions", "Gamma curves: executed instructions for each answer")
    gamma_table("ns", "Gamma curves: nanoseconds for each answer, the best of many rounds")
}

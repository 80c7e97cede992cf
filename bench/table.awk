# The tables of the benchmark, as Markdown, from lines of workload, contender, measure and value. Each measure has a
# table of the pools and one of the heaps, as far as they were measured. A ratio is the library's value by the other's:
# below 1 the library needs less.
BEGIN {
    FS = "\t"
    pools = split("by hand, gcc|by hand, clang", pool, "|")
    choices = split("glibc|jemalloc|mimalloc", choice, "|")
    whats = split("instructions|ns", what, "|")
}

{
    value[$1, $2, $3] = $4
    measured[$2] = 1
    if ($2 == "library" && !(($1, $3) in known)) {
        known[$1, $3] = 1
        order[++rows] = $1
        measure[rows] = $3
    }
}

function ratio(name, other, unit) {
    if (!((name, other, unit) in value) || value[name, other, unit] == 0)
        return "-"
    return sprintf("%.2f", value[name, "library", unit] / value[name, other, unit])
}

function shown(name, other, unit) {
    return (name, other, unit) in value ? value[name, other, unit] : "-"
}

function last_word(text) {
    sub(/^.* /, "", text)
    return text
}

# Whether the library has a row of this measure, and, where `other` is no empty text, so has the other.
function has(row, unit, other) {
    return measure[row] == unit && (other == "" || (order[row], other, unit) in value)
}

# A table of the measure: the library, the others and the ratios; only rows that `needed` has, if it is no empty text.
function table(title, unit, others, count, needed,    i, k, any) {
    for (i = 1; i <= rows; i++)
        any = any || has(i, unit, needed)
    if (!any)
        return
    printf "\n| %s | library |", title
    for (k = 1; k <= count; k++)
        printf " %s |", others[k]
    for (k = 1; k <= count; k++)
        printf " library / %s |", last_word(others[k])
    printf "\n|---|---:|"
    for (k = 1; k <= 2 * count; k++)
        printf "---:|"
    printf "\n"
    for (i = 1; i <= rows; i++) {
        if (!has(i, unit, needed))
            continue
        printf "| %s | %s |", order[i], shown(order[i], "library", unit)
        for (k = 1; k <= count; k++)
            printf " %s |", shown(order[i], others[k], unit)
        for (k = 1; k <= count; k++)
            printf " %s |", ratio(order[i], others[k], unit)
        printf "\n"
    }
}

END {
    for (k = 1; k <= choices; k++)
        if (choice[k] in measured)
            heap[++heaps] = choice[k]
    for (w = 1; w <= whats; w++) {
        table(what[w], what[w], pool, pools, "")
        table(what[w] ", for orientation", what[w], heap, heaps, heap[1])
    }
    made = "places where a step was made"
    if ((made, "library", "of 36") in value) {
        printf "\nPlaces where a step was made, of 36: library %s", value[made, "library", "of 36"]
        for (k = 1; k <= pools; k++)
            printf "; %s %s", pool[k], shown(made, pool[k], "of 36")
        print "."
    }
}

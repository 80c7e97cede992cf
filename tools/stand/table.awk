# Shows the program's table with the meaning of each code and the source of each record, behind codes.awk. The input is
# the listing that records.awk makes, whose lines begin with a byte as \xHH, and behind it the program's table. That has
# four columns, or five with the lost exchanges.
BEGIN { listed = 0 }

# Code 0 is one number for three things; the record tells which. A start and a beginning are accepted. The last two
# bytes of a run are its most steps.
function meaning_of(kind, code, record) {
    if (code != 0)
        return meaning_of_code(code)
    if (kind <= 3 || kind == 6)
        return "accepted"
    return kind == 5 && record ~ /\\x00\\x00$/ ? "no step asked for" : "under way"
}

# A line of the program's table, and what is told besides. Five digits do for the lost exchanges: a task that is not
# interrupted loses one at most, so that there are no more than records.
function show(word, number, source) {
    printf "%6s %4s %4s %5s", $1, $2, $3, $4
    if (NF > 4)
        printf " %5s", $5
    printf "  %-26s %5s  %s\n", word, number, source
}

/^\\x/ {
    bytes[listed] = $1
    line[listed] = $2
    sub(/^[^ ]+ [^ ]+ /, "")
    text[listed++] = $0
    next
}

$1 == "record" { show("meaning", "line", "text") }

$1 ~ /^[0-9]+$/ { show(meaning_of($2, $3, bytes[$1]), line[$1], text[$1]) }

$1 == "total" { printf "total: %s finished, %s accepted or under way, %s refused or ended\n", $2, $3, $4 }

# Shows the keepers, behind report.awk: for each of four regions two numbers, the kind of its keeper with 256 times the
# task, and the unit. A region that is not in the area has zeros; region 0 always is. The code of the last record stands
# before that of the report's answer.
BEGIN {
    name = "the table of keepers"
    codes = 2
    no_region = 13
    bad_record = 15
    regions = 4
    columns = 2
    in_hand = 1
    in_cache = 2
    in_request = 3
    on_spare_list = 4
}

# How a schedule ended that did not end with 13.
function ending(code) {
    if (code == bad_record)
        return "an unknown kind or a cut record (code 15)"
    return "code " code " (" (code == 0 ? "accepted or under way" : meaning_of_code(code)) ")"
}

# Goes on only where the last record ended with 13.
function check_ending(code) {
    if (code == no_region)
        return
    print "ends with " ending(code) "; the keepers are shown where the last record ended with 13 (no region)"
    exit 4
}

# Who keeps a region, and why it is so.
function keeper(kind, task, unit) {
    if (kind == in_hand)
        return "a user: the block at unit " unit " is in hand"
    if (kind == in_cache)
        return "task " task ": the block at unit " unit " is in its cache"
    if (kind == in_request)
        return "task " task ": its running request has blocks of the region, or the region itself"
    if (kind == on_spare_list)
        return "the list of spare regions: the region came back after the request had read the list empty"
    wrong(name " has the kind " kind)
}

END {
    check(name, columns * regions)
    check_ending(byte[0])
    table = "region  kept by"
    for (region = 0; region < regions; region++) {
        first = number(columns * region)
        unit = number(columns * region + 1)
        if (region == 0 || first != 0)
            table = table sprintf("\n%6d  %s", region, keeper(first % 256, int(first / 256), unit))
    }
    print table
}

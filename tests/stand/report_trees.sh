# Sourced by tests/stand/run, behind trees.sh and reports.sh: ./stand with a report, in the trees of trees.sh.

# What a program writes whose report has the numbers from 300 on, each in two bytes: every number has its place in the
# table, and its high byte is not 0.
numbered_bytes() {
    printf '%b' "$(awk -v bytes="$row_bytes" 'BEGIN {
        printf "\\024"
        for (i = 300; i < 300 + bytes / 2; i++)
            printf "\\0%03o\\0%03o", i % 256, int(i / 256)
    }')"
}

# Its table, and the status.
numbered_table() {
    printf '%s\n' "${heading[@]}"
    printf "$layout" $(awk -v columns="$columns" -v lines="$lines_of_class" 'BEGIN {
        split("8 16 32 48 64 80 96 112 128 160 192 224 256", size, " ")
        number = 300
        for (i = 0; i < 13 * lines; i++) {
            words = size[int(i / lines) + 1] (lines > 1 ? " " i % lines : "")
            sum = 0
            for (j = 0; j < columns; j++) {
                words = words " " number
                sum += number++
            }
            print words, sum
        }
    }')
    echo 'status 0'
}

# What a program writes whose keepers are of each kind, with the largest task and with units whose high byte is not 0.
kept_bytes() {
    printf '\x0d\x14\x02\x07\xff\x07\x01\x00\x2c\x01\x04\x00\x00\x00\x03\x06\x00\x00'
}

# Its table, and the status.
kept_table() {
    printf '%s\n' "${heading[@]}" '     0  task 7: the block at unit 2047 is in its cache' \
        '     1  a user: the block at unit 300 is in hand' "${shown_lines[3]/ 3 / 2 }" \
        "${shown_lines[2]/ 2  task 3/ 3  task 6}" 'status 0'
}

# Gives the tree a program of the report that writes such bytes.
make_filled() {
    "${filled}_bytes" >"$place/filled"
    make_fake "cat >/dev/null; cat $place/filled" "$1" "stand_$report"
}

# Reports that are not as they should be, and programs that fail.
odd_reports() {
    local form bytes=$((codes + row_bytes))
    make_tree && make_filled new
    tried there "--$report" "$tree/one.bytes"
    "${filled}_table" >"$out/due"
    compare "every number of $title"
    make_fake "cat >/dev/null; head -c $bytes /dev/zero | tr '\\000' '\\016'" new "stand_$report"
    tried there "--$report" "$tree/one.txt"
    answers "$title is refused" "stand: $title was refused by 14" 'status 1'
    make_fake 'cat >/dev/null; printf "\024\000"' new "stand_$report"
    tried there "--$report" "$tree/one.txt"
    answers "$title is too short" "stand: $title has 2 bytes" 'status 1'
    make_fake "cat >/dev/null; cat $place/filled; printf x" new "stand_$report"
    tried there "--$report" "$tree/one.txt"
    answers "$title is too long" "stand: $title has $((bytes + 1)) bytes" 'status 1'
    make_fake 'cat >/dev/null; exit 3' new "stand_$report"
    for form in bytes txt; do
        tried there "--$report" "$tree/one.$form"
        answers "$title, where the program fails, one.$form" 'stand: the program failed (status 3)' 'status 1'
    done
}

# A report has a program of its own, which is built like that of the table.
program_of_its_own() {
    make_tree && make_fake "$plays"
    tried there "--$report" "$tree/one.txt"
    answers "$title without its program and without rt" \
        "stand: target/bin/stand_$report is not built, and the Rattle toolchain (rt) is not installed" 'status 1'
    make_filled old
    make_rt "$one"'; [ "$* ${PWD##*/}" = "run stand_'"$report"'" ]'
    tried there "--$report" "$tree/one.bytes"
    { printf '%s\n' "$proving" "$one_proved" && "${filled}_table"; } >"$out/due"
    compare "an old program of $title is proved and built first"
    rm -f "$place/bin/rt"
    tried there "$tree/one.bytes"
    answers "$title: and the program of the table is played as it is" "${played[@]}"
}

ln -sf "$(command -v head)" "$place/bin/head"
for report in "${reports[@]}"; do
    "as_$report"
    odd_reports
    program_of_its_own
done

# ---- the keepers alone ----

# Gives the tree a program that writes these codes and this kind for region 0, with zeros behind.
make_kind() {
    make_fake "cat >/dev/null; printf '$(printf '\\%03o\\%03o\\%03o' "$@")'; head -c 15 /dev/zero" new stand_keepers
}

make_tree
for kind in 0 5; do
    make_kind 13 20 "$kind"
    tried there --keepers "$tree/one.bytes"
    answers "a keeper of the kind $kind" "stand: the table of keepers has the kind $kind" 'status 1'
done
make_kind 13 4 0
tried there --keepers "$tree/one.bytes"
answers 'a 13 without a pool' "stand: $tree/one.bytes has no accepted start, so there is no pool to show" 'status 2'

# The words of every code are those of the table, but for 0 and 15.
for code in {0..21}; do
    make_kind "$code" 20 0
    there --keepers "$tree/one.bytes" 2>&1 | sed "s|^stand: $tree/one.bytes ends with \(.*\); $asked_for\$|\1|"
done >"$out/wrote"
{
    echo 'code 0 (accepted or under way)'
    printf '%s\n' "${meanings[@]}" | sed -e 's/\([0-9]*\) \(.*\)/code \1 (\2)/' -e "s/^code 15.*/$bad_record/" \
        -e 's/^code 13 .*/stand: the table of keepers has the kind 0/'
} >"$out/due"
compare 'no keepers: every other code, in words'

# Sourced by tests/stand/run, behind text.sh and files.sh: the reports and their programs. The same is tried for each
# report, here, in report_tables.sh and in report_trees.sh. as_NAME sets what differs: the words for it; the bytes of
# its row, and the number of codes before it; its vectors, of these one whose last record is a run, and the row before
# that record; the example that the help shows; and how the table looks, with the lines of one vector, and the schedule
# of that vector as text.
reports=(sheet holders keepers)

# The vector leaving-half-way as text.
leaving=('start 1 3' 'allocate 0 256' 'run 0 65535' 'allocate 0 128' 'run 0 65535' 'allocate 0 64' 'run 0 65535'
    'leave 0 # half way' 'run 0 80')

# For the sheet and the form: a line has so many numbers, and each of 13 classes so many lines.
lines_of_numbers() {
    columns=$1
    lines_of_class=$2
    row_bytes=$((2 * 13 * columns * lines_of_class))
    codes=1
    last_run=first-block
    before_run=/dev/null
    filled=numbered
}

as_sheet() {
    title='the sheet'
    lines_of_numbers 4 16
    vectors=tests/stand/W-202
    example=examples/leak
    layout='%5d %6d %8d %10d %14d %9d %7d\n'
    heading=('block region  in hand  in caches  with requests  in chain  blocks')
    shown_vector=leaving-half-way
    shown_text=("${leaving[@]}")
    shown_lines=(
        '   64      2        1          0              0        63      64'
        '  128      1        1         21             10         0      32'
        '  256      0        1         15              0         0      16'
    )
}

as_holders() {
    title='the form by holder'
    lines_of_numbers 18 1
    vectors=tests/stand/W-206
    example=examples/fleet
    layout='%5d %8d  %3d %3d %3d %3d %3d %3d %3d %3d   %3d %3d %3d %3d %3d %3d %3d %3d %10d %7d\n'
    heading=(
        '                in caches, by task                with requests, by task'
        'block  in hand    0   1   2   3   4   5   6   7     0   1   2   3   4   5   6   7  in chains  blocks'
    )
    shown_vector=leaving-half-way
    shown_text=("${leaving[@]}")
    shown_lines=(
        '   64        1    0   0   0   0   0   0   0   0     0   0   0   0   0   0   0   0         63      64'
        '  128        1   21   0   0   0   0   0   0   0    10   0   0   0   0   0   0   0          0      32'
        '  256        1   15   0   0   0   0   0   0   0     0   0   0   0   0   0   0   0          0      16'
    )
}

as_keepers() {
    title='the table of keepers'
    row_bytes=16
    codes=2
    vectors=tests/stand/W-205
    last_run=block-in-hand
    before_run=$vectors/$last_run.keepers
    filled=kept
    example=examples/greedy
    heading=('region  kept by')
    shown_vector=four-regions-four-reasons
    shown_text=('start 5 4' 'allocate 1 256' 'run 1 65535' 'allocate 2 224' 'run 2 65535' 'free 2 988' 'run 2 65535'
        'allocate 3 192' 'run 3 9' 'allocate 4 160' 'run 4 65535' 'free 4 2016' 'run 4 65535' 'leave 4' 'run 4 32'
        'allocate 0 8' 'run 0 6 # the list is empty' 'run 4 65535' 'run 0 65535')
    shown_lines=(
        '     0  a user: the block at unit 480 is in hand'
        '     1  task 2: the block at unit 512 is in its cache'
        '     2  task 3: its running request has blocks of the region, or the region itself'
        '     3  the list of spare regions: the region came back after the request had read the list empty'
    )
}

# What the program writes for standard input: the codes, and the row in hexadecimal, 32 bytes a line.
row() {
    "target/bin/stand_$report" >"$out/row"
    echo $(od -An -v -tu1 -N "$codes" "$out/row")
    tail -c +$((codes + 1)) "$out/row" | od -An -v -tx1 -w32 | tr -d ' '
}

# What it is to write: the code of the last record, which not every program writes, that of the report's answer, and the
# row in a file, with zeros behind it up to the bytes of the row.
due_row() {
    if [ "$codes" -eq 2 ]; then echo "$1 $2"; else echo "$2"; fi
    { tr -d '\n' <"$3" && head -c $((2 * row_bytes)) /dev/zero | tr '\0' 0; } | head -c $((2 * row_bytes)) | fold -w 64
    echo
}

# The vectors of the keepers end with 13.
rows_of_vectors() {
    local schedule
    for schedule in "$vectors"/*.in; do
        row <"$schedule" >"$out/wrote"
        due_row 13 20 "${schedule%.in}.$report" >"$out/due"
        compare "$schedule"
    done
}

program_without_start() {
    row </dev/null >"$out/wrote"
    due_row 0 4 /dev/null >"$out/due"
    compare "$title of an empty input"
    printf '\x04\x00\x01\x01' | row >"$out/wrote"
    due_row 15 4 /dev/null >"$out/due"
    compare "$title where the only start is cut"
    printf '\x01\x01\x05\x01\x00\x01\x01\x09\x01' | row >"$out/wrote"
    due_row 3 4 /dev/null >"$out/due"
    compare "$title where every start is refused"
}

# A bad record ends the schedule: the report is that of the records before it.
program_on_bad_records() {
    local vector=$vectors/$last_run
    { cat "$vector.in" && printf '\x03\x00\xe0'; } | row >"$out/wrote"
    due_row 15 20 "$vector.$report" >"$out/due"
    compare "$title where the last record is cut"
    { cat "$vector.in" && printf '\x07\x01\x01\x01'; } | row >"$out/wrote"
    compare "$title where a start stands behind an unknown kind"
    { cat "$vector.in" && printf '\x01\x09\x01'; } | row >"$out/wrote"
    due_row 3 20 "$vector.$report" >"$out/due"
    compare "$title behind a refused start"
    { head -c 5 "$vector.in" && sleep 0.2 && tail -c +6 "$vector.in"; } | row >"$out/wrote"
    due_row 13 20 "$vector.$report" >"$out/due"
    compare "$title of an input in two pieces"
}

# The row of a schedule whose last record is the vector's last run, behind steps that make it so many bytes longer than
# 65,536.
long_row() {
    local schedule=$vectors/$last_run.in
    local others=$((3 + $(wc -c <"$schedule")))
    { printf '\x01\x01\x01'; head -c 3 "$schedule"; steps $((65536 - others + $1)); tail -c +4 "$schedule"; } | row
}

# Of 65,536 bytes the last record is played. One that reaches past them is not.
program_on_long_input() {
    due_row 13 20 "$vectors/$last_run.$report" >"$out/due"
    long_row 0 >"$out/wrote"
    compare "$title of 65,536 bytes"
    due_row 15 20 "$before_run" >"$out/due"
    long_row 2 >"$out/wrote"
    compare "$title of 65,536 bytes whose last record reaches past them"
}

for report in "${reports[@]}"; do
    "as_$report"
    rows_of_vectors
    program_without_start
    program_on_bad_records
    program_on_long_input
done

# ---- what the reports say together ----

# The code of a report, and four sums for each class: in hand, in caches, with requests, in chains. A class has 64
# numbers on the sheet, four for each region, and 18 on the form.
sums() {
    "target/bin/stand_$1" <"$out/schedule" | od -An -v -tu1 -w1 | awk -v numbers="$2" '
        NR == 1 { printf "%d", $1; next }
        {
            i = int((NR - 2) / 2)
            column = numbers == 64 ? i % 4 : int((i % numbers + 7) / 8)
            sum[int(i / numbers), column] += NR % 2 ? 256 * $1 : $1
        }
        END { for (i = 0; i < 52; i++) printf " %d", sum[int(i / 4), i % 4]; print "" }'
}

# A line for each region whose keeper is not of the kind that the sheet tells: 1 where it counts blocks in hand, else 2
# where it counts blocks in caches, else 3 where it counts some with requests. Of other regions it tells no kind: they
# are not open, or not in the area.
other_kinds() {
    {
        target/bin/stand_sheet <"$out/schedule" | tail -c +2
        target/bin/stand_keepers <"$out/schedule" | tail -c +3
    } | od -An -v -tu1 -w1 | awk -v schedule="$1" '
        NR <= 1664 { i = int((NR - 1) / 2); blocks[int(i / 4) % 16, i % 4] += $1; next }
        NR % 4 == 1 { kind[int((NR - 1665) / 4)] = $1 }
        END {
            for (region = 0; region < 4; region++) {
                due = "0, 3 or 4"
                for (column = 2; column >= 0; column--)
                    if (blocks[region, column] > 0)
                        due = column + 1
                if (index(due, kind[region] + 0) == 0)
                    print schedule, "region " region ": the kind is " kind[region] ", by the sheet " due
            }
        }'
}

: >"$out/sums of the form" && : >"$out/sums of the sheet" && : >"$out/other kinds"
for schedule in tests/stand/*.hex tests/stand/W-*/*.in; do
    bytes "$schedule" >"$out/schedule"
    echo "$schedule $(sums holders 18)" >>"$out/sums of the form"
    echo "$schedule $(sums sheet 64)" >>"$out/sums of the sheet"
    other_kinds "$schedule" >>"$out/other kinds"
done
cp "$out/sums of the form" "$out/wrote" && cp "$out/sums of the sheet" "$out/due"
compare 'the form adds up the sheet, after every schedule here'
cp "$out/other kinds" "$out/wrote" && : >"$out/due"
compare 'the keepers are of the kinds that the sheet tells, after every schedule here'

# Sourced by tests/stand/run, behind text.sh and files.sh: the table with the lost exchanges, by its program and by
# ./stand --lost.

# A table without its last column.
without_lost() {
    sed '$!s/ [^ ]*$//'
}

for schedule in tests/stand/W-208/*.in; do
    target/bin/stand_lost <"$schedule" >"$out/wrote"
    cp "${schedule%.*}.lost" "$out/due"
    compare "$schedule, with the lost exchanges"
done

# Besides that column the table is the stand's own. The schedules with a stored report have no stored table.
: >"$out/without" && : >"$out/tables"
for schedule in tests/stand/*.hex tests/stand/W-*/*.in; do
    [ -e "${schedule%.*}.out" ] || continue
    bytes "$schedule" | target/bin/stand_lost | without_lost >>"$out/without"
    cat "${schedule%.*}.out" >>"$out/tables"
done
target/bin/stand_lost <"$out/full" | without_lost >>"$out/without"
cat "$out/full.out" >>"$out/tables"
cp "$out/without" "$out/wrote" && cp "$out/tables" "$out/due"
compare 'without the lost exchanges the table is as it was, for every schedule here'

for path in examples/*.lost; do
    ./stand --lost "${path%.*}.txt" >"$out/wrote" 2>&1
    cp "$path" "$out/due"
    compare "$path"
done

# The stand's table of a text is that with the lost exchanges, without the six characters of their column.
for path in examples/*.lost; do
    sed -e '1n' -e '$!s/^\(.\{22\}\) .\{5\}/\1/' "$path" >"$out/wrote"
    cp "${path%.*}.out" "$out/due"
    compare "$path without its column"
done

# ---- the forms of a schedule ----

shown_lost=tests/stand/W-208/ends-with-13
{ cat "$shown_lost.lost" && echo 'status 0'; } >"$out/due"
tried ./stand --lost "$shown_lost.in"
compare 'the lost exchanges of a file of records'
tried ./stand "$shown_lost.in" --lost
compare 'the lost exchanges, the option behind the file'
tried ./stand --lost --lost "$shown_lost.in"
compare 'the lost exchanges, the option given twice'
tried ./stand --lost <"$shown_lost.in"
compare 'the lost exchanges of records on standard input'
tried ./stand --lost - <"$shown_lost.in"
compare 'the lost exchanges, the same by the name -'
tried ./stand --lost <(cat "$shown_lost.in")
compare 'the lost exchanges of records through a pipe with a name'
tried ./stand --lost -- "$shown_lost.in"
compare 'the lost exchanges of a file of records behind --'

lost_lines=('record kind code value  lost  meaning                     line  text'
    '     0    1    0     0     0  accepted                       1  start 2 1'
    '     1    2    0     0     0  accepted                       2  allocate 0 256'
    '     2    5    0     0     0  no step asked for              3  run 0 0'
    '     3    4    7     0     0  no request in hand             4  step 1'
    'total: 0 finished, 3 accepted or under way, 1 refused or ended' 'status 0')
printf 'start 2 1\nallocate 0 256\nrun 0 0\nstep 1\n' >"$out/shown.txt"
tried ./stand --lost "$out/shown.txt"
answers 'the lost exchanges of a file of text' "$out/shown.txt, read as text" "${lost_lines[@]}"
tried ./stand --text --lost "$out/shown.txt"
compare 'the lost exchanges, the same with --text'
tried ./stand --lost --text <"$out/shown.txt"
answers 'the lost exchanges of text on standard input' 'standard input, read as text' "${lost_lines[@]}"
tried ./stand --lost <"$out/step.txt"
answers 'the lost exchanges of text on standard input without --text' \
    'stand: standard input was played as bytes; for text give --text' \
    'record kind code value lost' '0 115 15 0 0' 'total 0 0 1' 'status 0'
tried timeout 10 ./stand --lost <&-
answers 'the lost exchanges of a closed standard input' 'record kind code value lost' 'total 0 0 0' 'status 0'

# Every awk that is there shows the same table. The folder and the words for them are those of text.sh.
: >"$out/wrote" && : >"$out/due"
for awk in mawk gawk 'busybox awk' original-awk; do
    command -v "${awk% *}" >/dev/null || continue
    printf '#!/bin/sh\nexec %s "$@"\n' "$awk" >"$out/awk/awk"
    PATH=$PWD/$out/awk:$PATH ./stand --lost examples/contention.txt >>"$out/wrote" 2>&1
    cat examples/contention.lost >>"$out/due"
done
compare "the lost exchanges are the same with${awks:- no awk}"

# ---- what is refused ----

tried ./stand --lost "$out/no such file"
answers 'the lost exchanges of a missing file' "stand: there is no file $out/no such file" 'status 2'
tried ./stand --lost "$out/paper" "$out/paper"
answers 'the lost exchanges of two files' "stand: one FILE at most, not 2; $hint" 'status 2'
tried ./stand --losts "$out/paper"
answers 'an option that begins like the one for the lost exchanges' "stand: no option --losts; $hint" 'status 2'
tried ./stand --lost --text < <(printf 'start 1 1\nstep\n')
answers 'the lost exchanges of wrong text' 'stand: line 2: expected step TASK, a task 0 to 255; found step' 'status 2'
for report in sheet holders keepers; do
    tried ./stand --lost "--$report" "$out/paper"
    answers "--lost and --$report at once" \
        "stand: --lost or --$report, not both: no report has the lost exchanges; $hint" 'status 2'
    tried ./stand "--$report" --text --lost <"$out/shown.txt"
    compare "--$report and --lost at once, and --text between them"
done

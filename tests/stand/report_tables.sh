# Sourced by tests/stand/run, behind reports.sh: ./stand with the option of each report.

examples() {
    local path
    for path in examples/*."$report"; do
        ./stand "--$report" "${path%.*}.txt" >"$out/wrote" 2>&1
        cp "$path" "$out/due"
        compare "$path"
    done
    sed -n "\|$example.txt, read|,/^\$/p" tools/stand/help.txt | sed -e '/^$/d' -e 's/^  //' >"$out/wrote"
    cp "$example.$report" "$out/due"
    compare "the help's example of $title"
}

tables_of_bytes() {
    cp "$vectors/$shown_vector.in" "$out/shown"
    printf '%s\n' "${heading[@]}" "${shown_lines[@]}" 'status 0' >"$out/due"
    tried ./stand "--$report" "$out/shown"
    compare "$title of a file of records"
    tried ./stand "$out/shown" "--$report"
    compare "$title, the option behind the file"
    tried ./stand "--$report" "--$report" "$out/shown"
    compare "$title, the option given twice"
    tried ./stand "--$report" <"$out/shown"
    compare "$title of records on standard input"
    tried ./stand "--$report" - <"$out/shown"
    compare "$title, the same by the name -"
    tried ./stand "--$report" <(cat "$out/shown")
    compare "$title of records through a pipe with a name"
    tried ./stand "--$report" -- "$out/shown"
    compare "$title of a file of records behind --"
}

# The schedule of tables_of_bytes as text.
tables_of_text() {
    local table=("${heading[@]}" "${shown_lines[@]}" 'status 0')
    printf '%s\n' "${shown_text[@]}" >"$out/shown.txt"
    tried ./stand "--$report" "$out/shown.txt"
    answers "$title of a file of text" "$out/shown.txt, read as text" "${table[@]}"
    tried ./stand --text "--$report" "$out/shown.txt"
    compare "$title, the same with --text"
    tried ./stand "--$report" --text <"$out/shown.txt"
    answers "$title of text on standard input" 'standard input, read as text' "${table[@]}"
}

# What is shown of a pool without an open region, whose schedule ended so: the table without a line, or no table.
due_without_line() {
    if [ "$report" = keepers ]; then
        printf '%s\n' "stand: $1 ends with $2; $asked_for" 'status 2'
    else
        printf '%s\n' "${heading[@]}" 'no region is open' 'status 0'
    fi
}
asked_for='the keepers are shown where the last record ended with 13 (no region)'

without_line() {
    tried ./stand "--$report" tests/stand/W-202/fresh-pool.in
    due_without_line tests/stand/W-202/fresh-pool.in 'code 0 (accepted or under way)' >"$out/due"
    compare "$title where no region is open"
    tried ./stand "--$report" "$out/fuller"
    {
        echo "stand: $out/fuller has 65556 bytes; those behind the first 65,536 are not read"
        due_without_line "$out/fuller" 'code 7 (no request in hand)'
    } >"$out/due"
    compare "$title of a file of more than 65,536 bytes"
}

# Input that is refused, as for the table of answers.
refused_input() {
    tried ./stand "--$report" "$out/no such file"
    answers "$title of a missing file" "stand: there is no file $out/no such file" 'status 2'
    tried ./stand "--$report" "$out"
    answers "$title of a directory" "stand: $out is a directory" 'status 2'
    tried ./stand "--$report" "$out/shown" "$out/shown"
    answers "$title of two files" "stand: one FILE at most, not 2; $hint" 'status 2'
    tried ./stand "--${report}s" "$out/shown"
    answers "an option that begins like the one for $title" "stand: no option --${report}s; $hint" 'status 2'
    tried ./stand "--$report" --text < <(printf 'start 1 1\nstep\n')
    answers "$title of wrong text" 'stand: line 2: expected step TASK, a task 0 to 255; found step' 'status 2'
    tried ./stand "--$report" --text "$out/shown"
    answers "$title of records forced to be text" 'stand: line 1: not text; found the byte 1' 'status 2'
}

# Without an accepted start there is no pool.
no_pool() {
    local said='has no accepted start, so there is no pool to show'
    local as_bytes='; it was played as bytes, for text give --text'
    printf 'start 1 5\nstep 0\n' >"$out/no-pool.txt"
    tried ./stand "--$report" "$out/no-pool.txt"
    answers "$title of text without an accepted start" "stand: $out/no-pool.txt $said" 'status 2'
    printf '\x01\x01\x05' >"$out/no-pool"
    tried ./stand "--$report" "$out/no-pool"
    answers "$title of records without an accepted start" "stand: $out/no-pool $said" 'status 2'
    : >"$out/nothing"
    tried ./stand "--$report" "$out/nothing"
    answers "$title of an empty file" "stand: $out/nothing $said" 'status 2'
    tried timeout 10 ./stand "--$report" <&-
    answers "$title of a closed standard input" "stand: standard input $said$as_bytes" 'status 2'
    tried ./stand "--$report" <"$out/shown.txt"
    answers "$title of text on standard input without --text" "stand: standard input $said$as_bytes" 'status 2'
}

# Every awk that is there shows the same table. The folder and the words for them are those of text.sh.
same_with_every_awk() {
    local awk
    : >"$out/wrote" && : >"$out/due"
    for awk in mawk gawk 'busybox awk' original-awk; do
        command -v "${awk% *}" >/dev/null || continue
        printf '#!/bin/sh\nexec %s "$@"\n' "$awk" >"$out/awk/awk"
        PATH=$PWD/$out/awk:$PATH ./stand "--$report" "$example.txt" >>"$out/wrote" 2>&1
        cat "$example.$report" >>"$out/due"
    done
    compare "$title is the same with${awks:- no awk}"
}

# One report is shown, not two.
with_another() {
    local another
    for another in "${reports[@]}"; do
        if [ "$another" = "$report" ]; then continue; fi
        tried ./stand "--$report" "--$another" "$out/shown"
        answers "--$report and --$another at once" \
            "stand: one report at most, --$report or --$another; $hint" 'status 2'
        tried ./stand "--$report" --text "--$another" <"$out/shown.txt"
        compare "--$report and --$another at once, and --text between them"
    done
}

for report in "${reports[@]}"; do
    "as_$report"
    examples
    tables_of_bytes
    tables_of_text
    without_line
    refused_input
    no_pool
    same_with_every_awk
    with_another
done

# ---- the keepers alone ----

as_keepers
tried ./stand --keepers tests/stand/W-205/hand-before-cache-before-request.in
answers 'the table of keepers has a line for each region of the area' 'region  kept by' \
    '     0  a user: the block at unit 0 is in hand' '     1  task 1: the block at unit 544 is in its cache' 'status 0'

# A schedule that ends so has no table of keepers. The words of the other codes are tried in report_trees.sh.
ends_otherwise() {
    printf "$2" >"$out/ends"
    tried ./stand --keepers "$out/ends"
    answers "no keepers: $1" "stand: $out/ends ends with $3; $asked_for" 'status 2'
}
no_region='start 2 1\nallocate 0 8\nrun 0 600\nallocate 1 16\nrun 1 100\n'
bad_record='an unknown kind or a cut record (code 15)'
ends_otherwise 'a request that is begun' 'start 1 1\nallocate 0 8\n' 'code 0 (accepted or under way)'
ends_otherwise 'a request that is under way' 'start 1 1\nallocate 0 8\nrun 0 5\n' 'code 0 (accepted or under way)'
ends_otherwise 'a run without a step' 'start 1 1\nallocate 0 8\nrun 0 0\n' 'code 0 (accepted or under way)'
ends_otherwise 'a request that has finished' 'start 1 1\nallocate 0 8\nrun 0 600\n' 'code 20 (finished)'
ends_otherwise 'a refused call' 'start 1 1\nfree 0 0\n' 'code 10 (no block or strip there)'
ends_otherwise 'a refused start' 'start 1 1\nstart 1 5\n' 'code 2 (regions not 1 to 4)'
ends_otherwise 'no strip' 'start 1 1\nallocate 0 65535\nstep 0\nallocate 0 257\nstep 0\n' 'code 16 (no strip)'
ends_otherwise 'a record behind the 13' "${no_region}step 1\n" 'code 7 (no request in hand)'
ends_otherwise 'a start behind the 13' "${no_region}start 1 1\n" 'code 0 (accepted or under way)'
ends_otherwise 'an unknown kind' '\x01\x01\x01\x07' "$bad_record"
ends_otherwise 'a cut record' '\x01\x01\x01\x04' "$bad_record"
{ cat "$vectors/$last_run.in" && printf '\x04'; } >"$out/ends"
tried ./stand --keepers <"$out/ends"
answers 'no keepers: a cut record behind the 13, on standard input' \
    "stand: standard input ends with $bad_record; $asked_for" 'status 2'
tried ./stand --text --keepers < <(printf 'start 1 1\n')
answers 'no keepers: text on standard input' \
    "stand: standard input ends with code 0 (accepted or under way); $asked_for" 'status 2'
tried ./stand --keepers < <(printf '\x01\x01\x01\x01\x01\x05')
answers 'no keepers: records on standard input' \
    "stand: standard input ends with code 2 (regions not 1 to 4); $asked_for" 'status 2'

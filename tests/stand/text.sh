# Sourced by tests/stand/run: what ./stand makes of text.

for example in examples/*.txt; do
    ./stand "$example" >"$out/wrote" 2>&1
    cp "${example%.txt}.out" "$out/due"
    compare "$example"
done

# The first four columns and the total are the program's own numbers: tests/stand/paper.hex has the same records.
./stand examples/paper.txt 2>&1 | awk '
    $1 == "record" || $1 ~ /^[0-9]+$/ { print $1, $2, $3, $4 }
    $1 == "total:" { print "total", $2, $4, $9 }' >"$out/wrote"
cp tests/stand/paper.out "$out/due"
compare 'the numbers of a table of text'

# What is said besides of a byte 0, which text in UTF-16 has.
saved='; text from Windows is to be saved as UTF-8'

# Every awk that is there has to give the same tables. $out/awk is a folder that has it under the name of awk.
awks=''
rm -rf "$out/awk" && mkdir -p "$out/awk"
: >"$out/wrote" && : >"$out/due"
for awk in mawk gawk 'busybox awk' original-awk; do
    command -v "${awk% *}" >/dev/null || continue
    awks+=" $awk"
    printf '#!/bin/sh\nexec %s "$@"\n' "$awk" >"$out/awk/awk"
    chmod +x "$out/awk/awk"
    for example in examples/*.txt; do
        PATH=$PWD/$out/awk:$PATH ./stand "$example" >>"$out/wrote" 2>&1
        cat "${example%.txt}.out" >>"$out/due"
    done
    printf 'step 0\nst\xffep 0\n' | PATH=$PWD/$out/awk:$PATH ./stand --text >>"$out/wrote" 2>&1
    echo 'stand: line 2: expected start, allocate, free, step, run or leave; found st?ep 0' >>"$out/due"
    printf 'step 0\r\n\377\0\n' | PATH=$PWD/$out/awk:$PATH ./stand --text >>"$out/wrote" 2>&1
    echo "stand: line 2: not text; found the byte 0$saved" >>"$out/due"
done
compare "the same with${awks:- no awk}"

# Text that is no schedule: the line and what was expected, status 2, and no table.
wrong() {
    tried ./stand --text < <(printf '# one line above\nstart 1 1 # and one record\n%s\n' "$1")
    answers "the text '$1'" "stand: line 3: expected $2; found ${3-$1}" 'status 2'
}
a_start='start TASKS REGIONS, each 0 to 255'
an_allocation='allocate TASK SIZE, a task 0 to 255 and a size 0 to 65535'
a_free='free TASK UNIT, a task 0 to 255 and a unit 0 to 65535'
a_step='step TASK, a task 0 to 255'
a_run='run TASK MOST, a task 0 to 255 and most steps 0 to 65535'
a_leave='leave TASK, a task 0 to 255'
any='start, allocate, free, step, run or leave'
wrong 'stop' "$any"
wrong 'Start 1 1' "$any"
wrong 'start 1' "$a_start"
wrong 'start 256 1' "$a_start"
wrong 'start 1 256' "$a_start"
wrong 'allocate 256 1' "$an_allocation"
wrong 'allocate 0 65536' "$an_allocation"
wrong 'allocate 0 100000' "$an_allocation"
wrong 'allocate 0 18446744073709551617' "$an_allocation"
wrong 'free 0 -1' "$a_free"
wrong 'free 0 0x10' "$a_free"
wrong 'free 0 1.0' "$a_free"
wrong 'step' "$a_step"
wrong 'step 0 1' "$a_step"
wrong 'step 0 0' "$a_step"
wrong 'start 1 1 1' "$a_start"
wrong 'run 0 1 step 0' "$a_run"
wrong 'run 0 1e3' "$a_run"
wrong 'run 0 +1' "$a_run"
wrong 'leave' "$a_leave"
wrong 'leave 256' "$a_leave"
wrong 'leave -1' "$a_leave"
wrong 'leave 0 0' "$a_leave"
wrong 'leaves 0' "$any"
wrong 'Leave 0' "$any"
# What is shown of it: without its comment, with single spaces, printable, and no more than 40 characters.
wrong $'  step \t 0   1 # twice' "$a_step" 'step 0 1'
wrong $'start\xc2\xa01 1' "$any" 'start??1 1'
wrong "step $(printf '%0100d' 0) 1" "$a_step" "step $(printf '%035d' 0).."
wrong "$(printf '%0100d' 1)" "$any" "$(printf '%040d' 0).."

# Bytes that no text has: the line and the byte, also in a comment.
no_text() {
    tried ./stand --text < <(printf 'start 1 1\n# a comment\n%b' "$1")
    answers "text with the byte $2" "stand: line 3: not text; found the byte $2${3-}" 'status 2'
}
no_text 'step\0000 0\n' 0 "$saved"
no_text '\0000' 0 "$saved"
no_text '# \0007\n' 7
no_text 'step 0\0013\n' 11
no_text 'step 0\r\r\n' 13
no_text 'step 0\rstep 0\n' 13
no_text '\0033[1mstep 0\n' 27
no_text 'step 0 \0037 \0177\n' 31
no_text '#\0177\n' 127

# How lines may end, a byte order mark, tabs, comments in other letters, zeros before a number, the largest numbers. The
# line number is that of the text.
printf '\xef\xbb\xbfstart 255 255\r\n\r\n#\xc3\xa9\n\trun\t255  0065535 # last\r\nfree 08 010\nrun 9 00' >"$out/odd.txt"
tried ./stand --text <"$out/odd.txt"
answers 'the largest numbers, and a text with all that may stand in it' \
    'standard input, read as text' \
    'record kind code value  meaning                     line  text' \
    '     0    1    2     0  regions not 1 to 4             1  start 255 255' \
    '     1    5    4     0  not started                    4  run 255 0065535' \
    '     2    3    4     0  not started                    5  free 08 010' \
    '     3    5    0     0  no step asked for              6  run 9 00' \
    'total: 0 finished, 1 accepted or under way, 3 refused or ended' 'status 0'

# Code 0 has three meanings. 256 is a most whose low byte is 0, which is not a most of 0.
tried ./stand --text < <(printf 'start 1 1\nallocate 0 8\nrun 0 0\nstep 0\nrun 0 256\nrun 0 1000\nfree 0 511\n')
answers 'the meanings of code 0' \
    'standard input, read as text' \
    'record kind code value  meaning                     line  text' \
    '     0    1    0     0  accepted                       1  start 1 1' \
    '     1    2    0     0  accepted                       2  allocate 0 8' \
    '     2    5    0     0  no step asked for              3  run 0 0' \
    '     3    4    0     0  under way                      4  step 0' \
    '     4    5    0     0  under way                      5  run 0 256' \
    '     5    5   20   511  finished                       6  run 0 1000' \
    '     6    3    0     0  accepted                       7  free 0 511' \
    'total: 1 finished, 6 accepted or under way, 0 refused or ended' 'status 0'

# A task that leaves. Its beginning is accepted; with the block in hand the other fifteen are returned in 22 steps.
tried ./stand --text < <(printf 'start 2 1\nleave 1\nstep 1\nallocate 0 256\nrun 0 26\nleave 00\nleave 0\nrun 0 22\n')
answers 'a task that leaves' \
    'standard input, read as text' \
    'record kind code value  meaning                     line  text' \
    '     0    1    0     0  accepted                       1  start 2 1' \
    '     1    6    0     0  accepted                       2  leave 1' \
    '     2    4   20     0  finished                       3  step 1' \
    '     3    2    0     0  accepted                       4  allocate 0 256' \
    '     4    5   20   480  finished                       5  run 0 26' \
    '     5    6    0     0  accepted                       6  leave 00' \
    '     6    6    6     0  request in hand                7  leave 0' \
    '     7    5    0     0  under way                      8  run 0 22' \
    'total: 2 finished, 5 accepted or under way, 1 refused or ended' 'status 0'

# A number with zeros before it is decimal: 026 steps are 26, unit 0480 is unit 480, and 010 tasks are 10, too many.
tried ./stand --text < <(printf 'start 1 1\nallocate 0 0256\nrun 0 026\nfree 0 0480\nstep 0\nstart 010 1\n')
answers 'numbers with zeros before them are decimal' \
    'standard input, read as text' \
    'record kind code value  meaning                     line  text' \
    '     0    1    0     0  accepted                       1  start 1 1' \
    '     1    2    0     0  accepted                       2  allocate 0 0256' \
    '     2    5   20   480  finished                       3  run 0 026' \
    '     3    3    0     0  accepted                       4  free 0 0480' \
    '     4    4   20     0  finished                       5  step 0' \
    '     5    1    3     0  tasks not 1 to 8               6  start 010 1' \
    'total: 2 finished, 3 accepted or under way, 1 refused or ended' 'status 0'

# So many lines 'step 0' behind a comment are 65,536 bytes; with one more the text is refused.
{ echo '# a comment'; yes 'step 0' 2>/dev/null | head -n 32768; } >"$out/full.txt"
tried ./stand "$out/full.txt"
tail -n 3 "$out/wrote" >"$out/end" && mv "$out/end" "$out/wrote"
answers 'text of 65,536 bytes of records' \
    ' 32767    4    4     0  not started                32769  step 0' \
    'total: 0 finished, 0 accepted or under way, 32768 refused or ended' 'status 0'
echo 'step 0 # too many' >>"$out/full.txt"
tried ./stand "$out/full.txt"
answers 'text of more than 65,536 bytes of records' \
    'stand: line 32770: no room for this record; the stand takes 65,536 bytes of records, and those above fill them' \
    'status 2'

# The same with other lengths: 16,383 records of four bytes and one of two leave two bytes, and a start has three.
{ yes 'run 0 65535' 2>/dev/null | head -n 16383; printf 'step 0\nstart 1 1\n'; } >"$out/full.txt"
tried ./stand "$out/full.txt"
answers 'text whose last record does not fit' \
    'stand: line 16385: no room for this record; the stand takes 65,536 bytes of records, and those above fill them' \
    'status 2'

# Text has to be fast: 20,000 lines take well under a second, and a minute where each line is read by the shell.
{ echo 'start 1 1'; yes 'step 0' 2>/dev/null | head -n 19999; } >"$out/long.txt"
timeout 10 ./stand "$out/long.txt" 2>&1 | tail -n 1 >"$out/wrote"
answers '20,000 lines of text in ten seconds' 'total: 0 finished, 1 accepted or under way, 19999 refused or ended'

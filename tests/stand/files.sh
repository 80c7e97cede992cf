# Sourced by tests/stand/run: which form a file has, which files are refused, and the options.

# The table of the paper's example as bytes.
due_bytes() {
    cat tests/stand/paper.out && echo 'status 0'
}

# The table of a text of one step, read from the file or input of that name.
due_step() {
    printf '%s, read as text\n' "$1"
    echo 'record kind code value  meaning                     line  text'
    printf '     0    4    4     0  not started                %5d  step 0\n' "$2"
    echo 'total: 0 finished, 0 accepted or under way, 1 refused or ended'
    echo 'status 0'
}

tried ./stand "$out/paper"
due_bytes >"$out/due"
compare 'a file of records'
tried ./stand <"$out/paper"
compare 'records on standard input'
tried ./stand <(cat "$out/paper")
compare 'records through a pipe with a name'
tried ./stand /dev/stdin <"$out/paper"
compare 'records on /dev/stdin'
tried ./stand -- "$out/paper"
compare 'a file of records behind --'

# A file that begins with these bytes is text, and the step in it is on that line.
begins_text() {
    printf "$1"'step 0' >"$out/begins"
    tried ./stand "$out/begins"
    due_step "$out/begins" "$2" >"$out/due"
    compare "a file of text that begins with '$1'"
}
begins_text '' 1
begins_text '\n\r\n\t ' 3
begins_text '\xef\xbb\xbf' 1
begins_text '\xef\xbb\xbf \n' 2
begins_text '# \xc3\xa9\n' 2

# A file that begins with these bytes is records, and its first kind is this.
begins_bytes() {
    printf "$1"'step 0' >"$out/begins"
    tried ./stand "$out/begins"
    answers "a file of records that begins with '$1'" \
        'record kind code value' "0 $2 15 0" 'total 0 0 1' 'status 0'
}
begins_bytes '\0' 0
begins_bytes '\x07' 7
begins_bytes '\x1f' 31
begins_bytes ' \n\x01' 32
begins_bytes '\xef\xbb\xbf\x01' 239

# A file with no byte that tells is text without a record.
for content in '' ' \n\t\r\n' '\xef\xbb\xbf' '\xef\xbb\xbf\n'; do
    printf "$content" >"$out/nothing"
    tried ./stand "$out/nothing"
    answers "a file of '$content'" "$out/nothing, read as text" \
        'record kind code value  meaning                     line  text' \
        'total: 0 finished, 0 accepted or under way, 0 refused or ended' 'status 0'
done

# Where the file is no regular one, or standard input is read, the form is bytes unless --text is given.
echo 'step 0' >"$out/step.txt"
kind_of_s=('record kind code value' '0 115 15 0' 'total 0 0 1' 'status 0')
hint='was played as bytes; for text give --text'
tried ./stand <"$out/step.txt"
answers 'text on standard input without --text' "stand: standard input $hint" "${kind_of_s[@]}"
tried ./stand - <"$out/step.txt"
answers 'the same by the name -' "stand: standard input $hint" "${kind_of_s[@]}"
tried ./stand <(cat "$out/step.txt")
sed -i 's|/dev/fd/[0-9]*|/dev/fd/N|' "$out/wrote"
answers 'text through a pipe with a name without --text' "stand: /dev/fd/N $hint" "${kind_of_s[@]}"
tried ./stand /dev/stdin <"$out/step.txt"
answers 'text on /dev/stdin without --text' "stand: /dev/stdin $hint" "${kind_of_s[@]}"
tried ./stand --text <"$out/step.txt"
due_step 'standard input' 1 >"$out/due"
compare 'text on standard input'
tried ./stand --text /dev/stdin <"$out/step.txt"
due_step /dev/stdin 1 >"$out/due"
compare 'text on /dev/stdin'
tried timeout 10 ./stand --text <&-
answers 'text on a closed standard input' 'standard input, read as text' \
    'record kind code value  meaning                     line  text' \
    'total: 0 finished, 0 accepted or under way, 0 refused or ended' 'status 0'
tried ./stand "$out/step.txt" --text
due_step "$out/step.txt" 1 >"$out/due"
compare 'an option behind the file'
tried ./stand --text "$out/paper"
answers 'records forced to be text' 'stand: line 1: not text; found the byte 1' 'status 2'

# Of bytes those behind the first 65,536 are not read, which is said; and not said where there are none.
tried ./stand "$out/full"
{ cat "$out/full.out" && echo 'status 0'; } >"$out/due"
compare 'a file of 65,536 bytes'
{ cat "$out/full" && steps 20; } >"$out/fuller"
tried ./stand "$out/fuller"
{
    echo "stand: $out/fuller has 65556 bytes; those behind the first 65,536 are not read"
    cat "$out/full.out"
    echo 'status 0'
} >"$out/due"
compare 'a file of more than 65,536 bytes'

# Files that cannot be played, and wrong use.
hint='./stand --help says what there is'
tried ./stand "$out/no such file"
answers 'a missing file' "stand: there is no file $out/no such file" 'status 2'
tried ./stand ''
answers 'a file without a name' 'stand: there is no file ' 'status 2'
tried ./stand --text "$out"
answers 'a directory' "stand: $out is a directory" 'status 2'
tried ./stand $'no\nfile\e'
answers 'a name that is not printable' 'stand: there is no file no?file?' 'status 2'
tried ./stand "$out/paper" "$out/paper"
answers 'two files' "stand: one FILE at most, not 2; $hint" 'status 2'
tried ./stand --tekst "$out/paper"
answers 'an unknown option' "stand: no option --tekst; $hint" 'status 2'
tried ./stand -- --text
answers 'a file with the name of an option' 'stand: there is no file --text' 'status 2'

# The help: its status, and a word of each thing that it has to tell.
./stand --help >"$out/help" 2>"$out/wrote"
echo "status $?" >>"$out/wrote"
for word in './stand [FILE]' '--text [FILE]' '--lost [FILE]' '--sheet [FILE]' '--holders [FILE]' '--keepers [FILE]' \
    'a report, one at most' 'With --lost both tables' 'start TASKS REGIONS' 'allocate TASK SIZE' 'free TASK UNIT' \
    'step TASK' 'run TASK MOST' 'byte order mark' 'Standard input is bytes' 'value   the unit' 'total   how many' \
    'with requests  blocks' 'with requests, by task  blocks' 'task, its running request  the' "'run TASK N'" \
    '65,536 bytes' 'Exit status: 0' 'did not end with 13' 'target/bin/stand_lost' 'target/bin/stand_keepers' \
    'missing or older' 'target cannot be written'; do
    grep -qF -e "$word" "$out/help" || echo "the help does not tell: $word" >>"$out/wrote"
done
answers 'the help' 'status 0'
tried ./stand -h
{ cat tools/stand/help.txt && echo 'status 0'; } >"$out/due"
compare 'the short name of the help'

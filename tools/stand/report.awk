# What the tables of the reports share. It stands behind codes.awk, and the file of one report behind it. The input is
# what a report's program writes, its bytes in decimal: codes, the last of which is that of the report's answer, and
# then the row of the report, whose numbers have two bytes, low first. There is one code unless the report's file says
# that there are more. Where there is no pool to show the status is 3. Where the schedule does not end as the report
# asks it is 4, and where something else is wrong 1; then the one line of output says what.
BEGIN {
    count = 0
    lines = 0
    codes = 1
    classes = split("8 16 32 48 64 80 96 112 128 160 192 224 256", size, " ")
}

{
    for (i = 1; i <= NF; i++)
        byte[count++] = $i
}

function wrong(why) {
    print why
    exit 1
}

# Goes on only where the report, by this name, was given, and has so many numbers.
function check(name, numbers) {
    if (count != codes + 2 * numbers)
        wrong(name " has " count " bytes")
    if (byte[codes - 1] == 4)
        exit 3
    if (byte[codes - 1] != 20)
        wrong(name " was refused by " byte[codes - 1])
}

# The number at a place of the row, from 0.
function number(place) {
    return byte[codes + 2 * place] + 256 * byte[codes + 2 * place + 1]
}

# A line: its beginning, then so many numbers from a place on, each as wide as `width` says, and their sum. None where
# all are zero.
function line(beginning, first, numbers,    i, sum) {
    sum = 0
    for (i = 0; i < numbers; i++) {
        sum += number(first + i)
        beginning = beginning sprintf(" %" width[i + 1] "d", number(first + i))
    }
    if (sum == 0)
        return
    printf "%s %7d\n", beginning, sum
    lines++
}

# Ends the table. In an open region every block is somewhere, so that without a line there is none.
function finish() {
    if (lines == 0)
        print "no region is open"
}

# Turns a schedule of text into a listing, a line for each record: its bytes, each as \xHH, the number of its line in
# the text, and its words. Where the text is no schedule, the one line of output says where and why; the status is 3.
#
# In the text each byte 0 has become 255, since not every awk reads a byte 0, and each 255 has become 254.
BEGIN {
    refused = 0
    total = 0
    room = 65536
    widest = 40
    for (byte = 1; byte < 32; byte++)
        value[sprintf("%c", byte)] = byte
    value["\177"] = 127
    value["\377"] = 0
    describe("start", 1, 2, 255, "start TASKS REGIONS, each 0 to 255")
    describe("allocate", 2, 2, 65535, "allocate TASK SIZE, a task 0 to 255 and a size 0 to 65535")
    describe("free", 3, 2, 65535, "free TASK UNIT, a task 0 to 255 and a unit 0 to 65535")
    describe("step", 4, 1, 0, "step TASK, a task 0 to 255")
    describe("run", 5, 2, 65535, "run TASK MOST, a task 0 to 255 and most steps 0 to 65535")
    describe("leave", 6, 1, 0, "leave TASK, a task 0 to 255")
}

# A record's name, the byte of its kind, how many numbers follow, the most that the second may be, and its form.
function describe(name, its_kind, its_numbers, its_most, its_form) {
    kind[name] = its_kind
    numbers[name] = its_numbers
    most[name] = its_most
    form[name] = its_form
}

function refuse(why) {
    print "line " NR ": " why
    refused = 1
    exit 3
}

# The words of the line with one space between them, printable and not too wide to show.
function shown(    all, i) {
    all = words[1]
    for (i = 2; i <= count && length(all) <= widest; i++)
        all = all " " words[i]
    gsub(/[^ -~]/, "?", all)
    return length(all) > widest ? substr(all, 1, widest) ".." : all
}

# Whether the word is a number up to `largest`. Zeros before it make it neither octal nor too long.
function is_number(word, largest) {
    if (word !~ /^[0-9]+$/)
        return 0
    sub(/^0+/, "", word)
    return length(word) <= 5 && word + 0 <= largest
}

function is_record(name) {
    if (count != numbers[name] + 1 || !is_number(words[2], 255))
        return 0
    return count == 2 || is_number(words[3], most[name])
}

# The second number of a record takes one byte where it is at most 255, as that of a start; else two, the low one first.
function bytes_of(name,    bytes) {
    bytes = sprintf("\\x%02x\\x%02x", kind[name], words[2])
    if (count == 3)
        bytes = bytes sprintf("\\x%02x", words[3] % 256)
    if (count == 3 && most[name] > 255)
        bytes = bytes sprintf("\\x%02x", int(words[3] / 256))
    return bytes
}

function take(name,    bytes) {
    if (!(name in kind))
        refuse("expected start, allocate, free, step, run or leave; found " shown())
    if (!is_record(name))
        refuse("expected " form[name] "; found " shown())
    bytes = bytes_of(name)
    total += length(bytes) / 4
    if (total > room)
        refuse("no room for this record; the stand takes 65,536 bytes of records, and those above fill them")
    listing[++records] = bytes " " NR " " shown()
}

NR == 1 { sub(/^\357\273\277/, "") }

{
    sub(/\r$/, "")
    if (match($0, /[\001-\010\013-\037\177\377]/)) {
        byte = value[substr($0, RSTART, 1)]
        refuse("not text; found the byte " byte (byte == 0 ? "; text from Windows is to be saved as UTF-8" : ""))
    }
    sub(/#.*/, "")
    count = split($0, words, " ")
    if (count > 0)
        take(words[1])
}

# All or nothing: a listing is written only when the whole text is good.
END {
    if (refused)
        exit 3
    for (i = 1; i <= records; i++)
        print listing[i]
}

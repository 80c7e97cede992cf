# Sourced by tests/stand/run: ./stand in trees of other kinds. Each is a copy of the script with a program and an rt
# that are made up here: a program that is missing, is old, or fails; an rt that is missing or fails; a tree that is not
# writable.

place=$(mktemp -d) || exit 2
trap 'chmod -R u+rwX "$place" && rm -rf "$place"' EXIT
chmod 755 "$place"
tree=$place/tree

# A folder with the commands that ./stand needs and no other, so that rt is not found.
mkdir "$place/bin"
for command in awk bash cat cp cut dirname find mkdir od readlink touch tr wc; do
    ln -s "$(command -v "$command")" "$place/bin/$command"
done

# Makes the tree anew: sources of today and no program.
make_tree() {
    if [ -e "$tree" ]; then chmod -R u+rwX "$tree" && rm -rf "$tree"; fi
    mkdir -p "$tree"/crates/{one,stand,stand_lost,stand_sheet,stand_holders,stand_keepers} "$tree/tools"
    cp stand "$tree/stand"
    cp -r tools/stand "$tree/tools/stand"
    echo 'fn one() {}' >"$tree/crates/one/lib.rt"
    echo 'one' >"$tree/crates.txt"
    echo 'start 1 1' >"$tree/one.txt"
    printf '\x01\x01\x01' >"$tree/one.bytes"
    rm -f "$place/bin/rt"
}

# Gives the tree a program, the shell commands of the first argument, as rt has left it in the crate's folder and as it
# was put in its place. It is newer than the sources unless 'old' is said. Its name is stand unless another is given.
make_fake() {
    local name=${3-stand}
    local fake=$tree/target/bin/$name built=$tree/crates/$name/out/$name
    mkdir -p "$tree/target/bin" "${built%/*}"
    printf '#!/bin/sh\n%s\n' "$1" >"$fake"
    chmod 755 "$fake"
    cp -p "$fake" "$built"
    find "$tree/crates" "$tree/crates.txt" -exec touch -t 202001020000 {} +
    [ "${2-new}" = new ] || touch -t 202001010000 "$fake"
}

# Gives the tree an rt, the shell commands of the argument. It works in the program's crate.
make_rt() {
    printf '#!/bin/sh\n%s\n' "$1" >"$place/bin/rt"
    chmod 755 "$place/bin/rt"
}

# The tree's script, with no other commands than those of the folder.
there() {
    PATH=$place/bin "$tree/stand" "$@"
}

plays='cat >/dev/null; printf "record kind code value\n0 1 0 0\ntotal 0 1 0\n"'
played=('record kind code value' '0 1 0 0' 'total 0 1 0' 'status 0')
shown=("$tree/one.txt, read as text" 'record kind code value  meaning                     line  text'
    '     0    1    0     0  accepted                       1  start 1 1'
    'total: 0 finished, 1 accepted or under way, 0 refused or ended' 'status 0')
proving='stand: proving and building what is missing, at most some minutes; a line tells each crate that is done'
old='stand: target/bin/stand is older than its sources'
missing='stand: target/bin/stand is not built'
# What rt prints of a crate that it has proved, and what the script says of it.
one='echo "crate one: modules loaded=0 checked=57"; echo "logic=proved functions=2"'
one_proved='stand: one is proved'

# ---- which program is played ----

make_tree && make_fake "$plays"
tried there "$tree/one.bytes"
answers 'bytes, where the program is new and rt is not installed' "${played[@]}"
tried there "$tree/one.txt"
answers 'text, where the program is new and rt is not installed' "${shown[@]}"
make_rt 'echo rt was called; exit 1'
tried there "$tree/one.txt"
answers 'rt is not called where the program is new' "${shown[@]}"

ln -s "$tree/stand" "$place/link"
tried env -C "$place" PATH="$place/bin" ./link tree/one.bytes
answers 'called through a link and from another folder' "${played[@]}"

for source in crates.txt crates/one/lib.rt crates/one; do
    make_tree && make_fake "$plays"
    touch -t 203001010000 "$tree/$source"
    tried there "$tree/one.txt"
    answers "without rt, where $source is newer than the program" \
        "$old, and the Rattle toolchain (rt) is not installed: it is played as it is" "${shown[@]}"
done
make_tree
tried there "$tree/one.txt"
answers 'without rt and without a program' \
    "$missing, and the Rattle toolchain (rt) is not installed" 'status 1'

# ---- proving and building ----

make_tree && make_fake 'echo an old program' old
make_rt "$one"'; echo "library two: modules loaded=7 checked=0"
    [ "$* ${PWD##*/}" = "run stand" ] && [ -e ../../crates.txt ] && printf "#!/bin/sh\n%s\n" '"'$plays'"' >out/stand'
tried there "$tree/one.bytes"
answers 'an old program is proved and built first' "$proving" "$one_proved" "${played[@]}"
rm -f "$place/bin/rt"
tried there "$tree/one.bytes"
answers 'and then is new' "${played[@]}"

make_tree && make_fake 'printf "%s bytes\n" $(wc -c)' old
make_rt 'cat'
tried there < <(printf '\x01\x01\x01')
answers 'rt takes nothing of standard input' "$proving" '3 bytes' 'status 0'
make_tree && make_fake "$plays" old
make_rt 'true'
there "$tree/one.bytes" >/dev/null 2>&1
rm -f "$place/bin/rt"
tried there "$tree/one.bytes"
answers 'a program that rt left as it was counts as new' "${played[@]}"

make_tree && make_fake "$plays" old
make_rt "$one"'; echo "rt: two is not proved" >&2; printf "the end"; exit 4'
tried there "$tree/one.txt"
answers 'where rt fails nothing is played' "$proving" "$one_proved" \
    'crate one: modules loaded=0 checked=57' 'logic=proved functions=2' 'rt: two is not proved' 'the end' \
    'stand: it was not proved and built' 'status 1'
make_tree
make_rt 'echo "rt: ok"'
tried there "$tree/one.txt"
answers 'where rt leaves no program' "$proving" 'rt: ok' 'stand: it was not proved and built' 'status 1'
make_rt 'touch ../../called'
tried there --text < <(echo stop)
if [ -e "$tree/called" ]; then echo 'rt was called' >>"$out/wrote"; fi
answers 'wrong text is refused before anything is proved' \
    'stand: line 1: expected start, allocate, free, step, run or leave; found stop' 'status 2'

# ---- a program that fails ----

make_tree && make_fake 'cat >/dev/null; exit 3'
tried there "$tree/one.bytes"
answers 'bytes, where the program fails' 'stand: the program failed (status 3)' 'status 1'
tried there "$tree/one.txt"
answers 'text, where the program fails' 'stand: the program failed (status 3)' 'status 1'
make_fake "$plays; exit 5"
tried there "$tree/one.txt"
answers 'text, where the program fails at its end' 'stand: the program failed (status 5)' 'status 1'
make_fake "$plays; kill -9 \$\$"
for form in bytes txt; do
    tried there "$tree/one.$form"
    grep -e '^stand: ' -e '^status ' "$out/wrote" >"$out/lines" && mv "$out/lines" "$out/wrote"
    answers "a program that is killed, one.$form" 'stand: the program failed (status 137)' 'status 1'
done

# ---- the program of the lost exchanges ----

# It is built like that of the table, and what it writes is shown: here the largest number that it can write.
make_tree && make_fake "$plays"
tried there --lost "$tree/one.txt"
answers '--lost without its program and without rt' \
    'stand: target/bin/stand_lost is not built, and the Rattle toolchain (rt) is not installed' 'status 1'
make_fake 'cat >/dev/null; printf "record kind code value lost\n0 1 0 0 4294967295\ntotal 0 1 0\n"' old stand_lost
make_rt "$one"'; [ "$* ${PWD##*/}" = "run stand_lost" ]'
tried there --lost "$tree/one.bytes"
answers 'an old program of --lost is proved and built first' "$proving" "$one_proved" \
    'record kind code value lost' '0 1 0 0 4294967295' 'total 0 1 0' 'status 0'
rm -f "$place/bin/rt"
tried there --lost "$tree/one.txt"
answers 'a lost number that is wider than its column' "$tree/one.txt, read as text" \
    'record kind code value  lost  meaning                     line  text' \
    '     0    1    0     0 4294967295  accepted                       1  start 1 1' \
    'total: 0 finished, 1 accepted or under way, 0 refused or ended' 'status 0'
tried there "$tree/one.bytes"
answers '--lost: and the program of the table is played as it is' "${played[@]}"

# ---- every code has its meaning ----

make_tree
make_fake 'cat >/dev/null; echo record kind code value
    i=0; while [ $i -le 21 ]; do echo $i 4 $i 0; i=$((i + 1)); done; echo total 1 1 20'
yes 'step 0' 2>/dev/null | head -n 22 >"$tree/codes.txt"
there "$tree/codes.txt" 2>&1 |
    sed -n 's/^ *[0-9]* *4 *\([0-9]*\) *0  \(.*[^ ]\)  *[0-9]*  step 0$/\1 \2/p' >"$out/wrote"
meanings=('1 control not 8,192 bytes' '2 regions not 1 to 4' '3 tasks not 1 to 8' '4 not started' '5 no such task'
    '6 request in hand' '7 no request in hand' '8 size 0' '9 size above 65,536' '10 no block or strip there'
    "11 not in a user's hands" '12 no descriptor' '13 no region' '14 damaged memory' '15 unknown kind or cut record'
    '16 no strip' '17 unknown code' '18 unknown code' '19 unknown code' '20 finished' '21 unknown code')
answers 'the meaning of every code' '0 under way' "${meanings[@]}"

# ---- a table that is not taken, or cannot be written ----

for form in full long.txt; do
    ./stand "$out/$form" 2>"$out/wrote" | head -n 1 >/dev/null
    echo "the reader's status ${PIPESTATUS[1]}" >>"$out/wrote"
    answers "$form, of which the first line is taken" "the reader's status 0"
    if [ -w /dev/full ]; then
        ./stand "$out/$form" 2>"$out/wrote" >/dev/full
        echo "status $?" >>"$out/wrote"
        answers "$form, with no room for the table" 'stand: the table could not be written' 'status 1'
    fi
done

# ---- a tree that is not writable ----

# Where nothing is writable the shell cannot make the file that it may need for a here-document.
grep -n -e '<<' -e mktemp stand >"$out/wrote"
: >"$out/due"
compare 'the script needs no temporary file'

# For root every file is writable: then another user is taken, where there is a way to.
another=()
if [ "$(id -u)" -eq 0 ]; then another=(setpriv --reuid=65534 --regid=65534 --clear-groups); fi

# The tree's script, called by a user who may not write in it.
by_another() {
    "${another[@]}" env -C / PATH="$place/bin" "$tree/stand" "$@"
}

not_writable() {
    make_tree && make_fake "$plays" && chmod -R a-w "$tree"
    tried by_another "$tree/one.txt"
    answers 'a tree that is not writable, with a new program' "${shown[@]}"

    chmod 000 "$tree/one.bytes"
    tried by_another "$tree/one.bytes"
    answers 'a file that cannot be read' "stand: $tree/one.bytes cannot be read" 'status 2'
    chmod 444 "$tree/one.bytes"

    make_tree && make_fake "$plays" old && chmod -R a-w "$tree"
    make_rt 'echo rt was called; exit 1'
    tried by_another "$tree/one.bytes"
    answers 'a tree that is not writable, with an old program' \
        "$old, and target cannot be written: it is played as it is" "${played[@]}"
    chmod 777 "$tree/target"
    tried by_another "$tree/one.bytes"
    answers 'the same where target is writable and target/bin is not' \
        "$old, and target cannot be written: it is played as it is" "${played[@]}"
    mkdir -p "$tree/target/rlib" && touch "$tree/target/rlib/one" && chmod 777 "$tree/target/bin" "$tree/target/rlib"
    chmod 666 "$tree/target/bin/stand" && chmod a+x "$tree/target/bin/stand"
    tried by_another "$tree/one.bytes"
    answers 'the same where a file further in is not' \
        "$old, and target cannot be written: it is played as it is" "${played[@]}"
    chmod -R a+rwX "$tree/target"
    tried by_another "$tree/one.bytes"
    answers 'the same where target is writable and crates are not' \
        "$old, and crates cannot be written: it is played as it is" "${played[@]}"

    make_tree && chmod -R a-w "$tree"
    tried by_another "$tree/one.txt"
    answers 'a tree that is not writable, without a program' \
        "$missing, and target cannot be written" 'status 1'
}

if "${another[@]}" test -x "$place/bin" 2>/dev/null; then
    not_writable
else
    echo "not tried: a tree that is not writable (this is root, and no other user can be taken who reaches $place)"
fi

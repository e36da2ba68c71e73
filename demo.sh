#!/bin/sh
# A first run. acpi_example writes the tables of a PC, acpiread reads three of them, and acpitool shows each as text, makes one
# from its text again, and checks the image of all. What they print is compared with the files of tools/demo.
#
# `rt try` runs the programs: it compiles them, and proves nothing. It takes less than two minutes on two processors. With
# `built`, the programs are those that prove.sh or `rt ci` left.
set -eu
cd "$(dirname "$0")"

fail() {
    echo "demo.sh: $1" >&2
    exit 1
}

case ${1-} in
built) made=built ;;
'') made=tried ;;
*) fail 'usage: sh demo.sh [built]' ;;
esac
[ "$made" = built ] || command -v rt >/dev/null || fail 'rt is missing: README says what has to be on the path'

# The files of this run stay for a look.
files=$PWD/out/demo
rm -rf "$files"
mkdir -p "$files/tables" "$files/texts"
work=$(mktemp -d)
trap 'rm -rf "$work"' EXIT

# Runs a program with words. `rt try` also has an interpreter, which can't run a program that reads words or files: here it stops
# at its first step.
run() {
    program=$1
    shift
    if [ "$made" = built ]; then
        "crates/$program/out/$program" "$@"
    else
        (cd "crates/$program" && rt try --steps 1 -- "$@") 2>"$work/log" || { cat "$work/log" >&2; fail "$program failed"; }
    fi
}

# Whether there is memory for two compilations at a time. One takes up to 1 GB.
has_room() {
    awk '/^MemAvailable:/ { available = $2 } END { exit (available < 3000000) }' /proc/meminfo 2>/dev/null
}

# Adds a run of a program to a folder of runs: its name, its file, and its words, in which {} is the file.
add() {
    folder=$1
    name=$2
    cp "$3" "$folder/$name"
    shift 3
    printf '%s\n' "$@" >"$folder/$name.args"
}

# Runs a program once for each run of a folder. Before the output of each is a line `== NAME`.
run_all() {
    program=$1
    folder=$2
    if [ "$made" = tried ]; then
        (cd "crates/$program" && rt try --steps 1 --cases "$folder") 2>"$work/$program.log" ||
            { cat "$work/$program.log" >&2; fail "$program failed"; }
        return
    fi
    for words in "$folder"/*.args; do
        file=${words%.args}
        echo "== ${file##*/}"
        set --
        while read -r word; do
            [ "$word" != '{}' ] || word=$file
            set -- "$@" "$word"
        done <"$words"
        "crates/$program/out/$program" "$@" || fail "$program $* failed"
    done
}

# Compares two files, and prints the first.
expect() {
    diff "$2" "$1" >&2 || fail "the lines after > were printed, and those after < expected"
    cat "$1"
}

if [ "$made" = tried ]; then
    echo 'The programs are compiled and run without a proof (rt try). Each takes up to half a minute.'
fi

echo
echo '1. acpi_example writes the tables of a PC, and an image in which they have their addresses.'
run acpi_example "$files/tables" 1c000000 >"$work/written"
mv "$files/tables/image" "$files/image"
expect "$work/written" tools/demo/written.txt

mkdir "$work/read" "$work/tool"
for table in madt mcfg package; do
    add "$work/read" "$table" "$files/tables/$table" table '{}'
done
add "$work/tool" show tools/demo/mcfg.txt show "$files/tables"
add "$work/tool" make tools/demo/mcfg.txt make '{}' "$files/mcfg.made"
add "$work/tool" image "$files/image" image '{}' 1c000000
# Where there is room, acpitool runs while acpiread does.
tool=
if [ "$made" = tried ] && has_room; then
    run_all acpitool "$work/tool" >"$work/shown" &
    tool=$!
fi

echo
echo '2. acpiread reads a table. It prints a line for the header, and one for each structure.'
run_all acpiread "$work/read" >"$work/lines"
expect "$work/lines" tools/demo/read.txt

echo
echo '3. acpitool shows each table as text (here the MCFG), makes the MCFG from its text again,'
echo '   and finds and checks the tables of the image.'
if [ -n "$tool" ]; then
    wait "$tool" || fail 'acpitool failed'
else
    run_all acpitool "$work/tool" >"$work/shown"
fi
awk -v texts="$files/texts" -v tables="// $files/tables/" '
    /^== / { to = texts "/" $2; next }
    index($0, tables) == 1 { to = texts "/" substr($0, length(tables) + 1) }
    { print >to }
' "$work/shown"
sed 1d "$files/texts/mcfg" >"$work/mcfg"
expect "$work/mcfg" tools/demo/mcfg.txt
cmp "$files/mcfg.made" "$files/tables/mcfg" || fail 'the table that was made of the text is another one'
echo 'The table that is made of this text has the bytes of the MCFG. The image has these tables:'
expect "$files/texts/image" tools/demo/image.txt

echo
echo 'All of this is as expected. The tables, their texts and the image are in out/demo.'
if [ "$made" = tried ]; then
    echo 'None of these programs was proved. `sh prove.sh` proves and builds them, and everything that they stand on.'
fi

#!/bin/sh
# Runs programs once for each growth, with that one refused by memory.c. `test_memory` has to end as ever, since it makes each
# refused call once more, and has to say that as many calls returned that memory ran out as growths were refused. `acpiread` has
# to print its whole report, or to end with status 1, `refused: Memory` and no report. `acpitool` has to print a whole text, or to
# write a whole table, or to end with a line that says that memory ran out, and nothing else. The whole text of a definition block
# of which not all can be read has a line on standard error, and status 1. All are proved before they are built, with everything
# that they stand on; with `built`, those are run that `rt ci` left.
#
# A run may go on without these growths, as nothing is missing then, and without no other:
#
# - `terms` gives back the room that a list doesn't need. If that is refused, the list keeps it. memory.c counts no block that is
#   to become smaller as refused.
# - `collect` of the standard library asks for room for all words at once, and then for less. So a run of `acpiread` or `acpitool`
#   may go on without one growth, when it takes its words.
set -eu
cd "$(dirname "$0")/.."

. tools/crates.sh

# A header with the length and the checksum that stand before and behind the revision, and what follows (ACPI 6.5, 5.2.6).
header() {
    printf "$1"'FOOBARCAFEDEAD\357\276\255\336RVAT\0\0\0\001'
}

# A device with its id and its resources (ACPI 6.5, 20.2.5.2).
device() {
    printf '\133\202\060\056_SB_COM1\010_HID\014\101\320\005\001\010_CRS\021\026\012\023'
    printf '\211\006\0\003\001\004\0\0\0\107\001\370\003\370\003\0\010\171\0'
}

# Two devices with a method of the same name. The second method, of two arguments, calls itself (ACPI 6.5, 5.3).
methods() {
    printf '\133\202\014DEV0\024\006GETX\001\133\202\023DEV1\024\015GETX\002\244GETX\001h'
}

# A method after whose first statement no term begins, and a device.
damaged() {
    printf '\024\012MTHD\001\244h[\377[\202\013DEV\060\010_UID\001'
}

# A MADT of two processors, a device's AML, and definition blocks that hold the device, the methods and what can't be read.
{ header 'APIC\074\0\0\0\001\150' && printf '\0\0\340\376\0\0\0\0\0\010\0\0\001\0\0\0\0\010\001\001\001\0\0\0'; } >"$work/table"
device >"$work/aml"
{ header 'DSDT\126\0\0\0\002\107' && device; } >"$work/dsdt"
{ header 'DSDT\107\0\0\0\002\121' && methods; } >"$work/scopes"
{ header 'DSDT\074\0\0\0\002\124' && damaged; } >"$work/damaged"

if [ "${1-}" != built ]; then
    prove test_memory acpiread acpitool
fi
memory=$PWD/crates/test_memory/out/test_memory
read=$PWD/crates/acpiread/out/acpiread
tool=$PWD/crates/acpitool/out/acpitool
cc -shared -fPIC -O1 -o "$work/memory.so" tools/memory.c

# Runs words with one growth refused, and keeps the status, what is written, and how many growths there were and were refused.
refusing() {
    number=$1
    shift
    status=0
    rm -f "$work/growths" "$work/made"
    env REFUSED="$number" GROWTHS="$work/growths" LD_PRELOAD="$work/memory.so" "$@" >"$work/out" 2>"$work/err" || status=$?
    read -r growths refused <"$work/growths"
}

fail() {
    echo "growth $number of $* refused: status $status" >&2
    cat "$work/out" "$work/err" >&2
    exit 1
}

# Runs words once for each growth. Each run has to end as the first word says, and may be whole without as many growths as the
# second says.
each() {
    ends=$1
    may=$2
    shift 2
    refusing 0 "$@"
    [ "$status" = "$well" ] || fail "$@"
    cp "$work/out" "$work/whole"
    cp "$work/err" "$work/said"
    most=$growths
    [ "$most" -gt 0 ] || fail "$@"
    without=0
    while [ "$number" -lt "$most" ]; do
        refusing $((number + 1)) "$@"
        "$ends" || fail "$@"
        if [ "$refused" = 1 ] && is_whole; then without=$((without + 1)); fi
    done
    if [ "$without" -gt "$may" ]; then
        echo "$(basename "$1")${2+ $2} goes on without $without growths, and may without $may" >&2
        exit 1
    fi
    echo "$(basename "$1")${2+ $2}: $most growths refused, one a run"
}

is_whole() {
    [ "$status" = "$well" ] && cmp -s "$work/out" "$work/whole" && cmp -s "$work/err" "$work/said"
}

# test_memory makes the refused call again, and says how many calls returned that memory ran out.
is_made_again() {
    wanted=$(sed "s/memory: 0\$/memory: $refused/" "$work/whole")
    if [ "$status" != 0 ] || [ "$(cat "$work/out")" != "$wanted" ] || [ -s "$work/err" ]; then
        echo "wanted: $wanted" >&2
        return 1
    fi
}

is_whole_or_refused() {
    is_whole || { [ "$status" = 1 ] && [ ! -s "$work/out" ] && [ "$(cat "$work/err")" = 'refused: Memory' ]; }
}

# acpitool says of which file it speaks, if it is at one.
says_memory() {
    [ "$status" = 1 ] || [ "$status" = 2 ] || return 1
    [ ! -s "$work/out" ] && grep -Eqx '.*: out of memory' "$work/err"
}

is_whole_or_says_memory() {
    is_whole || says_memory
}

is_made_or_says_memory() {
    { is_whole && cmp -s "$work/made" "$work/table"; } || { says_memory && [ ! -e "$work/made" ] && [ ! -e "$work/made.part" ]; }
}

# The status of a run without a refusal.
well=0
each is_made_again 0 "$memory"
cmp "$work/whole" crates/test_memory/stdout
each is_whole_or_refused 1 "$read" table "$work/table"
each is_whole_or_refused 1 "$read" aml "$work/aml"
each is_whole_or_refused 1 "$read" dsdt "$work/dsdt"
each is_whole_or_says_memory 1 "$tool" show "$work/table"
each is_whole_or_says_memory 1 "$tool" show "$work/dsdt"
each is_whole_or_says_memory 1 "$tool" disassemble "$work/dsdt"
each is_whole_or_says_memory 1 "$tool" disassemble "$work/scopes"
well=1
each is_whole_or_says_memory 1 "$tool" disassemble "$work/damaged"
well=0
each is_whole_or_says_memory 1 "$tool" template APIC
"$tool" show "$work/table" >"$work/text"
each is_made_or_says_memory 1 "$tool" make "$work/text" "$work/made"
{ head -c 9 "$work/table" && printf '\377' && tail -c +11 "$work/table"; } >"$work/wrong"
each is_made_or_says_memory 1 "$tool" repair "$work/wrong" "$work/made"

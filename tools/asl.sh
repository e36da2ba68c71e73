#!/bin/sh
# Compiles with ACPICA's iasl the ASL that `acpitool disassemble` prints of definition blocks, and compares the terms of what iasl
# makes with those of the block, byte for byte. It prints a line for each block. With files or folders as arguments, the blocks
# are the DSDTs and SSDTs among them. Without any they are those of crates/acpitool/data, those that the example writes for both
# of its machines, and 100 that iasl makes of the calls of calls.py. The programs and what they stand on are proved first. Not a
# part of the gate. The status is 1 if iasl refuses a text, if the terms are others, or if there is no block.
#
# iasl runs without its optimizations, which shorten names and numbers. The header isn't compared beyond the OEM's revision, since
# iasl writes itself and its release there. It doesn't know where a block was made with more bytes than needed for a length or a
# number: such a block is named, and the number of its bytes beside that of iasl's. Some blocks break rules that iasl checks, such
# as a name that stands twice. These are compiled by force (-f), and what iasl says is printed. A text with External statements
# for names that find no object (the note `Absent`) is compiled, and once more without them, by force, since they aren't in the
# block.
#
# Tried with release 20200925, Debian's package acpica-tools.
set -eu

fail() {
    echo "$1" >&2
    exit 1
}

command -v iasl >/dev/null || fail "iasl isn't here: Debian has it in acpica-tools"

# The arguments are the caller's, from where the caller is.
for given in "$@"; do
    [ -e "$given" ] || fail "$given: there is no such file or folder"
    shift
    set -- "$@" "$(cd "$(dirname "$given")" && pwd)/$(basename "$given")"
done

cd "$(dirname "$0")/.."
. tools/crates.sh

tool=crates/acpitool/out/acpitool
if [ $# -gt 0 ]; then
    prove acpitool
else
    prove acpi_example acpitool
    mkdir "$work/acpi" "$work/acpi/arm"
    crates/acpi_example/out/acpi_example "$work/acpi" 1c000000 >"$work/log"
    crates/acpi_example/out/acpi_example arm "$work/acpi/arm" 40000000 >"$work/log"
    # An image begins with a table and isn't one. The block `package` is a package alone, for which ASL has no statement.
    rm "$work/acpi/image" "$work/acpi/arm/image" "$work/acpi/package"
    mkdir "$work/calls"
    python3 -B tools/calls.py "$work/calls" 100
    for block in "$work/calls"/*.asl; do
        iasl -oa -p "${block%.asl}" "$block" >"$work/log" 2>&1 || fail "${block##*/}: refused by iasl"
    done
    set -- crates/acpitool/data "$work/acpi" "$work/calls"
fi

# Compiles a text to $work/made.aml, by force if iasl refuses it. What iasl says against it is in $work/said.
compile() {
    rm -f "$work/made.aml"
    iasl -oa -p "$work/made" "$1" >"$work/log" 2>&1 || true
    grep '^Error' "$work/log" >"$work/said" || true
    [ -s "$work/made.aml" ] || iasl -oa -f -p "$work/made" "$1" >"$work/log" 2>&1 || true
    [ -s "$work/made.aml" ]
}

count=0
wrong=0
find "$@" -type f | sort >"$work/files"
while read -r table; do
    case $(head -c 4 "$table") in
    DSDT | SSDT) ;;
    *) continue ;;
    esac
    name=${table##*/}
    count=$((count + 1))
    if ! "$tool" disassemble "$table" >"$work/block.dsl" 2>"$work/said"; then
        sed "s|^$table: |$name: no ASL: |" "$work/said"
        wrong=$((wrong + 1))
    elif ! compile "$work/block.dsl"; then
        echo "$name: refused by iasl"
        sed "s/^/$name: /" "$work/said"
        wrong=$((wrong + 1))
    else
        if grep -q '/\*= Absent \*/' "$work/block.dsl"; then
            mv "$work/said" "$work/first"
            grep -v '/\*= Absent \*/' "$work/block.dsl" >"$work/bare.dsl"
            compile "$work/bare.dsl" || fail "$name: refused by iasl by force"
            mv "$work/first" "$work/said"
        fi
        tail -c +37 "$table" >"$work/terms"
        tail -c +37 "$work/made.aml" >"$work/compiled"
        if cmp -s "$work/terms" "$work/compiled"; then
            echo "$name: the same terms"
        else
            echo "$name: other terms: $(wc -c <"$work/terms") bytes, and $(wc -c <"$work/compiled") of iasl"
            wrong=$((wrong + 1))
        fi
        sed "s/^/$name: /" "$work/said"
    fi
done <"$work/files"
[ "$count" -gt 0 ] || fail "there is no definition block"
[ "$wrong" -eq 0 ]

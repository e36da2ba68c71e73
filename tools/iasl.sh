#!/bin/sh
# Disassembles with ACPICA's iasl each table that the example writes for both of its machines, its definition blocks with their
# AML, and prints a line for each. It compares the fields that iasl writes with those that `acpitool show --bytes` prints, as
# iasl_fields.py says. With a folder as its argument, the tables are the files of that folder. Without one they are those of the
# example, and then the fields of crates/acpitool/data are compared, too: these tables have each structure, with values that iasl
# needn't accept. The programs and what they stand on are proved first. Not a part of the gate. It goes over all tables. Its last
# line has the numbers of tables, of those that iasl refuses, and of those whose fields are others. The status is 1 if one of the
# last two isn't 0, or if there is no table.
#
# iasl refuses a table if it ends with an error, writes no text, or says that the bytes are wrong. It also warns of what it can't
# know from one table, as of names that another definition block declares. These warnings are printed, and don't count.
#
# Tried with Debian's package acpica-tools of three releases. Release 20260408 knows all tables that acpitool shows, but for an
# RSDP; what it writes otherwise is in iasl_fields.py. Release 20250404 doesn't know the newest structures. Release 20200925 knows
# ACPI 6.3. In the example's tables it doesn't know:
# - PPTT: the cache's id (offset 24 of a cache's node, and the flag 128 for it);
# - HMAT: the minimum transfer size (offset 10 of a matrix) and the flags 16 and 32 beside the hierarchy.
# It doesn't write of these, so nothing here says that they are right. Nor does it see a last structure that is longer than the
# rest of the table, or bytes after a table in its file. acpiread sees both.
set -eu

fail() {
    echo "$1" >&2
    exit 1
}

command -v iasl >/dev/null || fail "iasl isn't here: Debian has it in acpica-tools"
[ $# -le 1 ] || fail 'usage: sh tools/iasl.sh [FOLDER]'

# The folder is the caller's, from where the caller is.
if [ $# -eq 1 ]; then
    [ -d "$1" ] || fail "$1: there is no such folder"
    tables=$(cd "$1" && pwd) || fail "$1: the folder can't be read"
    [ -n "$(ls -A "$tables")" ] || fail "$1: the folder is empty"
fi

cd "$(dirname "$0")/.."
. tools/crates.sh

tool=crates/acpitool/out/acpitool
if [ $# -eq 1 ]; then
    prove acpitool
else
    prove acpi_example acpitool
    tables=$work/acpi
    mkdir "$tables"
    crates/acpi_example/out/acpi_example "$tables" 1c000000 >"$work/log"
    mkdir "$tables/arm"
    crates/acpi_example/out/acpi_example arm "$tables/arm" 40000000 >"$work/log"
fi

# What iasl says against bytes, on its output and in the text that it writes.
said='error|invalid|unknown|incorrect|\*\*\*\*'
written='Error:|Invalid|Unknown|Incorrect|\*\*\*\*'
# What it says of names and methods that it doesn't find in this table.
warned='External|external|iASL Warning|unresolved|Unknown method, guessing'

# Writes the text of a table to a file, and what iasl says to $work/log. The status is 1 if iasl refuses the table.
disassemble() {
    table=$1
    text=$2
    iasl -p "${text%.dsl}" -d "$table" >"$work/log" 2>&1 && [ -s "$text" ] &&
        ! grep -Ei "$said" "$work/log" | grep -Evq "$warned" && ! grep -E "$written" "$text" | grep -Evq "$warned"
}

count=0
refused=0
different=0

# Compares the fields in a table's text with those that acpitool shows, and prints what differs. A table with a fault is shown,
# too.
compare_fields() {
    "$tool" show --bytes "$1" >"$work/shown" || [ -s "$work/shown" ] || {
        echo "${1##*/}: acpitool doesn't show it" >&2
        different=$((different + 1))
        return 0
    }
    python3 -B tools/iasl_fields.py "$work/shown" "$2" >"$work/compared" || {
        echo "${1##*/}: its fields differ" >&2
        different=$((different + 1))
    }
    sed "s|^|${1##*/}: |" "$work/compared"
}

for table in "$tables"/* "$tables"/arm/*; do
    name=${table##*/}
    # All tables at their addresses.
    [ "$name" != image ] && [ -f "$table" ] || continue
    count=$((count + 1))
    text=$work/$(printf %s "$name" | tr . _).dsl
    rm -f "$text"
    if ! disassemble "$table" "$text"; then
        refused=$((refused + 1))
        echo "$name: refused by iasl" >&2
        grep -Ei "$said" "$work/log" >&2 || cat "$work/log" >&2
        grep -Es "$written" "$text" >&2 || true
        continue
    fi
    grep -E "$warned" "$work/log" | sed "s/^/$name: /" || true
    echo "$name: $(sed -n 's/^ACPI: \(....\) .*/\1/p' "$work/log") disassembled"
    compare_fields "$table" "$text"
done
[ "$count" -gt 0 ] || fail "there is no table"

[ $# -gt 0 ] || for table in crates/acpitool/data/*; do
    count=$((count + 1))
    name=${table##*/}
    text=$work/$(printf %s "$name" | tr . _).dsl
    rm -f "$text"
    disassemble "$table" "$text" || true
    if [ ! -s "$text" ] || grep -q 'Unknown ACPI table signature' "$text"; then
        echo "$name: iasl doesn't know it"
    else
        compare_fields "$table" "$text"
    fi
done

echo "$count tables: $refused refused by iasl, $different with other fields"
[ "$refused" -eq 0 ] && [ "$different" -eq 0 ]

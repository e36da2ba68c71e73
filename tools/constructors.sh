#!/bin/sh
# Asks ACPICA's iasl about the bytes of each constructor. Not a part of the gate.
#
# The sources in crates/test_rewrite/data have each head, each operator and each resource descriptor that a constructor
# writes, and by the program test_rewrite constructors write the bytes of heads.aml and descriptors.aml. This script has iasl
# make these of their sources, and again of the text to which it disassembles them, and compares the terms, byte for byte. The
# headers aren't compared, since iasl writes its release there.
#
# The tables in crates/acpitool/data have each structure of the tables that are written, but for those of which
# cases/further.cases has a table. iasl disassembles each of them. What it says against one is printed. It counts, unless it
# is one of these:
# - iasl doesn't know a table or a structure that is newer than it;
# - apic: the data ends with two structures that are shorter or longer than structures of their types;
# - facp: the data has a different number in each field, so the lengths of blocks and both addresses of a table don't agree;
# - tpm2: iasl takes fields after the log's address to be there if the start method is 11. The standard has none.
# RSDPs have no header of a table, and oemx has a signature of which iasl takes the bytes for AML, so these are left out.
#
# CSI-2 connections and clock inputs are newer than the compiler, so descriptors.asl hasn't them; test_aml has their bytes. What
# has the bytes of another constructor isn't there twice: an EISA id is a number, and a UUID a buffer.
#
# Tried with release 20200925, Debian's package acpica-tools. The status is 1 if iasl says other things, or makes other terms.
set -eu

fail() {
    echo "$1" >&2
    exit 1
}

command -v iasl >/dev/null || fail "iasl isn't here: Debian has it in acpica-tools"
cd "$(dirname "$0")/.."
work=$(mktemp -d)
trap 'rm -rf "$work"' EXIT
wrong=0

# Compares the terms of a block with those that iasl made of a text.
compare() {
    tail -c +37 "$1" >"$work/wanted"
    tail -c +37 "$2" >"$work/terms"
    if cmp "$work/wanted" "$work/terms"; then echo "$3: the same terms"; else wrong=1; fi
}

# Compiles a text. Names and lists aren't made shorter (-on).
compile() {
    iasl -on -p "$2" "$1" >"$work/log" 2>&1 || {
        cat "$work/log" >&2
        fail "iasl refuses $1"
    }
}

for block in heads descriptors; do
    data=crates/test_rewrite/data/$block
    compile "$data.asl" "$work/made"
    compare "$data.aml" "$work/made.aml" "$block.asl"
    iasl -p "$work/$block" -d "$data.aml" >"$work/log" 2>&1 || fail "iasl doesn't disassemble $data.aml"
    compile "$work/$block.dsl" "$work/again"
    compare "$data.aml" "$work/again.aml" "$block.aml disassembled"
done

# What iasl says of what it doesn't know, and what is explained above.
unknown='Unknown (ACPI table signature|[A-Z]+ subtable type|IORT node type|IVRS device entry)|unknown PCCT subtable type'
explained='^apic: .*subtable terminates early|^facp: Firmware Warning|^tpm2: .*terminates in the middle of a data structure'

mkdir "$work/tables"
cp crates/acpitool/data/* "$work/tables"
rm "$work/tables/oemx" "$work/tables"/rsdp*
python3 -B tools/case_tables.py cases/further.cases "$work/tables" APIC DMAR ERST FPDT HEST IORT IVRS NFIT PCCT PPTT RSDT SRAT
count=0
for table in "$work/tables"/*; do
    name=${table##*/}
    count=$((count + 1))
    if ! iasl -p "$work/text" -d "$table" >"$work/log" 2>&1 || [ ! -s "$work/text.dsl" ]; then
        echo "$name: not disassembled" >&2
        wrong=1
        continue
    fi
    { grep -E 'Error|Warning|Invalid' "$work/log" || true; } | sed "s/^/$name: /" >"$work/said"
    { grep -E 'Error:|Invalid|Incorrect|\*\*\*\*' "$work/text.dsl" || true; } | sed "s/^/$name: /" >>"$work/said"
    sort -u "$work/said"
    if grep -Evq "$unknown|$explained" "$work/said"; then wrong=1; fi
    rm -f "$work/text.dsl"
done
echo "$count tables"
[ "$wrong" -eq 0 ]

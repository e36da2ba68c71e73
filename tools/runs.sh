#!/bin/sh
# Further runs of the proved programs, which prove.sh makes after those of demo.sh. acpiread reads further tables. acpi_example
# writes images at the first address and at the last one where there is room. acpitool makes a table of an edited template, and
# each table of the example of its own text. It writes a table to standard output and into a pipe. All three programs have the
# tables of an Arm machine. Last, acpiread reads a definition block, and is run on a file that ends early or never, on a wrong
# word, with little memory, and with output that can't be written. The programs are those that prove.sh or `rt ci` left.
set -eu
cd "$(dirname "$0")/.."

work=$(mktemp -d)
trap 'rm -rf "$work"' EXIT

expect() {
    if [ "$1" != "$2" ]; then
        echo "expected: $2" >&2
        exit 1
    fi
}

read=crates/acpiread/out/acpiread
tool=crates/acpitool/out/acpitool
mkdir "$work/acpi"
crates/acpi_example/out/acpi_example "$work/acpi" 1c000000 >"$work/written"

# A table that was written, and the lines that acpiread prints for it.
reads() {
    lines=$("$read" table "$work/acpi/$1") || true
    echo "$lines"
    expect "$lines" "$2"
}

reads fadt 'FACP length 276 revision 6 sum 0'
reads srat 'SRAT length 160 revision 1 sum 0
48 type 0 size 16
64 type 0 size 16
80 type 1 size 40
120 type 1 size 40'
reads slit 'SLIT length 48 revision 1 sum 0'
reads hmat 'HMAT length 232 revision 1 sum 0
40 type 0 size 40
80 type 0 size 40
120 type 1 size 56
176 type 1 size 56'
reads pptt 'PPTT length 364 revision 3 sum 0
36 type 1 size 28
64 type 0 size 24
88 type 1 size 28
116 type 1 size 28
144 type 1 size 28
172 type 0 size 28
200 type 1 size 28
228 type 0 size 24
252 type 1 size 28
280 type 1 size 28
308 type 1 size 28
336 type 0 size 28'
reads hest 'HEST length 152 revision 1 sum 0
40 type 6 size 48
88 type 9 size 64'
reads bert 'BERT length 48 revision 1 sum 0'

# Images at the first address and at the last one where there is room. The program checks each before it writes it.
mkdir "$work/edge"
at_edge() {
    expect "$(crates/acpi_example/out/acpi_example "$work/edge" "$1")" "base 0x$1 RSDP $2"
    expect "$("$tool" image "$work/edge/image" "$1" | wc -l)" 13
}

at_edge 0 0x7a0
at_edge ffffffffffeef000 0xffffffffffeef7a0

# A text is made into a table: the beginning of a template, with the first processor enabled. Its length, its checksum, and the
# type and the length of its structure are worked out. Both programs read the table.
"$tool" template APIC >"$work/template"
sed -e '/^I.O APIC/,$d' -e 's/^  Revision: 00/  Revision: 05/' -e 's/^  APIC ID: 00/  APIC ID: #7/' \
    -e '/^Processor/,$s/Flags: 00000000 .*/Flags: {Enabled}/' "$work/template" >"$work/text"
cat "$work/text"
expect "$("$tool" make "$work/text" "$work/acpi/made" 2>&1)" ''
reads made 'APIC length 52 revision 5 sum 0
44 type 0 size 8'
lines=$("$tool" show "$work/acpi/made" | sed -n '/^44/,$p') || true
echo "$lines"
expect "$lines" '44 type 0 size 8 Processor Local APIC Structure
  44 Type                               : 00
  45 Length                             : 08
  46 ACPI Processor UID                 : 00
  47 APIC ID                            : 07
  48 Flags                              : 00000001  // Enabled'

# Each table that was written is made of its text again.
for table in package fadt madt mcfg srat slit hmat pptt hest bert namespace; do
    "$tool" show "$work/acpi/$table" >"$work/text"
    expect "$table $("$tool" make "$work/text" "$work/made" 2>&1)" "$table "
    cmp "$work/acpi/$table" "$work/made"
done

# A table goes to standard output, or into a pipe, which stays one.
"$tool" make "$work/text" - >"$work/printed"
cmp "$work/made" "$work/printed"
mkfifo "$work/pipe"
timeout 60 cat "$work/pipe" >"$work/printed" &
"$tool" make "$work/text" "$work/pipe"
wait
cmp "$work/made" "$work/printed"
[ -p "$work/pipe" ]

# An Arm machine: what acpiread prints for its tables, and its image, which has no FACS, from standard input. acpiread knows the
# structures of the tables of the Rust crate alone, and so none of GTDT, DBG2 and IORT.
mkdir "$work/arm"
expect "$(crates/acpi_example/out/acpi_example arm "$work/arm" 40000000)" 'base 0x40000000 RSDP 0x40000600'
arm_reads() {
    lines=$("$read" table "$work/arm/$1") || true
    echo "$lines"
    expect "$lines" "$2"
}

arm_reads madt 'APIC length 268 revision 1 sum 0
44 type 12 size 24
68 type 11 size 82
150 type 11 size 82
232 type 14 size 16
248 type 15 size 20'
arm_reads gtdt 'GTDT length 104 revision 3 sum 0'
arm_reads spcr 'SPCR length 90 revision 4 sum 0'
arm_reads dbg2 'DBG2 length 92 revision 0 sum 0'
arm_reads mcfg 'MCFG length 60 revision 1 sum 0
44 entry size 16'
arm_reads iort 'IORT length 220 revision 5 sum 0'
lines=$("$tool" image - 40000000 <"$work/arm/image") || true
echo "$lines"
expect "$lines" '0x40000600 RSD  length 36 revision 2
0x400005a0 XSDT length 92 revision 1
0x40000130 FACP length 276 revision 6
0x40000248 APIC length 268 revision 1
0x40000358 GTDT length 104 revision 3
0x400003c0 SPCR length 90 revision 4
0x40000420 DBG2 length 92 revision 0
0x40000480 MCFG length 60 revision 1
0x400004c0 IORT length 220 revision 5
0x40000000 DSDT length 298 revision 2'

# A run of acpiread that prints no report: its status, its line, and its words.
ends() {
    wanted=$1
    said=$2
    shift 2
    status=0
    line=$("$read" "$@" 2>&1 >"$output") || status=$?
    echo "$line"
    expect "$line" "$said"
    expect "status $status" "status $wanted"
}

output=/dev/null
head -c 40 "$work/acpi/package" >"$work/cut"
ends 1 'refused at 4: TableLength' table "$work/cut"

lines=$("$read" dsdt "$work/acpi/namespace") || true
echo "$lines"
expect "$lines" 'DSDT length 314 revision 2 sum 0
device _SB_.PCI0
  define _HID
    number 134926401
  define _CID
    number 51040321
  define _SEG
    number 0
  define _UID
    number 0
  define _CRS
    buffer data 880d00020c0000000000ff00000000014701f80cf80c0108880d00010c0300000000f70c0000f80c880d00010c030000000dffff000000f3871700000c0100000000000000c0ffffbffe000000000000c03e7900
      number 84
device _SB_.COM1
  define _HID
    number 17158209
  define _CRS
    buffer data 8906000301040000004701f803f80300087900
      number 19
  method _STA args 0 serialized 0
    return
      number 15
device _SB_.C000
  define _HID
    text "ACPI0007"
  define _UID
    number 0
device _SB_.C001
  define _HID
    text "ACPI0007"
  define _UID
    number 1
define \_S5_
  package 4
    number 0
    number 0
    number 0
    number 0'

# A word that is no text, a file without an end, too little memory, and output that can't be written.
ends 2 'usage: acpiread table FILE | aml FILE [NAME=N ..] | dsdt FILE [NAME=N ..]' table "$(printf 'table\377')"
ends 1 'refused at 4: TableLength' table /dev/zero
(ulimit -v 100000 && ends 1 'refused: Memory' aml /dev/zero)
output=/dev/full
ends 1 "the output can't be written" table "$work/acpi/package"

# acpitool, too, says which word is no text.
status=0
said=$("$tool" show "$(printf 'table\377')" 2>&1) || status=$?
expect "$said" "acpitool: a word isn't UTF-8"
expect "status $status" 'status 2'

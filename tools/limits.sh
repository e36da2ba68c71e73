#!/bin/sh
# Fills each table, `Sdt`, SLIT and `SystemLocality` until one more structure is refused, and gives `acpiread` files of the most
# bytes that a table and a list of terms can have, and of one more, and `acpitool` files of as many. Compares what is printed with
# the numbers that follow from the sizes: a table of n structures has the bytes of its head and n times those of a structure, and
# fewer than 2^32 (2^16 for VIOT, whose offsets have two bytes).
#
# It takes 9 GiB of memory and six minutes, beside the proofs of the programs and of what they stand on, which come first. A file
# is as long as the most bytes, but takes no room: it is a hole.
set -eu
cd "$(dirname "$0")/.."

. tools/crates.sh

prove test_limits acpiread acpitool
limits=crates/test_limits/out/test_limits
read=crates/acpiread/out/acpiread
tool=crates/acpitool/out/acpitool

# Runs words, and compares the line that they print on either output with the one that is wanted.
prints() {
    wanted=$1
    shift
    line=$("$@" 2>&1) || :
    if [ "$line" != "$wanted" ]; then
        echo "$*: $line" >&2
        echo "wanted: $wanted" >&2
        exit 1
    fi
    echo "$line"
}

# A table's name, the bytes before its structures, the bytes of a structure, and how many fit.
same_size() {
    prints "$1: $4 structures, $(($2 + $4 * $3)) bytes" "$limits" "$1"
}

most=$(((1 << 32) - 1))

same_size XSDT 36 8 536870907
same_size MCFG 44 16 268435453
same_size SRAT 48 40 107374181
same_size CEDT 36 32 134217726
same_size RQSC 40 28 153391687
same_size PPTT 36 20 214748362
same_size RHCT 56 8 536870904
same_size RIMT 48 32 134217726
same_size VIOT 48 16 4092
same_size GTDT 104 28 153391685
same_size DBG2 44 24 178956968
same_size IORT 48 68 63161283

# Structures of the caller's own: three of 2^30 bytes, and one that ends at the last byte that a table can have.
prints "MADT: 4 structures, $most bytes" "$limits" MADT
prints "HEST: 4 structures, $most bytes" "$limits" HEST
prints "Sdt: 4 additions, $most bytes" "$limits" Sdt

# The structures of an HMAT have an even number of bytes.
prints "HMAT: 5 structures, $((most - 1)) bytes" "$limits" HMAT
prints "SLIT: 65535 localities, $((44 + 65535 * 65535)) bytes" "$limits" SLIT
prints "SystemLocality: 1073741815 targets, $((32 + 4 * 1073741815)) bytes" "$limits" SystemLocality

# A file of one opcode that AML doesn't have, and zeros up to a size.
printf '\002' >"$work/file"
truncate -s "$most" "$work/file"
prints 'refused at 0: Opcode' "$read" aml "$work/file"
truncate -s $((most + 1)) "$work/file"
prints "refused at $most: TableLength" "$read" aml "$work/file"

# A header that states the most bytes, with the checksum that makes the sum zero (ACPI 6.5, 5.2.6), and zeros.
sum=$((79 + 69 + 77 + 49 + 4 * 255 + 1))
printf 'OEM1\377\377\377\377\001' >"$work/file"
printf "\\$(printf %o $(((256 - sum % 256) % 256)))" >>"$work/file"
truncate -s "$most" "$work/file"
prints "OEM1 length $most revision 1 sum 0" "$read" table "$work/file"
truncate -s $((most + 1)) "$work/file"
prints 'refused at 4: TableLength' "$read" table "$work/file"

# Zeros are no image, and no part of a longer file is read as one.
truncate -s 0 "$work/file"
truncate -s "$most" "$work/file"
prints "$work/file: no valid RSDP at a multiple of 16 bytes" "$tool" image "$work/file"
truncate -s $((most + 1)) "$work/file"
prints "$work/file: longer than $most bytes" "$tool" image "$work/file"

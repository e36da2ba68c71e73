#!/bin/sh
# Boots an unmodified Linux under QEMU from an image of tables, and prints what the kernel says of each. Not a part of the gate.
#
#     VMLINUZ=KERNEL [INITRD=ARCHIVE] sh tools/boot.sh IMAGE [BASE [NODES PROCESSORS]]
#
# The bytes of the image begin at the address BASE, in hexadecimal with or without 0x (1c000000 if none is named). The tables
# are in the first MiB from there, and the 3 MiB after it are reserved for pages that tables point to. Its RSDP is the last one
# in it. The machine is a q35 with 512 MiB and PROCESSORS processors, one in each package. Linux has to find NODES nodes
# of memory and each table of the image once, and each processor in its domain, if there is an SRAT. NODES and PROCESSORS are 2
# if they aren't named, as in the example's image. The kernel finds no disk and stops there, which is no fault. The status is 1
# if the kernel didn't take the RSDP or a table, found another number of nodes or processors or a processor without a domain,
# complains about a table, AML or what they describe, or doesn't come so far.
#
# ARCHIVE is one of `acpitool cpio`. Linux has to find each of its tables in the initrd, and to install it, or to take it in place
# of that of the image.
#
# Linux doesn't sum an RSDP that acpi_rsdp= names, and on x86 it doesn't read the PPTT: of these, `acpitool image` checks the sums
# of the RSDP, and only the sum of the PPTT is seen here.
#
# It takes qemu-system-x86_64 (Debian's package qemu-system-x86), cpio for ARCHIVE, and a kernel with a serial console. Debian's
# linux-image-cloud-amd64 has one: `apt-get download` the package that it depends on, and unpack it with `dpkg-deb -x`.
set -eu
export LC_ALL=C

fail() {
    echo "$1" >&2
    exit 1
}

[ $# -ge 1 ] && [ $# -le 4 ] && [ $# -ne 3 ] || fail 'usage: VMLINUZ=KERNEL sh tools/boot.sh IMAGE [BASE [NODES PROCESSORS]]'
image=$1
base=${2:-1c000000}
base=${base#0x}
nodes=${3:-2}
processors=${4:-2}
case $base in
*[!0-9A-Fa-f]* | '') fail "BASE has to be in hexadecimal, and is $2" ;;
esac
case $nodes:$processors in
*[!0-9:]* | :* | *:) fail "NODES and PROCESSORS have to be numbers, and are $nodes and $processors" ;;
esac
command -v qemu-system-x86_64 >/dev/null || fail "qemu-system-x86_64 isn't here: Debian has it in qemu-system-x86"
[ -n "${VMLINUZ:-}" ] || fail 'VMLINUZ has to name a kernel: a vmlinuz file'
[ -r "$VMLINUZ" ] || fail "the kernel $VMLINUZ can't be read"
[ -r "$image" ] || fail "the image $image can't be read"
initrd=${INITRD:-}
[ -z "$initrd" ] || [ -r "$initrd" ] || fail "the archive $initrd can't be read"
[ -z "$initrd" ] || command -v cpio >/dev/null || fail "cpio isn't here: Debian has it in cpio"

at=$(grep -abo 'RSD PTR ' "$image" | tail -n 1 | cut -d: -f1)
[ -n "$at" ] || fail "there is no RSDP in $image"
base=$(printf '0x%x' "$((0x$base))")
rsdp=$(printf '0x%x' $((base + at)))
errors=$(printf '0x%x' $((base + 0x100000)))
echo "base $base, RSDP $rsdp"

work=$(mktemp -d)
trap 'rm -rf "$work"' EXIT

# The tables in the image, by their own bytes and not by the XSDT: a signature, and a length after which all bytes sum to zero.
# Only a FACS has no sum. Each line has a signature and an offset. The lines of the other file are what the kernel says of the
# enabled processors of an SRAT (ACPI 6.5, 5.2.16.1 and 5.2.16.3). Of a SRAT of revision 1 it uses the low 8 bits of the domain
# of a local APIC.
: >"$work/domains"
od -An -v -tu1 -w1 "$image" | awk -v domains="$work/domains" '
    { byte[NR - 1] = $1 }
    function number(from) { return byte[from] + 256 * (byte[from + 1] + 256 * (byte[from + 2] + 256 * byte[from + 3])) }
    function print_domains(from, end, revision,    at, domain) {
        for (at = from + 48; at + 16 <= end && byte[at + 1]; at += byte[at + 1])
            if (byte[at] == 0 && byte[at + 4] % 2) {
                domain = byte[at + 2] + (revision > 1 ? 256 * (number(at + 9) % 2 ^ 24) : 0)
                printf "PXM %.0f -> APIC 0x%02x\n", domain, byte[at + 3] >domains
            } else if (byte[at] == 2 && byte[at + 12] % 2)
                printf "PXM %.0f -> APIC 0x%04x\n", number(at + 4), number(at + 8) >domains
    }
    function signature(from,    i, letter, letters) {
        for (i = from; i < from + 4; i++) {
            letter = sprintf("%c", byte[i])
            if (letter !~ /[A-Z0-9_!]/) return ""
            letters = letters letter
        }
        return letters
    }
    END {
        for (from = 0; from + 36 <= NR; from++) {
            letters = signature(from)
            size = number(from + 4)
            if (letters == "" || size < 36 || from + size > NR) continue
            sum = 0
            for (i = from; i < from + size; i++) sum += byte[i]
            if (letters == "FACS" && size == 64 || letters != "FACS" && sum % 256 == 0) {
                print letters, from
                if (letters == "SRAT") print_domains(from, from + size, byte[from + 8])
                from += size - 1
            }
        }
    }
' >"$work/tables"

# Without nokaslr the kernel may put itself where the tables are, and without the last word it doesn't sum their bytes.
timeout 300 qemu-system-x86_64 -M q35 -m 512 -smp "$processors,sockets=$processors" -nographic -no-reboot -kernel "$VMLINUZ" \
    ${initrd:+-initrd "$initrd"} -device "loader,file=$image,addr=$base,force-raw=on" \
    -append "console=ttyS0 panic=-1 acpi_rsdp=$rsdp memmap=1M#$base memmap=3M\$$errors nokaslr acpi_force_table_verification" \
    </dev/null >"$work/console" 2>&1 || { cat "$work/console" >&2; fail "QEMU didn't end as it should"; }
tr -d '\r' <"$work/console" >"$work/lines"

# What the kernel says of tables, processors, memory and the devices that it found by them.
parts='ACPI|SRAT|SLIT|NUMA|hmat|HMAT|PPTT|BERT|HEST|GHES|APEI|MCFG|MMCONFIG|PCI|pci_bus|APIC|smpboot|smp: '
grep -aE "$parts" "$work/lines" || true

grep -aq "ACPI: RSDP 0x0*$(printf '%X' "$rsdp") " "$work/lines" || fail "the kernel didn't take the RSDP"
grep -aq 'Unable to mount root fs' "$work/lines" || fail "the kernel didn't come to its disk"

# Each table is taken once.
while read -r signature from; do
    address=$(printf '%X' $((base + from)))
    count=$(grep -acE "ACPI: $signature 0x0*$address " "$work/lines" || true)
    [ "$count" -eq 1 ] || fail "the kernel took the $signature at 0x$address $count times"
done <"$work/tables"

# Each table of the archive is found in it, and is installed, or taken in place of another one.
if [ -n "$initrd" ]; then
    cpio -t <"$initrd" 2>/dev/null | sed 1,3d >"$work/files"
    while read -r name; do
        grep -aqF "ACPI table found in initrd [$name]" "$work/lines" || fail "the kernel didn't find $name"
    done <"$work/files"
    given=$(wc -l <"$work/files")
    taken=$(grep -acE 'ACPI: Table Upgrade: (install|override) ' "$work/lines" || true)
    [ "$taken" -eq "$given" ] || fail "the kernel took $taken tables of the archive, and not $given"
fi

found=$(sed -n 's/.*smp: Brought up \([0-9]*\) nodes*, \([0-9]*\) CPUs*.*/\1 \2/p' "$work/lines")
[ "$found" = "$nodes $processors" ] || fail "the kernel found ${found:-no} nodes and processors, and not $nodes $processors"

# Each processor is in its domain.
if grep -q '^SRAT ' "$work/tables"; then
    enabled=$(wc -l <"$work/domains")
    [ "$enabled" -eq "$processors" ] || fail "the SRAT has domains for $enabled enabled processors, and not $processors"
fi
while read -r line; do
    grep -aq "SRAT: $line -> Node" "$work/lines" || fail "the kernel doesn't say SRAT: $line"
done <"$work/domains"

# What it says against a table, AML or what they describe. It says two things that are no complaints: AML without \_SB._OSC
# doesn't ask for errors to go to firmware first, and a root bridge without _PXM has no node.
against="Can.t|Can not|[Cc]annot|[Uu]nable|[Nn]o memory|Not used|not enabled|not using|not correct|not found|[Uu]nknown|wrong"
against="$against|[Ee]rror|Warning|[Ii]nvalid|[Ii]ncorrect|[Bb]ad |[Ii]gnor|[Dd]isabl|[Ff]ail|[Uu]nexpected|[Uu]nsupported"
anywhere='Firmware (Bug|Warn|Info)|MP-BIOS bug|BIOS reported|No IOAPIC|cut here|BUG:|WARNING:|Oops|PM-Timer .*(fail|not)'
if grep -aE "($parts).*($against)|$anywhere" "$work/lines" |
    grep -avE 'Failed to enable APEI firmware first mode|Unknown NUMA node; performance will be reduced' >"$work/complaints"; then
    cat "$work/complaints" >&2
    fail 'the kernel complains'
fi
echo 'taken without complaint'

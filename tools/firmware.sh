#!/bin/sh
# Boots an unmodified Linux under QEMU and SeaBIOS with the files of `acpitool loader FOLDER OUT`, and prints what the kernel says
# of each table. Not a part of the gate.
#
#     VMLINUZ=KERNEL sh tools/firmware.sh OUT
#
# The machine is a q35 with 2 processors and without tables of its own, so FOLDER has to have tables for one. Each pointer of the
# script leads to one table, and the kernel has to find all of them, and the RSDP. The kernel finds no disk and stops there, which
# is no fault. The status is 1 if it finds another number of tables, or complains about one.
#
# It takes qemu-system-x86_64 (Debian's package qemu-system-x86) and a kernel with a serial console, as tools/boot.sh does. QEMU
# may be named by QEMU, with options of its own.
set -eu
export LC_ALL=C

fail() {
    echo "$1" >&2
    exit 1
}

[ $# -eq 1 ] || fail 'usage: VMLINUZ=KERNEL sh tools/firmware.sh OUT'
out=$1
qemu=${QEMU:-qemu-system-x86_64}
command -v "${qemu%% *}" >/dev/null || fail "qemu-system-x86_64 isn't here: Debian has it in qemu-system-x86"
[ -n "${VMLINUZ:-}" ] || fail 'VMLINUZ has to name a kernel: a vmlinuz file'
[ -r "$VMLINUZ" ] || fail "the kernel $VMLINUZ can't be read"
files=
for file in etc/acpi/tables etc/acpi/rsdp etc/table-loader; do
    [ -r "$out/$file" ] || fail "$out/$file can't be read"
    files="$files -fw_cfg name=$file,file=$out/$file"
done

work=$(mktemp -d)
trap 'rm -rf "$work"' EXIT
# shellcheck disable=SC2086
timeout 300 $qemu -M q35,acpi=off -m 128 -smp 2 -display none -vga none -net none -nodefaults -no-reboot \
    -serial "file:$work/log" -kernel "$VMLINUZ" -append 'console=ttyS0 panic=-1' $files >/dev/null 2>&1 || true

pointers=$(od -An -v -tu4 -w128 "$out/etc/table-loader" | awk '$1 == 2 { n++ } END { print n + 0 }')
grep -ao 'ACPI: [A-Z0-9! ]\{4\} 0x[0-9A-F]* [0-9A-F]\{6\}.*' "$work/log" >"$work/found" || true
cat "$work/found"
if grep -aiE 'ACPI.*(error|warning|checksum|invalid)' "$work/log" | grep -av 'checksum verification disabled' >&2; then
    fail 'the kernel complains about a table'
fi
found=$(wc -l <"$work/found")
[ "$found" -eq $((pointers + 1)) ] || fail "the kernel found $found tables of $((pointers + 1))"

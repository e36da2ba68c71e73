#!/bin/sh
# Makes the tables of a small PC from the texts of tools/machine, lays their image, and boots a Linux from it. The initrd has
# further tables: an SSDT, and a DSDT in place of that of the image. Not a part of the gate.
#
#     VMLINUZ=KERNEL sh tools/machine.sh [ACPITOOL]
#
# It takes what tools/boot.sh takes, and the program that prove.sh or `rt ci` left, if no other one is named.
set -eu
cd "$(dirname "$0")/.."
tool=${1:-crates/acpitool/out/acpitool}
work=$(mktemp -d)
trap 'rm -rf "$work"' EXIT
for folder in tables initrd; do
    mkdir "$work/$folder"
    for text in "tools/machine/$folder"/*.txt; do "$tool" make "$text" "$work/$folder/$(basename "$text" .txt).aml"; done
    "$tool" check "$work/$folder"
done
"$tool" lay "$work/tables" "$work/image" 1c000000
"$tool" cpio "$work/initrd" "$work/archive"
INITRD=$work/archive sh tools/boot.sh "$work/image" 1c000000 1 2

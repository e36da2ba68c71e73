#!/bin/sh
# Has test_rewrite write definition blocks anew by the constructors of the library, and of their own ASL, and compare the bytes.
# With files or folders as arguments, the blocks are the DSDTs and SSDTs among them. Without any they are those of
# crates/acpitool/data and those that the example writes for both of its machines. The programs and what they stand on are proved
# first. Not a part of the gate. The status is 1 if the bytes of a block differ, or if there is no block.
set -eu

fail() {
    echo "$1" >&2
    exit 1
}

# The arguments are the caller's, from where the caller is.
for given in "$@"; do
    [ -e "$given" ] || fail "$given: there is no such file or folder"
    shift
    set -- "$@" "$(cd "$(dirname "$given")" && pwd)/$(basename "$given")"
done

cd "$(dirname "$0")/.."
. tools/crates.sh

if [ $# -gt 0 ]; then
    prove test_rewrite
else
    prove acpi_example test_rewrite
    mkdir "$work/acpi" "$work/acpi/arm"
    crates/acpi_example/out/acpi_example "$work/acpi" 1c000000 >"$work/log"
    crates/acpi_example/out/acpi_example arm "$work/acpi/arm" 40000000 >"$work/log"
    set -- crates/acpitool/data "$work/acpi"
fi

find "$@" -type f | sort >"$work/files"
set --
while read -r table; do
    case $(head -c 4 "$table" | tr -d '\0') in
    DSDT | SSDT) set -- "$@" "$table" asl "$table" ;;
    esac
done <"$work/files"
[ $# -gt 0 ] || fail "there is no definition block"
crates/test_rewrite/out/test_rewrite "$@"

#!/bin/sh
# Proves acpi_example, acpiread, acpitool and every crate that they stand on, and builds them. Then the proved programs do what
# demo.sh shows, and what tools/runs.sh adds. It takes more than an hour on four processors, and prints a line for each crate. It
# can be ended at any time (Ctrl-C): the next run goes on with what isn't proved yet. Once all is proved, a run takes seconds. With
# `built`, the programs are those that `rt ci` left, and nothing is proved.
set -eu
cd "$(dirname "$0")"

case ${1-} in
built) ;;
'')
    . tools/crates.sh
    prove acpi_example acpiread acpitool
    ;;
*) echo 'usage: sh prove.sh [built]' >&2 && exit 2 ;;
esac

sh demo.sh built
sh tools/runs.sh
[ "${1-}" = built ] ||
    echo 'These programs are proved: crates/acpi_example/out/acpi_example, and the same for acpiread and acpitool.'

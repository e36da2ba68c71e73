#!/bin/sh
# Compares what acpiread and acpitool print, and what acpitool makes of texts, with what they have to print and make:
# - the runs of `crates/test_cases/data`, which `rt ci` makes, too. Here a case that was changed is run without a proof;
# - each text of crates/acpitool/stdout and its table in crates/acpitool/data, both worked out from the standard;
# - a template of each signature, which has no notes;
# - 10,000 tables of random bytes, each shown and made again, and 10,000 such texts with a random change. A text is made into a
#   table, which is shown and made again as the same table, or it has a fault.
# With `built`, the programs are those that `rt ci` left. Otherwise they are proved first. The first word that is a number is how
# many random tables and texts there are.
set -eu
cd "$(dirname "$0")/.."

. tools/crates.sh

count=10000
for word in "$@"; do
    case $word in
    built) built=1 ;;
    *[!0-9]* | '') echo "usage: cases.sh [built] [COUNT]" >&2 && exit 2 ;;
    *) count=$word ;;
    esac
done
[ -n "${built-}" ] || prove acpitool test_cases
root=$PWD
mkdir "$work/cases"
cp crates/test_cases/data/*.cases "$work/cases"
(cd "$work/cases" && "$root/crates/test_cases/out/test_cases")
python3 -B tools/texts.py crates/acpitool/out/acpitool "$work" "$count"

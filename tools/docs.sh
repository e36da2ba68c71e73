#!/bin/sh
# Compares the documents with what the gate compiles and compares: the programs of README with the crates test_readme_table and
# test_readme_image, its samples with the output that the programs are compared with, the fields in docs/FIELDS.md with the output
# of `acpitool show`, the rules in docs/RULES.md with the source of `acpi_rules`, the declarations for C and Rust with the source
# of `acpi_c`, and the names that documents cite with those of the sources. It says what differs, and then its status is 1. It
# proves nothing and needs no built program.
set -eu
cd "$(dirname "$0")/.."

work=$(mktemp -d)
trap 'rm -rf "$work"' EXIT
status=0

# Says what differs.
differs() {
    echo "docs.sh: $1" >&2
    status=1
}

# The programs of README: each block of Rust that has a `fn main`, in another file.
awk -v work="$work" '
    /^```/ && inside { if (has_main) printf "%s", block >(work "/program" ++count); inside = 0; next }
    /^```rust$/ { inside = 1; block = ""; has_main = 0; next }
    inside { block = block $0 "\n"; if ($0 ~ /^fn main\(/) has_main = 1 }
' README.md

number=0
for crate in test_readme_table test_readme_image; do
    number=$((number + 1))
    main=crates/$crate/src/main.rt
    if [ ! -f "$work/program$number" ]; then
        differs "README.md has no block of Rust for $main"
    elif ! diff "$work/program$number" "$main" >"$work/difference"; then
        cat "$work/difference" >&2
        differs "block $number of Rust in README.md (<) isn't $main (>), which the gate compiles and runs"
    fi
done
[ ! -f "$work/program$((number + 1))" ] || differs "README.md has a program that no crate has"

# What demo.sh and tools/runs.sh compare the output with: the files of tools/demo, in the order of their use, and what stands in
# quotation marks.
{
    for part in written read mcfg image; do cat "tools/demo/$part.txt"; done
    tr "'" '\n' <tools/runs.sh
} >"$work/demo"

# The samples of README: the lines after a `$`, in a block of lines that begin with four spaces. The lines of a sample have to
# be lines of the expected output, one after another; where a sample has `..`, lines are left out.
awk -v work="$work" -v stdout_of_acpitool=crates/acpitool/stdout -v stdout_of_acpiread=crates/acpiread/stdout '
    function load(file,    line, count) {
        if (file in size) return
        while ((getline line <file) > 0) expected[file, ++count] = line
        size[file] = count
    }
    # Whether the lines from..to of the sample are in a file after a line; sets `found` to the last of them.
    function stands(from, to, file, after,    i, at) {
        for (at = after + 1; at + to - from <= size[file]; at++) {
            for (i = from; i <= to && sample[i] == expected[file, at + i - from]; i++) {}
            if (i > to) { found = at + to - from; return 1 }
        }
        return 0
    }
    function is_in(file,    i, from, at) {
        load(file)
        at = 0
        for (i = 1; i <= lines + 1; i++)
            if (i > lines || sample[i] == "..") {
                if (from && !stands(from, i - 1, file, at)) return 0
                if (from) at = found
                from = 0
            } else if (!from) from = i
        return 1
    }
    function compare() {
        if (lines && !is_in(stdout_of_acpitool) && !is_in(stdout_of_acpiread) && !is_in(work "/demo")) {
            print "docs.sh: README.md:" place ": the lines after `" command "` are no output that the gate compares"
            wrong = 1
        }
        if (lines) samples++
        lines = 0
        command = ""
    }
    /^    \$ / { compare(); command = substr($0, 7); place = NR; next }
    /^    / && command { sample[++lines] = substr($0, 5); next }
    { compare() }
    END {
        compare()
        if (samples < 3) { print "docs.sh: README.md has fewer than 3 samples of output"; wrong = 1 }
        exit wrong
    }
' README.md >&2 || status=1

python3 -B tools/fields.py || status=1
python3 -B tools/rules.py || status=1
python3 -B tools/c_header.py || status=1
python3 -B tools/cited.py || status=1
python3 -B tools/manual.py page >"$work/manual" || status=1

exit "$status"

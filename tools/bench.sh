#!/bin/sh
# Counts the instructions that each workload of test_bench takes, and those of acpitool on inputs of many parts, and compares them
# with those that bench.txt has. It ends with status 1 where
# - one takes more than a tenth more;
# - the text of a term at depth 250 takes twice as many as at depth 1;
# - a part of a large input takes half as many again as a part of a small one.
# bench.txt has a line for each workload: its name, its instructions, and what they are for. Figures that have fallen are written
# into it.
#
# A workload is run at a size and at size 0, and the second count is taken from the first: so the start of the program isn't
# counted. Instructions don't depend on what else a machine does. The programs and what they stand on are proved first: the first
# run takes minutes, and a later one a minute. It needs valgrind and Python.
set -eu
cd "$(dirname "$0")/.."

. tools/crates.sh

command -v valgrind >/dev/null || { echo 'bench.sh: valgrind is missing' >&2; exit 1; }

prove test_bench acpitool
bench=crates/test_bench/out/test_bench
tool=crates/acpitool/out/acpitool
figures=$work/figures
status=0

# The instructions of a run of a program.
instructions() {
    valgrind --tool=callgrind --callgrind-out-file=/dev/null "$@" 2>&1 | sed -n 's/.*Collected : //p'
}

# The instructions that a workload of a size takes more than an empty one.
more() {
    none=$(instructions "$bench" "$1=0")
    all=$(instructions "$bench" "$1=$2")
    echo $((all - none))
}

# How much more a workload of a size makes than an empty one.
made() {
    none=$("$bench" "$1=0" | cut -d ' ' -f 2)
    all=$("$bench" "$1=$2" | cut -d ' ' -f 2)
    echo $((all - none))
}

# Prints the figure of a workload, and compares it: its name, its instructions, how many things they were for, and what one is.
figure() {
    each=$(($2 / $3))
    before=$(sed -n "s/^$1 \([0-9]*\) .*/\1/p" tools/bench.txt)
    before=${before:-$each}
    echo "$1: $each instructions for $4, before $before"
    echo "$1 $((each < before ? each : before)) $4" >>"$figures"
    if [ $((10 * each)) -gt $((11 * before)) ]; then
        echo "too slow: $1 took $before instructions for $4" >&2
        status=1
    fi
}

# A workload of tables, its size, and what each structure is.
built() {
    figure "$1" "$(more "$1" "$2")" "$2" "$3"
}

# A workload that fills a matrix, and its size. The figure is for a byte of the matrix.
filled() {
    figure "$1" "$(more "$1" "$2")" "$(made "$1" "$2")" "a byte of its matrix"
}

# A workload over what another makes, which isn't counted: both names, the size, how many things there are, and what one is.
beyond() {
    figure "$1" $(($(more "$1" "$3") - $(more "$2" "$3"))) "$4" "$5"
}

# The instructions of a command of acpitool on an input of many.py with this many parts. The last words come after the input.
on() {
    command=$1 kind=$2 count=$3
    shift 3
    python3 -B tools/many.py "$kind" "$count" >"$work/$kind"
    rm -f "$work/table"
    instructions "$tool" "$command" "$work/$kind" "$@"
}

# A command of acpitool, the kind of its input, how many parts this has, and what one is. A part of it is compared with one of an
# input with a tenth of the parts.
many() {
    command=$1 kind=$2 count=$3 what=$4
    shift 4
    few=$(on "$command" "$kind" $((count / 100)) "$@")
    some=$(on "$command" "$kind" $((count / 10)) "$@")
    all=$(on "$command" "$kind" "$count" "$@")
    figure "$kind" $((all - some)) $((count - count / 10)) "$what"
    if [ $(((all - some) / 10)) -gt $(((some - few) * 3 / 2)) ]; then
        echo "too slow: $kind isn't linear, with $((some - few)) instructions for $((count / 10 - count / 100)) parts" >&2
        status=1
    fi
}

built xsdt 4096 'an entry of 8 bytes'
built mcfg 4096 'an entry of 16 bytes'
built madt 4096 'a structure of 36 bytes'
built srat 4096 'a structure of 40 bytes'
built cedt 2048 'a window of 44 bytes'
built hest 2048 'a source of 64 bytes'
built rqsc 1024 'a controller of 48 bytes'
built pptt 2048 'a processor and a cache of 52 bytes'
built rimt 2048 'an IOMMU of 48 bytes'
built rhct 1024 'a hart of 20 bytes'
built viot 1024 'a range of 24 bytes'
filled slit 512
filled hmat 256
built aml 4096 'a device of 63 bytes'
built dsdt 4096 'a device of 63 bytes'

bytes=$(made aml 16384)
beyond terms aml 16384 "$bytes" 'a byte that is read, and whose terms are dropped'
beyond report terms 16384 "$bytes" 'a byte whose terms are reported'
beyond table madt 100000 100000 'a structure that is reported'
beyond show madt 28000 1008000 'a byte of a table of structures of 36 bytes that is shown by its form'
beyond make show 2000 "$(made show 2000)" 'a byte of text that is made into a table'
built flat 20000 'a term at depth 1'
built deep 20000 'a term at depth 250'

many make marks 10000 'a structure whose length is made of question marks' "$work/table"
many make references 10000 'a node that refers to another, which is made' "$work/table"
many show methods 4000 'a method that is shown as ASL, and a call of it'
many disassemble devices 4000 'a device of 47 bytes that is shown as ASL'
many make asl 4000 'a device of 47 bytes that is made of ASL' "$work/table"
many disassemble code 4000 'a device of 86 bytes with two methods that is shown as ASL'
many image image 20000 'a table of an image'

term() {
    sed -n "s/^$1 \([0-9]*\) .*/\1/p" "$figures"
}
if [ "$(term deep)" -ge $((2 * $(term flat))) ]; then
    echo 'too slow: the text of a term depends on its depth' >&2
    status=1
fi

[ "$status" != 0 ] || cp "$figures" tools/bench.txt
exit "$status"

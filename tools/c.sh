#!/bin/sh
# Builds the library for callers in C and Rust, and programs that call it: `check` in C and in Rust, on the tables and the image
# of acpi_example, `monitor`, which builds these tables, and `boundary`, which goes to the limits of each function. In C all are
# built a second time with the address and undefined behaviour sanitizers, and `boundary` is run once for each growth, with that
# one refused by memory.c. Where Cargo is there, the tests of bindings/rust run, too. The library and the example are proved
# before they are built, with everything that they stand on. With `built`, they stand on the crates that `rt ci` left. It leaves
# no static library, so acpi_c itself is proved once more. The library, with its functions in C and its allocator, is then
# crates/acpi_c/out/c/libhyssop.a.
set -eu
cd "$(dirname "$0")/.."

. tools/crates.sh

kit=$(dirname "$(rt doc)")

# Builds the library over those that `rt ci` left. `rt lib` takes none of these, and would prove each of them again.
build_over_ci() {
    root=$PWD
    set --
    for below in $(crates_below acpi_c | sed 's/:.*//'); do
        [ "$below" = acpi_c ] || set -- "$@" -L "dependency=$root/crates/$below/out/rlib"
    done
    for used in $(sed -n 's/^acpi_c staticlib://p' crates.txt); do
        set -- "$@" --extern "$used=$root/crates/$used/out/rlib/$used.rlib"
    done
    mkdir -p crates/acpi_c/out
    (
        cd crates/acpi_c
        "$kit/bin/rattle" build --crate-name acpi_c src/lib.rt --crate-type staticlib --links acpi_c= --jobs 1 \
            --extern "std=$kit/rlibs/std.rlib" -L "dependency=$kit/rlibs" "$@" --toolchain "$kit/toolchain" --backend llvm \
            --antt-project "$kit/rattle/logic/antt-project.json" --logic-built "$kit/logic_built" -o out/libacpi_c.a
    ) >"$work/acpi_c.log" 2>&1
}

if [ "${1-}" != built ]; then
    prove acpi_c acpi_example
elif ! build_over_ci; then
    cat "$work/acpi_c.log" >&2
    echo "acpi_c isn't built over what rt ci left: all that it stands on is proved once more" >&2
    prove acpi_c
fi

# The words of each number, as the header's comments have them.
source=$PWD/crates/acpi_c
sed -n 's|^ *HYSSOP_[A-Z_]* = \([0-9]*\),* /\* \(.*\) \*/$|{\1, "\2"},|p' "$source/include/hyssop.h" >"$work/names.h"

# One archive with the functions of the header, and with what the library calls for memory, which the kit has in C: malloc,
# realloc and free.
mkdir -p "$source/out/c" "$work/objects"
(cd "$work/objects" && ar x "$kit/c/liblibc_c.a")
cc -std=c99 -pedantic -Wall -Wextra -Werror -O2 -fPIC -I "$source/include" -I "$work" -c -o "$work/objects/hyssop.o" \
    "$source/c/hyssop.c"
cp "$source/out/libacpi_c.a" "$work/libhyssop.a"
ar rs "$work/libhyssop.a" "$work/objects"/*.o
mv "$work/libhyssop.a" "$source/out/c/libhyssop.a"

# Compiles a program of C: its source, its name, and further words for the compiler.
compile() {
    from=$1
    to=$2
    shift 2
    cc -std=c11 -Wall -Wextra -Werror -O1 -g -pthread -I "$source/include" -I "$source/c" "$@" -o "$to" "$source/$from" \
        "$source/out/c/libhyssop.a"
}

compile examples/check.c "$work/check"
compile examples/check.c "$work/check_sanitized" -fsanitize=address,undefined -fno-sanitize-recover=all
compile examples/monitor.c "$work/monitor"
compile examples/monitor.c "$work/monitor_sanitized" -fsanitize=address,undefined -fno-sanitize-recover=all
compile tests/boundary.c "$work/boundary"
compile tests/boundary.c "$work/boundary_sanitized" -fsanitize=address,undefined -fno-sanitize-recover=all

# A shared library, in which only the functions of the header have a name.
version=$(sed -n 's/^#define HYSSOP_VERSION //p' "$source/include/hyssop.h")
sed 's|/\*.*\*/||' "$source/include/hyssop.h" | grep -o '\bhyssop_[a-z0-9_]*(' | tr -d '(' | sort -u >"$work/functions"
{ echo '{ global:' && sed 's/$/;/' "$work/functions" && echo 'local: *; };'; } >"$work/hyssop.map"
shared=libhyssop.so.$version
cc -shared -Wl,-soname,"$shared" -Wl,--version-script="$work/hyssop.map" -Wl,-z,defs -o "$source/out/c/$shared" \
    -Wl,--whole-archive "$source/out/c/libhyssop.a" -Wl,--no-whole-archive
ln -sf "$shared" "$source/out/c/libhyssop.so"
nm -D --defined-only "$source/out/c/$shared" | sed 's/.* //' | sort >"$work/found"
if ! diff "$work/functions" "$work/found"; then
    echo 'c.sh: the shared library has the names after >, and not those after <' >&2
    exit 1
fi
echo "$shared: $(wc -l <"$work/found") functions"

# The numbers that programs compile in are those that they were.
python3 -B tools/c_numbers.py missing
python3 -B tools/c_numbers.py c >"$work/numbers.c"
cc -std=c11 -pedantic -Wall -Wextra -Werror -I "$source/include" -fsyntax-only "$work/numbers.c"
if command -v rustc >/dev/null; then
    python3 -B tools/c_numbers.py rust | sed "s|\.\./hyssop\.rs|$source/hyssop.rs|" >"$work/numbers.rs"
    rustc --edition 2024 --crate-type lib --emit metadata -A dead_code -o "$work/numbers.rmeta" "$work/numbers.rs"
fi

# The header compiles without a warning in each edition of C and C++.
for edition in c89 c99 c11 c17 c2x; do
    cc -std=$edition -pedantic -Wall -Wextra -Werror -Wno-long-long -fsyntax-only -x c "$source/include/hyssop.h"
done
if command -v c++ >/dev/null; then
    for edition in c++11 c++14 c++17 c++20 c++2b; do
        c++ -std=$edition -pedantic -Wall -Wextra -Werror -fsyntax-only -x c++ "$source/include/hyssop.h"
    done
    printf '#include "hyssop.h"\nint main() { return hyssop_version() == HYSSOP_VERSION ? 0 : 1; }\n' >"$work/plus.cc"
    c++ -Wall -Wextra -Werror -I "$source/include" -o "$work/plus" "$work/plus.cc" "$source/out/c/libhyssop.a"
    "$work/plus"
fi

# The tables and the image of the example, and a table without its last byte.
mkdir "$work/acpi"
crates/acpi_example/out/acpi_example "$work/acpi" 1c000000 >"$work/told_example"
cp -r "$work/acpi" "$work/acpi_whole"
cp "$work/acpi/package" "$work/whole_package"
read -r _ base _ rsdp <"$work/told_example"
mv "$work/acpi/image" "$work/image"
head -c 40 "$work/acpi/package" >"$work/acpi/cut"

# Has a program check these, and compares what it prints.
checks() {
    status=0
    (cd "$work" && "$1" acpi image "${base#0x}" "${rsdp#0x}" >told) || status=$?
    sort "$work/told" >"$work/out"
    {
        for table in "$work"/acpi/*; do
            case $table in
            */cut) echo 'cut: the length of a table isn'\''t the number of its bytes, offset 0x4' ;;
            *) echo "$(basename "$table"): fine" ;;
            esac
        done
        echo 'image: fine'
        echo 'a MADT of a text: fine'
        echo 'its length is 52, its checksum 0xad'
    } | sort >"$work/whole"
    if [ "$status" != 1 ] || ! diff "$work/whole" "$work/out"; then
        echo "c.sh: $1 ends with status $status, and prints the lines after > for those after <" >&2
        exit 1
    fi
    echo "$(basename "$1"): $(wc -l <"$work/out") lines, as they have to be"
}

checks "$work/check"
checks "$work/check_sanitized"

# The library as it is installed: linked by what pkg-config says, and the shared library by a CMake project.
sh tools/install "$work/installed" library
if command -v pkg-config >/dev/null; then
    # The words of pkg-config are several.
    # shellcheck disable=SC2046
    cc -std=c11 -Wall -Wextra -Werror -o "$work/check_shared" "$source/examples/check.c" \
        $(PKG_CONFIG_PATH=$work/installed/lib/pkgconfig pkg-config --cflags --libs hyssop) -Wl,-rpath,"$work/installed/lib"
    checks "$work/check_shared"
fi
if command -v cmake >/dev/null; then
    mkdir "$work/project"
    cp "$source/examples/check.c" "$work/project"
    cat >"$work/project/CMakeLists.txt" <<'END'
cmake_minimum_required(VERSION 3.13)
project(check C)
find_package(hyssop REQUIRED)
add_executable(check_by_cmake check.c)
target_link_libraries(check_by_cmake hyssop::hyssop)
add_executable(check_by_cmake_static check.c)
target_link_libraries(check_by_cmake_static hyssop::static)
END
    cmake -S "$work/project" -B "$work/project/out" -DCMAKE_PREFIX_PATH="$work/installed" >"$work/told"
    cmake --build "$work/project/out" >"$work/told"
    checks "$work/project/out/check_by_cmake"
    checks "$work/project/out/check_by_cmake_static"
fi
if command -v cargo >/dev/null; then
    (cd "$source/examples/rust" && HYSSOP=$source/out/c CARGO_TARGET_DIR=$work/cargo cargo build --quiet --offline)
    checks "$work/cargo/debug/acpi_check"
    (cd bindings/rust && HYSSOP=$source/out/c CARGO_TARGET_DIR=$work/cargo cargo test --quiet --offline) >"$work/told" || {
        cat "$work/told" >&2
        exit 1
    }
    (cd bindings/rust && HYSSOP=$source/out/c CARGO_TARGET_DIR=$work/cargo cargo run --quiet --offline --example namespace -- \
        "$work/namespace")
    cmp "$work/namespace" "$work/acpi/namespace"
    (cd bindings/rust && HYSSOP=$source/out/c CARGO_TARGET_DIR=$work/cargo cargo build --quiet --offline --example monitor)
    echo 'hyssop-acpi: its tests pass, and it writes the namespace of acpi_example'
fi

# What monitors build: the tables and the images of acpi_example, byte for byte.
mkdir "$work/arm"
crates/acpi_example/out/acpi_example arm "$work/arm" 40000000 >"$work/arm_told"
read -r _ base _ rsdp <"$work/told_example"
builds() {
    rm -rf "$work/built" && mkdir "$work/built" "$work/built/q35" "$work/built/arm"
    "$1" "$work/built/q35" "${base#0x}" >"$work/told"
    cmp "$work/told" "$work/told_example"
    "$1" arm "$work/built/arm" 40000000 >"$work/told"
    cmp "$work/told" "$work/arm_told"
    cp "$work/whole_package" "$work/built/q35/package"
    diff -r "$work/acpi_whole" "$work/built/q35"
    diff -r "$work/arm" "$work/built/arm"
    echo "$(basename "$1"): $(ls "$work/built"/* | grep -c '^[a-z]') files, those of acpi_example"
}
builds "$work/monitor"
builds "$work/monitor_sanitized"
[ ! -x "$work/cargo/debug/examples/monitor" ] || builds "$work/cargo/debug/examples/monitor"
if command -v valgrind >/dev/null; then
    mkdir "$work/read"
    valgrind --quiet --error-exitcode=3 --leak-check=full "$work/monitor" "$work/read" "${base#0x}" >"$work/told"
    cmp "$work/read/image" "$work/acpi_whole/image"
    echo 'monitor: valgrind has nothing to say'
fi

# To the limits of each function.
rm "$work/acpi/cut"
"$work/boundary" "$work/image" "${base#0x}" "${rsdp#0x}" "$work/acpi"/*
"$work/boundary_sanitized" "$work/image" "${base#0x}" "${rsdp#0x}" "$work/acpi"/*

# The same results with each growth refused once. A call that returns that memory ran out is made again.
cc -shared -fPIC -O1 -o "$work/memory.so" tools/memory.c

# A monitor ends with the words of the fault, or builds the same image: a growth of the C library for a file isn't needed.
monitor_refusing() {
    status=0
    rm -f "$work/growths" "$work/less/image"
    env REFUSED="$1" GROWTHS="$work/growths" LD_PRELOAD="$work/memory.so" "$work/monitor" "$work/less" "${base#0x}" \
        >"$work/out" 2>"$work/err" || status=$?
}
mkdir "$work/less"
monitor_refusing 0
read -r growths _ <"$work/growths"
number=0
ended=0
while [ "$number" -lt "$growths" ]; do
    number=$((number + 1))
    monitor_refusing "$number"
    if [ "$status" = 0 ] && cmp -s "$work/less/image" "$work/acpi_whole/image"; then
        continue
    fi
    if [ "$status" != 1 ] || ! grep -q -e ': out of memory, at 0x0$' -e ': Cannot allocate memory$' "$work/err"; then
        echo "monitor, growth $number refused: status $status" >&2
        cat "$work/err" >&2
        exit 1
    fi
    ended=$((ended + 1))
done
[ "$ended" -gt 5 ] || { echo "c.sh: a monitor ends after $ended refused growths" >&2; exit 1; }
echo "monitor: $growths growths refused, one a run"
refusing() {
    status=0
    rm -f "$work/growths"
    env REFUSED="$1" GROWTHS="$work/growths" LD_PRELOAD="$work/memory.so" "$work/boundary" >"$work/out" 2>"$work/err" || status=$?
}
refusing 0
cp "$work/out" "$work/whole"
read -r growths _ <"$work/growths"
number=0
while [ "$number" -lt "$growths" ]; do
    number=$((number + 1))
    refusing "$number"
    if [ "$status" != 0 ] || ! cmp -s "$work/out" "$work/whole"; then
        echo "growth $number refused: status $status" >&2
        cat "$work/out" "$work/err" >&2
        exit 1
    fi
done
[ "$growths" -gt 20 ] || { echo "c.sh: only $growths growths" >&2; exit 1; }
echo "boundary: $growths growths refused, one a run"

#!/usr/bin/env python3
"""Holds the numbers that callers in C and Rust compile in against those that they had before.

tools/c_numbers.py c        prints a program in C that compiles if hyssop.h has the numbers of crates/acpi_c/tests/numbers.txt
tools/c_numbers.py rust     prints one in Rust, for hyssop.rs: its constants, and the sizes of its structs
tools/c_numbers.py missing  prints each number of hyssop.h that isn't in the list, and then its status is 1

A line of the list is a constant and its number, `sizeof` and a struct and its size in bytes, or `offsetof`, a struct, a field and
its offset. A number is never given to another name. So a line is only added, or changed together with the version, at the top of
hyssop.h."""
import re
import sys

LIST = "crates/acpi_c/tests/numbers.txt"
HEADER = "crates/acpi_c/include/hyssop.h"


def read(path):
    with open(path, encoding="utf-8") as file:
        return file.read()


lines = [it.split() for it in read(LIST).splitlines() if it and not it.startswith("#")]


def program_in_c():
    print('#include "hyssop.h"')
    for line in lines:
        if line[0] == "sizeof":
            print(f'_Static_assert(sizeof(struct {line[1]}) == {line[2]}, "{line[1]}");')
        elif line[0] == "offsetof":
            print(f'_Static_assert(offsetof(struct {line[1]}, {line[2]}) == {line[3]}, "{line[1]}.{line[2]}");')
        else:
            print(f'_Static_assert({line[0]} == {line[1]}, "{line[0]}");')


def program_in_rust():
    print('#[path = "../hyssop.rs"]\nmod hyssop;\n')
    for line in lines:
        if line[0] == "sizeof":
            name = "".join(it.capitalize() for it in line[1].removeprefix("hyssop_").split("_"))
            print(f"const _: () = assert!(size_of::<hyssop::{name}>() == {line[2]});")
        elif match := re.fullmatch(r"HYSSOP_(FAULT|MEMORY|SPACE|ACCESS|UPDATE|OP)_(\w+)", line[0]):
            print(f"const _: () = assert!(hyssop::{match[1].lower()}::{match[2]} == {line[1]});")
        elif line[0] in ("HYSSOP_FINE", "HYSSOP_DEPTH"):
            print(f"const _: () = assert!(hyssop::{line[0].removeprefix('HYSSOP_')} == {line[1]});")


def missing():
    plain = re.sub(r"/\*.*?\*/", "", read(HEADER), flags=re.S)
    names = re.findall(r"\b(HYSSOP_\w+) = ", plain)
    known = {line[0] for line in lines}
    gone = [it for it in names if it not in known]
    for it in re.findall(r"^struct (\w+) \{", plain, re.M):
        if ["sizeof", it] not in [line[:2] for line in lines]:
            gone.append(f"sizeof {it}")
    for it in gone:
        print(f"c_numbers.py: {LIST} doesn't have {it}", file=sys.stderr)
    return 1 if gone else 0


if __name__ == "__main__":
    wanted = sys.argv[1:]
    if wanted == ["c"]:
        program_in_c()
    elif wanted == ["rust"]:
        program_in_rust()
    elif wanted == ["missing"]:
        sys.exit(missing())
    else:
        sys.exit("usage: tools/c_numbers.py c|rust|missing")

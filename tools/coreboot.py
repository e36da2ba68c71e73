#!/usr/bin/env python3
"""Compiles the DSDT of each board of a source of coreboot, for asl.sh: coreboot.py SOURCE FOLDER. A board gets its default
configuration, and the preprocessor and ACPICA's iasl make its file dsdt.asl into FOLDER/BOARD.aml. A line says why a board has
none, and the last one how many have one. SOURCE isn't changed, but for the program that configures boards, which is built in it.
It takes gcc and iasl. Tried with release 4.15, Debian's source package coreboot."""

import os
import pathlib
import re
import subprocess
import sys


class Refused(Exception):
    """Why a board has no block."""


def run(words, folder, settings=()):
    """What a program prints. It has to end with status 0."""
    ended = subprocess.run(words, cwd=folder, env={**os.environ, **dict(settings)}, capture_output=True, text=True)
    if ended.returncode:
        raise Refused(f"{pathlib.Path(words[0]).name}: {(ended.stderr + ended.stdout).strip().splitlines()[0]}")
    return ended.stdout


def built_conf(source):
    """The program that configures boards."""
    folder = source / "util/kconfig"
    for shipped in folder.glob("*_shipped"):
        shipped.with_name(shipped.name.removesuffix("_shipped")).write_bytes(shipped.read_bytes())
    names = ["conf", "confdata", "expr", "menu", "parser.tab", "lexer.lex", "symbol", "util", "preprocess"]
    run(["gcc", "-w", "-I.", "-o", "conf", *(f"{name}.c" for name in names)], folder)
    return folder / "conf"


def options(file, kind):
    """The options of boards, vendors or chips that a file declares."""
    return re.findall(rf"^config ({kind}_\w+)", file.read_text(), re.M)


def configure(conf, source, choices, work):
    """Writes the header with the configuration of a board, and returns its text."""
    (work / "config").write_text("".join(f"CONFIG_{choice}=y\n" for choice in choices))
    (work / "split").mkdir(exist_ok=True)
    settings = {
        "KCONFIG_CONFIG": work / "config",
        "KCONFIG_AUTOHEADER": work / "config.h",
        "KCONFIG_AUTOCONFIG": work / "auto.conf",
        "KCONFIG_TRISTATE": work / "tristate.conf",
        "KCONFIG_DEPENDENCIES": work / "depends.conf",
        "KCONFIG_SPLITCONFIG": work / "split",
        "obj": work,
        "objk": conf.parent,
        "src": source / "src",
        "srctree": source,
        "top": source,
    }
    for step in ("--olddefconfig", "--syncconfig"):
        run([conf, step, source / "src/Kconfig"], source, {name: str(value) for name, value in settings.items()})
    return (work / "config.h").read_text()


def included(source, board, header):
    """The folders in which the preprocessor looks: those of the board, of its chip, and of all boards."""
    names = {"/".join(name.lower().split("_")[:2]) for name in re.findall(r"#define CONFIG_SOC_(\w+) 1", header)}
    chips = [source / "src/soc" / name for name in sorted(names)]
    folders = [board]
    found = re.search(r'#define CONFIG_VARIANT_DIR "(.+)"', header)
    if found:
        variants = board / "variants"
        folders += [variants / found[1] / "include", variants / "baseboard/include", variants / found[1]]
        folders += variants.glob("baseboard/*/include")
    folders += [chip / name for chip in chips for name in ("include", "acpi")]
    folders += source.glob("src/soc/*/common/*/include")
    folders += [source / "src", *(source / "src" / name for name in ("include", "commonlib/include", "commonlib/bsd/include"))]
    folders += [source / "src/arch/x86/include", source / "src/vendorcode/google/chromeos", *chips]
    return [f"-I{folder}" for folder in folders]


def compile_board(conf, source, board, choices, work):
    """Writes the block of a board with these options to work/dsdt.aml."""
    work.mkdir(parents=True, exist_ok=True)
    header = configure(conf, source, choices, work)
    if f'"{board.relative_to(source / "src/mainboard")}"' not in header:
        raise Refused("the configuration is that of another board")
    first = [word for name in ("kconfig.h", "rules.h") for word in ("-include", str(source / "src/include" / name))]
    text = ["gcc", "-x", "assembler-with-cpp", "-E", "-P", "-D__ACPI__", *first, f"-I{work}", *included(source, board, header)]
    run([*text, str(board / "dsdt.asl"), "-o", str(work / "dsdt.asl")], source)
    run(["iasl", "-p", str(work / "dsdt"), str(work / "dsdt.asl")], source)


def main():
    source, folder = (pathlib.Path(word).resolve() for word in sys.argv[1:3])
    conf = built_conf(source)
    count = 0
    for file in sorted(source.glob("src/mainboard/*/*/Kconfig.name")):
        board = file.parent
        if not (board / "dsdt.asl").exists():
            continue
        vendor = options(board.parent / "Kconfig.name", "VENDOR")
        for name in options(file, "BOARD"):
            work = folder / "work" / name
            try:
                compile_board(conf, source, board, [*vendor, name], work)
            except Refused as why:
                print(f"{name}: {why}", file=sys.stderr)
                continue
            (folder / f"{name}.aml").write_bytes((work / "dsdt.aml").read_bytes())
            count += 1
    print(f"{count} boards")


main()

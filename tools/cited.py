"""Looks for the names that the documents cite: each word of code between backquotes in README.md, docs/*.md and tools/README.md
has to be in a file of the crates, of tools, of .ci or of cases, or in the name of a file. It prints each that isn't, and then its
status is 1. Words in capitals stand for others, and parts of names begin or end with an underscore: both are passed over. So is
the first column of a table of docs/GUIDE.md, which has words of ASL."""
import glob
import os
import re
import sys

DOCUMENTS = ["README.md", *sorted(glob.glob("docs/*.md")), "tools/README.md"]
# Words of examples, of other programs, and of the Rust crate.
OTHERS = set("Alias microvm no_std fwts vmm ListTable PcieAer acpi_rsdp_addr dac8208d650f15bf".split())
# The table of the recipe.
OTHERS |= set("Lpit LpitKind lpit_is_walked IsLpit lpit_form lpit_names the_lpit".split())


def read(path):
    with open(path, encoding="utf-8", errors="replace") as file:
        return file.read()


def sources():
    """The files of the repository."""
    for folder in ("crates", "tools", ".ci", "cases", "docs"):
        for path, folders, files in os.walk(folder):
            folders[:] = [it for it in folders if it not in ("out", "target")]
            for file in files:
                yield os.path.join(path, file)


def main():
    known = set(re.findall(r"\w+", read("crates.txt")))
    for path in sources():
        known.update(re.findall(r"\w+", path))
        if not path.endswith(".md"):
            known.update(re.findall(r"\w+", read(path)))
    lost = 0
    for document in DOCUMENTS:
        text = re.sub(r"(?ms)^```.*?^```", lambda code: "\n" * code[0].count("\n"), read(document))
        for number, line in enumerate(text.splitlines(), 1):
            if document == "docs/GUIDE.md":
                line = re.sub(r"^\|[^|]*", "", line)
            for span in re.findall(r"`([^`]+)`", line):
                for word in re.findall(r"(?<!\w)[A-Za-z]\w+[A-Za-z0-9]\b", span):
                    if word not in known and word not in OTHERS and not word.isupper():
                        print(f"cited.py: {document}:{number}: `{span}`: {word} is nowhere", file=sys.stderr)
                        lost += 1
    sys.exit(1 if lost else 0)


main()

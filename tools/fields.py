"""Makes the list in docs/FIELDS.md of the fields which `acpitool show` shows by name.

    python3 -B tools/fields.py           compares the list with what it has to be; the status is 1 if they differ
    python3 -B tools/fields.py renew     writes the list

The fields are those of crates/acpitool/stdout, which the gate compares with what the program prints. Each name of a table, of a
structure and of a field in the sources has to be there, so that no field is left out. The sources also say which parts are as
many as there are, which have as many bytes as another field says, and which bits the flags are.
"""
import glob
import re
import sys
import textwrap

from shown import tables_of

SHOWN = "crates/acpitool/stdout"
DOCUMENT = "docs/FIELDS.md"
BEGIN, END = "<!-- fields: tools/fields.py makes these lines -->\n", "<!-- end of fields -->\n"
HEADER = ["Signature", "Length", "Revision", "Checksum", "OEM ID", "OEM Table ID", "OEM Revision", "Creator ID"]
HEADER += ["Creator Revision"]
REGISTER = ["Address Space ID", "Register Bit Width", "Register Bit Offset", "Access Size", "Address"]
# Names of the sources that no line has. Lists begin right after the fields before them, so no bytes are before them. A device
# handle is shown as one of its two kinds, the header of a SLIT by the header's fields, and a root complex of IORT has revision 4.
IN_NO_TABLE = ("hest/status.rt", "hest/error_data.rt")
# The forms of tables that are only read. FIELDS has a section on them.
FURTHER = "acpi_forms/src/further/"
UNSEEN = ["Without PASID", "Device Handle", "Header"]
# Structures that are only read: they are in cases/further.cases.
UNSEEN += ["Generic Port Affinity Structure", "ID Structure"]
# What no table of crates/acpitool/data has, before its nodes and after the string of a node: it is in cases/shown.cases.
UNSEEN += ["Optional Padding", "Padding"]


def read(path):
    with open(path, encoding="utf-8") as file:
        return file.read()


def sources():
    """Returns the text of the forms, and that of the rows that they name. Error status blocks and their data are in no table."""
    rows = ["base", "fixed", "lists", "hest", "nodes", "matrices", "arm"]
    files = lambda crate: sorted(glob.glob(f"crates/{crate}/src/**/*.rt", recursive=True))
    listed = lambda it: not it.endswith(IN_NO_TABLE) and FURTHER not in it
    all_of = lambda crate: "".join(read(it) for it in files(crate) if listed(it))
    return all_of("acpi_forms"), "".join(all_of(f"acpi_{it}") for it in rows)


FORMS, ROWS = sources()
REPEATED = set(re.findall(r'Part::(?:Numbers|Entries|Matrix)\(\s*"([^"]+)"', FORMS))
REPEATED |= set(re.findall(r'InnerForm \{\s*number: \d+,\s*name: "([^"]+)"', FORMS))
SIZED = set(re.findall(r'Part::(?:Bytes|Until)\(\s*"([^"]+)"', FORMS))
# What the bits of each field with flags are, by the field's name: masks with names, numbers with words under a mask, and numbers
# of their own. Several fields of a name can have different bits.
LISTS = dict(re.findall(r"const (\w+): \[(?:Word|Bits); \d+\] = \[(.*?)\];", ROWS, re.DOTALL))
OF_FLAGS = re.findall(r'Row::Flags\(\s*"([^"]+)",\s*\d+,\s*(?:&(\w+)|&\[((?:[^\[\]]|\[[^\]]*\])*)\])', ROWS)
BIT = re.compile(r'Bits::(Flag|OneOf|Number)\(\s*(\w+),\s*(?:(\w+),\s*)?(?:"([^"]+)"|&\[(.*?)\])', re.DOTALL)
WORD = re.compile(r'Word\(\s*(\w+),\s*"([^"]+)"')


def number(text):
    return int(text.replace("_", ""), 0)


def bits_of(text):
    """Returns the bits of a list of the sources: (kind, mask, lowest bit, name or words)."""
    words = lambda list: [(number(value), name) for value, name in WORD.findall(list)]
    return [
        (kind, number(mask), number(lowest or "1"), name or words(list)) for kind, mask, lowest, name, list in BIT.findall(text)
    ]


OTHERS = set(re.findall(r'Row::(?!Flags)\w+\(\s*"([^"]+)"', FORMS + ROWS))
BITS = {}
for field, list_name, own in OF_FLAGS:
    BITS.setdefault(field, []).append(bits_of(own or LISTS[list_name]))


def stop(why):
    sys.exit(f"fields.py: {why}")


def joined(text):
    """Returns words that stay in one line: `item` makes their spaces again."""
    return text.replace(" ", "\0")


class Field:
    """A field or a group of fields: its offset from the beginning of what it is in, its name, and its width in bytes."""

    def __init__(self, line, base):
        self.at, self.name, self.below = line.at - base, line.name, []
        self.width, self.flags = None, []
        self.is_repeated, self.is_sized = line.name in REPEATED, line.name in SIZED
        if line.numbers is None:
            self.below = fields_of(line.below, line.at if self.is_repeated else base)
        else:
            self.width = line.numbers[0][1] if self.is_repeated else line.width
            self.flags = flags_of(line)

    def is_like(self, other):
        return self.name == other.name and (self.at == other.at or self.is_repeated or self.is_sized)

    def text(self, at):
        name = joined(f"{at}{self.name}")
        more = joined(" ..") if self.is_repeated else ""
        if [it.name for it in self.below] == REGISTER:
            return f"{name}:GAS{more}"
        if self.below:
            return f"{name} ({text_of(self.below)}){more}"
        width = "n" if self.is_sized else self.width
        flags = ", ".join(joined(f"{mask:#x} ") + name for mask, name in self.flags)
        return f"{name}:{width}{f' ({flags})' if flags else ''}{more}"


def said(bits, value):
    """Returns the comment of a value of bits."""
    parts = []
    for kind, mask, lowest, names in bits:
        here = value & mask
        if kind == "Number":
            parts.append(f"{names} {here // lowest}")
        elif kind == "Flag" and here:
            parts.append(names)
        elif kind == "OneOf" and here in dict(names):
            parts.append(dict(names)[here])
        else:
            continue
        value -= here
    rest = value.to_bytes(8, "big").lstrip(b"\0").hex()
    return " | ".join(parts + ([f"0x{rest}"] if rest else []))


def flags_of(line):
    """Returns the masks of a field's bits with what they are. In the data all flags with names are set, so the field's row is the
    one in the sources that has all these flags and says what the line's comment says."""
    value = line.numbers[0][0] if line.numbers else 0
    found = [it for it in BITS.get(line.name, []) if said(it, value) == line.comment]
    if line.name in BITS and not found and line.name not in OTHERS:
        stop(f"{line.at} {line.name}: its comment isn't what a row of the sources says")
    whole = [it for it in found if all(value & mask for kind, mask, _, _ in it if kind == "Flag")]
    if len({str(it) for it in whole}) > 1:
        stop(f"{line.at} {line.name}: several rows of the sources say this of its value")
    return [(mask, what(kind, names)) for kind, mask, _, names in whole[0]] if whole else []


def what(kind, names):
    """Returns what bits are: a name, or the numbers and words of what they stand for."""
    if kind != "OneOf":
        return joined(names)
    return "(" + "; ".join(joined(f"{value:#x} {name}") for value, name in names) + ")"


def fields_of(lines, base):
    """Returns the fields of lines, each repeated one once."""
    found = []
    for line in lines:
        if line.name != "Bytes":
            merge(found, Field(line, base))
    return found


def merge(fields, field):
    """Adds a field, if it isn't there yet, before the first that is after it. What has the same offset is another choice."""
    for it in fields:
        if it.is_like(field):
            for below in field.below:
                merge(it.below, below)
            it.flags = it.flags or field.flags
            return
    place = next((i for i, it in enumerate(fields) if it.at > field.at), len(fields))
    fields.insert(place, field)


def text_of(fields):
    """Returns fields as text, with offsets as far as all tables have the same."""
    parts, is_fixed, last = [], True, None
    for it in fields:
        if last is not None and last.at == it.at and not last.is_sized:
            parts[-1] += " or " + it.text("")
        else:
            parts.append(it.text(f"{it.at} " if is_fixed else ""))
        is_fixed = is_fixed and not it.is_repeated and not it.is_sized
        last = it
    return ", ".join(parts)


def item(title, text):
    lines = textwrap.fill(f"- {title}: {text}", 130, subsequent_indent="  ", break_long_words=False, break_on_hyphens=False)
    return lines.replace("\0", " ")


def kinds_of(tables):
    """Returns, for each name of a table, the fields of the table and its structures by type and name, each with its fields."""
    kinds = {}
    for table in tables:
        own, structures = kinds.setdefault(table.name, ([], {}))
        for line in table.lines:
            if line.size is None:
                if line.name != "Bytes":
                    merge(own, Field(line, 0))
            elif line.name:
                fields = structures.setdefault((line.type, line.name), [])
                for field in fields_of(line.below, line.at):
                    merge(fields, field)
    return kinds


def section(kinds):
    """Returns the lines of the list."""
    out = []
    for name, (own, structures) in kinds.items():
        if name == "Unknown table":
            continue
        has_header = [it.name for it in own][: len(HEADER)] == HEADER
        rest = own[len(HEADER) :] if has_header else own
        where = "after the header" if has_header else "no standard header"
        out += ["", f"**{name}**", ""]
        if rest or not structures:
            out.append(item(where, text_of(rest) or "no fields by name"))
        for (type, title), fields in structures.items():
            out.append(item("entry" if type is None else f"type {type}, {title}", text_of(fields)))
    return "\n".join(out[1:]) + "\n"


def names_in_sources():
    """Returns the names of tables, structures, groups and fields in the sources."""
    names = re.findall(r'name: "([^"]+)"', FORMS) + re.findall(r'Part::\w+\(\s*"([^"]+)"', FORMS)
    return [*names, *re.findall(r'Row::\w+\(\s*"([^"]+)"', FORMS + ROWS), *REPEATED]


def names_in(lines):
    for line in lines:
        yield line.name
        yield from names_in(line.below)


def main():
    tables = tables_of(read(SHOWN))
    seen = {it.name for it in tables} | {name for it in tables for name in names_in(it.lines)} | set(UNSEEN)
    lost = sorted(set(names_in_sources()) - seen)
    if lost:
        stop(f"{SHOWN} doesn't have these names of the sources: {', '.join(lost)}")
    text = read(DOCUMENT)
    if text.count(BEGIN) != 1 or text.count(END) != 1:
        stop(f"{DOCUMENT} has to have the lines {BEGIN.strip()} and {END.strip()} once")
    before, after = text.split(BEGIN)[0], text.split(END)[1]
    wanted = f"{before}{BEGIN}{section(kinds_of(tables))}{END}{after}"
    if sys.argv[1:] == ["renew"]:
        with open(DOCUMENT, "w", encoding="utf-8") as file:
            file.write(wanted)
    elif text != wanted:
        stop(f"the fields in {DOCUMENT} aren't those of {SHOWN}: `python3 -B tools/fields.py renew` writes them")


main()

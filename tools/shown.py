"""Reads the text of `acpitool show` (docs/TEXTS.md, "The text of a table")."""
import re


class Line:
    """A line of a table's text: its level, its offset in the table, its name, and what is after its colon.

    `numbers` are the numbers of a field as (value, width in bytes), and None in the line of a structure or a group. `size` and
    `type` are those of a structure, and else None; an entry has no type. `comment` is the text after the numbers.
    """

    def __init__(self, level, at, name, numbers=None, comment="", size=None, type=None):
        self.level, self.at, self.name, self.numbers, self.comment = level, at, name, numbers, comment
        self.size, self.type, self.below = size, type, []

    @property
    def width(self):
        return sum(width for _, width in self.numbers)


class Table:
    """The text of a table: its name and its lines, each with the lines under it in `below`."""

    def __init__(self, name):
        self.name, self.lines = name, []


STRUCTURE = re.compile(r"(\d+) (?:type (\d+)|entry) size (\d+) ?(.*)")
FIELD = re.compile(r"( +)(\d+) ([^:]*[^: ]) *: ([0-9a-f ]*[0-9a-f])?(?:  // (.*))?$")
GROUP = re.compile(r"( +)(\d+) ([^:]*)$")


def line_of(text):
    """Returns a line of a table's text, or None if it is the table's name."""
    found = STRUCTURE.match(text)
    if found:
        at, type, size, name = found.groups()
        return Line(0, int(at), name, size=int(size), type=type and int(type))
    found = FIELD.match(text)
    if found:
        spaces, at, name, numbers, comment = found.groups()
        numbers = [(int(it, 16), len(it) // 2) for it in (numbers or "").split()]
        return Line(len(spaces) // 2, int(at), name, numbers, comment or "")
    found = GROUP.match(text)
    if found:
        spaces, at, name = found.groups()
        return Line(len(spaces) // 2, int(at), name)
    return None


# The header of a definition block that is shown as ASL, of which each line is a comment, and the ASL.
BLOCK = re.compile(r"(?m)^((?:// .*\n)+)(?:/\*= .*\n)?DefinitionBlock .*\n\{\n(?:.*\n)*?\}\n")
HEADER = re.compile(r"(?m)^// (.*\n)((?://   .*\n)+)\Z")


def header_of(block):
    """Returns the text of a block's header without the marks of comments. Comments before it, as the name of a file, stay."""
    return HEADER.sub(lambda header: header[1] + re.sub("(?m)^// ", "", header[2]), block[1])


def tables_of(text):
    """Returns the tables of a text, in order. A table's name is the first line that is no comment, or such a line after comments.
    Comments are the names of files and the terms of definition blocks. Of a definition block as ASL the header is a table."""
    tables, above, is_name = [], [], True
    for it in BLOCK.sub(header_of, text).splitlines():
        if it.startswith("// "):
            is_name = True
        elif is_name:
            tables.append(Table(it))
            above, is_name = [], False
        else:
            line = line_of(it)
            if line is None:
                continue
            while above and above[-1].level >= line.level:
                above.pop()
            (above[-1].below if above else tables[-1].lines).append(line)
            if line.numbers is None:
                above.append(line)
    return tables

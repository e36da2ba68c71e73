"""Makes the lists in docs/RULES.md of the rules that `acpitool check` has: those on single tables, and those on several.

    python3 -B tools/rules.py            compares the lists with what they have to be; the status is 1 if they differ
    python3 -B tools/rules.py renew      writes the lists

The rules are the rows of numbers.rt, standard.rt, machine.rt and single.rt in crates/acpi_rules/src. Each name of a field has to
be in the sources of the forms. Where docs/FIELDS.md has the structure of a rule, its field has to be there with the same offset
and width.
"""
import glob
import re
import sys
import textwrap

NUMBERS = "crates/acpi_rules/src/numbers.rt"
SOURCE = "crates/acpi_rules/src/standard.rt"
MACHINE = "crates/acpi_rules/src/machine.rt"
SINGLE = "crates/acpi_rules/src/single.rt"
DOCUMENT = "docs/RULES.md"
FIELDS = "docs/FIELDS.md"
BEGIN, END = "<!-- rules: tools/rules.py makes these lines -->\n", "<!-- end of rules -->\n"
BEGIN_SEVERAL = "<!-- rules on several tables: tools/rules.py makes these lines -->\n"
END_SEVERAL = "<!-- end of rules on several tables -->\n"
NAMES = {"Differs": "unique", "Apart": "overlap", "Disjoint": "disjoint", "AtMost": "at-most", "Addresses": "no-overflow"}
NAMES.update({"Counts": "count", "Agrees": "pair", "Needed": "required", "Needs": "needs", "Between": "range"})
NAMES.update({"Multiple": "multiple", "Points": "reference", "Refers": "reference", "Ends": "cycle", "Distances": "distance"})
NAMES.update({"Includes": "present", "NotAll": "not-all", "Inside": "inside"})
NAMES.update({"DiffersIn": "unique", "DiffersWith": "unique", "Blocks": "no-overflow", "All": "range"})
NAMES.update({"Terminated": "terminated", "TerminatedAt": "terminated", "TerminatedBefore": "terminated"})


def stop(why):
    sys.exit(f"rules.py: {why}")


def read(path):
    with open(path, encoding="utf-8") as file:
        return file.read()


def number(text):
    return int(text.replace("_", ""), 0)


def split_outside(text):
    """Returns the parts of a list between commas that aren't within brackets or quotation marks."""
    parts, depth, quoted, last = [], 0, False, 0
    for at, one in enumerate(text):
        quoted ^= one == '"'
        if not quoted:
            depth += (one in "([{") - (one in ")]}")
            if one == "," and depth == 0:
                parts.append(text[last:at].strip())
                last = at + 1
    return [it for it in [*parts, text[last:].strip()] if it]


def call(text):
    """Returns the name of what looks like a call, and its arguments."""
    name, _, rest = text.partition("(")
    return name.rstrip("!"), split_outside(rest.rstrip()[:-1]) if rest else []


def spot(text):
    """Returns the offset, the width and the name of a field."""
    offset, width, name = call(text)[1]
    return int(offset), int(width), name.strip('"')


def place(text):
    """Returns the offset of a place, or nothing if it is nowhere."""
    kind, arguments = call(text)
    return arguments[0] if arguments else None


def bits(kind, where_text, mask, value):
    """Returns what the bits of a mask have to be."""
    at, mask, value = place(where_text), number(mask), number(value)
    whole = mask in (0xFF, 0xFFFF, 0xFFFF_FFFF)
    be = ("is" if whole else "are") + ("" if kind == "Is" else "n't")
    if whole:
        return f", if the number at {at} {be} {value}"
    return f", if the bits {mask:#x} at {at} {be} {value:#x}"


def condition(text):
    kind, arguments = call(text)
    return "" if kind == "Always" else bits(kind, *arguments)


def where(text):
    """Returns the parts of a table of which a rule speaks."""
    kind, arguments = call(text)
    if kind == "Whole":
        return ""
    if kind == "Each":
        return "each structure, "
    if kind == "Kind":
        return f"type {arguments[0]}, "
    size = arguments[4]
    start = place(arguments[1])
    begin = f"the offset at {start}" if start else arguments[2]
    return f"type {arguments[0]}, entries of {size} bytes from {begin} on, "


def between(least, most):
    if least == most:
        return f"is {least}"
    return f"is at least {least}" if most in (2**32 - 1, 2**64 - 1) else f"is from {least} to {most}"


def types(numbers):
    return f"type {', '.join(numbers[:-1])} or {numbers[-1]}" if len(numbers) > 1 else f"type {numbers[0]}"


def parts(text):
    """Returns the lists of parts that have names: (name, list of parts)."""
    for name, body in re.findall(r"^const (\w+): \[Among; \d+\] = \[\n(.*?)^\];$", text, re.MULTILINE | re.DOTALL):
        rows = [call(it)[1] for it in split_outside(re.sub(r"\s+", " ", body))]
        yield name, [where(of).rstrip(", ") + condition(when) for of, when in rows]


def demand(text, named):
    """Returns what a rule demands of its field, or of the table. Lists of parts have names."""
    kind, arguments = call(text)
    if kind == "Differs":
        return "differs in all of them"
    if kind == "DiffersWith":
        return f"differs in all of them that have the same {spot(arguments[0])[2]}"
    if kind == "DiffersIn":
        return f"differs in all of them that one structure of type {arguments[0]} has"
    if kind == "Apart":
        return f"the numbers up to {spot(arguments[1])[2]} aren't those of another with the same {spot(arguments[0])[2]}"
    if kind == "Disjoint":
        return f"begins a range, as long as {spot(arguments[0])[2]} says, that has no address of another one"
    if kind == "AtMost":
        return f"isn't greater than {spot(arguments[0])[2]}"
    if kind == "Addresses":
        return f"ends before 2^64 with {spot(arguments[0])[2]}"
    if kind == "Blocks":
        each = number(arguments[1])
        return f"blocks of {each} bytes for the numbers from 0 to {spot(arguments[0])[2]}, which begin there, end before 2^64"
    if kind == "Inside":
        many = "bytes" if arguments[1] == "1" else f"entries of {arguments[1]} bytes"
        return f"as many {many} as {spot(arguments[0])[2]} says, which begin at this offset, stand in the structure or the table"
    if kind == "Counts":
        each = "one byte" if arguments[1] == "1" else f"{arguments[1]} bytes"
        return f"is at most the number of entries of {each} for which there is space from offset {arguments[0]} on"
    if kind == "Agrees":
        return f"is {spot(arguments[0])[2]}, unless one of them is zero"
    if kind == "Needed":
        return f"isn't zero, or {spot(arguments[0])[2]} isn't"
    if kind == "Needs":
        return f"is zero, or {spot(arguments[0])[2]} isn't"
    if kind == "Between":
        return between(number(arguments[0]), number(arguments[1]))
    if kind == "Multiple":
        return f"is a multiple of {number(arguments[0])}"
    if kind == "NotAll":
        return f"doesn't have all of the bits {number(arguments[0]):#x}"
    if kind == "All":
        return f"has all of the bits {number(arguments[0]):#x}"
    if kind == "Terminated":
        return f"as many bytes as {spot(arguments[0])[2]} says, which begin at this offset, end with a zero"
    if kind == "TerminatedAt":
        return f"as many bytes as it says, which begin at offset {arguments[0]}, end with a zero"
    if kind == "TerminatedBefore":
        end = spot(arguments[1])[2]
        if end == "Length":
            return "the string that begins there has a zero before the end of the structure or the table"
        return f"the string that begins there has a zero before the offset in {end}, or before the end if that is 0"
    if kind == "Points":
        return f"is zero, or the offset of a structure of {types(arguments[0].strip('&[]').split(', '))}"
    if kind == "Refers":
        return f"is zero, or {spot(arguments[1])[2]} of a structure of type {arguments[0]}"
    if kind == "Ends":
        return "structures of which each has the offset of the next one there come to an end"
    if kind == "Distances":
        return "is the number of localities: the distance from each to itself is 10, and each other one is at least 10"
    if kind == "Includes":
        what = arguments[1].strip('"')
        return f"there is a {what}: one of {'; '.join(named[arguments[0].strip('&')])}"
    stop(f"{SOURCE} has a demand that isn't known: {kind}")


def relations(text):
    """Returns the rules on several fields: (table, rule, field, what is allowed, section), and where each field stands."""
    named = dict(parts(text))
    for body in re.findall(r"^    rule!\((.*(?:\n        .*)*)\),$", text, re.MULTILINE):
        table, of, when, field, wanted, section = split_outside(re.sub(r"\s+", " ", body))
        offset, width, name = spot(field)
        yield (table.strip('"'), NAMES[call(wanted)[0]], f"{where(of)}{offset} {name}{condition(when)}", demand(wanted, named),
               section.strip('"')), (of, offset, width, name)


def column(text):
    """Returns the table of a column, the numbers of which it consists, and where their fields stand."""
    kind, arguments = call(text)
    if kind not in ("column", "wide"):
        stop(f"{MACHINE} has numbers that can't be read: {text}")
    table, of, when, low = arguments[:4]
    found = [(of, *spot(it)) for it in arguments[3:]]
    offset, _, name = spot(low)
    above = "".join(f" with {at} {it} above it" for _, at, _, it in found[1:])
    return table.strip('"'), f"{where(of)}{offset} {name}{above}{condition(when)}", found


def columns(text):
    """Returns the columns that have names: (name, list of columns)."""
    for name, body in re.findall(r"^const (\w+): \[Column; \d+\] = \[\n(.*?)^\];$", text, re.MULTILINE | re.DOTALL):
        yield name, [column(it) for it in split_outside(re.sub(r"\s+", " ", body))]
    for name, body in re.findall(r"^const (\w+): Column = (.*?);$", text, re.MULTILINE | re.DOTALL):
        yield name, [column(re.sub(r"\s+", " ", body))]


def links(text):
    """Returns the rules on several tables in the form of those on several fields, and all fields of which they speak."""
    named = dict(columns(text))
    for body in re.findall(r"^    link!\((.*(?:\n        .*)*)\),$", text, re.MULTILINE):
        own, wanted, other, section = split_outside(re.sub(r"\s+", " ", body))
        table, field, found = column(own)
        kind, arguments = call(wanted)
        others = named[arguments[0].strip("&")]
        tables = {it for it, _, _ in others}
        if len(tables) != 1 or not other.strip('"').endswith(f" of {min(tables)}"):
            stop(f"{MACHINE}: {other} isn't of the table whose numbers are allowed")
        allowed = {
            "OneOf": f"is one of `{arguments[0].strip('&')}`",
            "Below": f"is below {others[0][1]} of {min(tables)}",
            "Index": f"is below the number of structures of {min(tables)}",
        }[kind]
        fields = [(table, it) for it in found] + [(there, it) for there, _, those in others for it in those]
        yield (table, "defined" if kind == "OneOf" else "below", field, allowed, section.strip('"')), fields


def wrapped(line):
    """Returns a line of a list."""
    return textwrap.fill(line, 130, subsequent_indent="  ", break_long_words=False, break_on_hyphens=False)


def once(text):
    """Returns a line for each rule on tables that a machine has once."""
    said = {
        "SINGLES": "`single`: there is one table of each of",
        "COPIED": "`copy`: no two tables have the same bytes, of each of",
    }
    for name, body in re.findall(r"^const (\w+): \[Once; \d+\] = \[\n(.*?)^\];$", text, re.MULTILINE | re.DOTALL):
        rows = re.findall(r'^    only!\("(.*?)", "(.*?)"\),$', body, re.MULTILINE)
        if len(rows) != body.count("\n"):
            stop(f"{SINGLE} has rows that can't be read")
        yield wrapped(f"- {said[name]} " + "; ".join(f"{table} ({section})" for table, section in rows)) + "\n"


def lists(text):
    """Returns a line for each list of numbers that are allowed."""
    for name, found in columns(text):
        if f"OneOf(&{name})" in text:
            numbers = "; ".join(it for _, it, _ in found)
            yield wrapped(f"- `{name}` of {found[0][0]}: {numbers}") + "\n"


def limits(text):
    """Returns the ranges of fields in the same form."""
    row = r'Limit \{\s*table: "(.*?)", offset: (\d+), name: "(.*?)", from: (\w+), to: (\w+),\s*'
    row += r'place: (.*?), mask: (\w+), is: (\w+), section: "(.*?)",'
    for table, offset, name, least, most, at, mask, value, section in re.findall(row, text):
        when = "" if at.endswith("Nowhere") else bits("Is", at.replace("Place::", ""), mask, value)
        field = f"{offset} {name}" if offset != "0" else name
        yield table, "range", field + when, between(number(least), number(most)), section


def check_fields(found):
    """Stops if the forms don't have the name of a field, or if it isn't where docs/FIELDS.md has it."""
    forms = "".join(read(it) for it in glob.glob("crates/acpi_[a-z]*/src/**/*.rt", recursive=True) if "acpi_rules" not in it)
    known = set(re.findall(r'(?:Row|Part)::\w+\(\s*"([^"]+)"', forms))
    lost = sorted({name for _, (_, _, _, name) in found} - known)
    if lost:
        stop(f"the forms don't have these names of {SOURCE} or {MACHINE}: {', '.join(lost)}")
    parts = re.split(r"^\*\*.*\(([A-Z0-9]+)\).*\*\*$", read(FIELDS), flags=re.MULTILINE)
    names = {"MADT": "APIC", "FADT": "FACP"}
    shown = {names.get(name, name): re.sub(r"\s+", " ", text) for name, text in zip(parts[1::2], parts[2::2])}
    for (table, *_), (of, offset, width, name) in found:
        kind, arguments = call(of)
        heading = {"Whole": "after the header", "Each": "entry"}.get(kind) or f"type {arguments[0]},"
        items = [it for it in shown.get(table, "").split(" - ") if it.startswith(heading)]
        wanted = f"{offset} {name}:{width}"
        # A rule on a string has its first byte.
        known = [wanted, f"{offset} {name}:n"] if width == 1 else [wanted]
        pattern = rf"\b(?:{'|'.join(map(re.escape, known))})\b"
        if items and kind in ("Kind", "Each") and not any(re.search(pattern, it) for it in items):
            stop(f"{FIELDS} has no field `{wanted}` in {table}, {heading.strip(',')}")


def listed(rows):
    """Returns the lines of rules: those of each table below its signature."""
    tables = {}
    for table, *row in rows:
        tables.setdefault(table, []).append(row)
    out = []
    for table in sorted(tables):
        out += ["", f"**{table.strip()}**", ""]
        for rule, field, allowed, section in tables[table]:
            out.append(wrapped(f"- `{rule}` of {field}: {allowed} ({section})"))
    return "\n".join(out[1:]) + "\n"


def replaced(document, begin, end, lines):
    """Returns a document with these lines between two others."""
    if document.count(begin) != 1 or document.count(end) != 1:
        stop(f"{DOCUMENT} has to have the lines {begin.strip()} and {end.strip()} once")
    return document.split(begin)[0] + begin + lines + end + document.split(end)[1]


def main():
    ranges, text, machine, single = read(NUMBERS), read(SOURCE), read(MACHINE), read(SINGLE)
    found, several = list(relations(text)), list(links(machine))
    rows = [*limits(ranges), *(it for it, _ in found)]
    if len(rows) != ranges.count("Limit {\n") + text.count("    rule!(") or len(several) != machine.count("    link!("):
        stop(f"{NUMBERS}, {SOURCE} or {MACHINE} has rows that can't be read")
    check_fields(found + [((table,), field) for _, fields in several for table, field in fields])
    document = read(DOCUMENT)
    wanted = replaced(document, BEGIN, END, listed(rows))
    numbers = "".join(lists(machine)) + "".join(once(single)) + "\n"
    wanted = replaced(wanted, BEGIN_SEVERAL, END_SEVERAL, numbers + listed(it for it, _ in several))
    if sys.argv[1:] == ["renew"]:
        with open(DOCUMENT, "w", encoding="utf-8") as file:
            file.write(wanted)
    elif document != wanted:
        sources = f"{NUMBERS}, {SOURCE}, {MACHINE} and {SINGLE}"
        stop(f"the rules in {DOCUMENT} aren't those of {sources}: `python3 -B tools/rules.py renew` writes them")


main()

"""Compares the fields that `iasl -d` writes for a table with those that `acpitool show` prints.

    python3 -B tools/iasl_fields.py SHOWN DISASSEMBLED

Both texts have the offset, the width and the value of each field. Their names differ, so fields are compared by their offsets,
and values by the bytes that they stand for: of a number lowest byte first, of text and of bytes in their order. It prints how
many fields there are, and each difference. The status is 1 if a difference isn't in `EXPLAINED`.

Rules, for all tables:

- iasl has lines without an offset for bits of the field before them, and a line without a value for a register or an inner
  structure. The bytes are in the fields beside these lines, and only those are compared.
- One field of iasl may be several fields of acpitool, or the other way round, if their bytes are the same.
- iasl may leave out what acpitool prints as `Bytes`, which is bytes without a name, or have fields in it.
- iasl writes terms for a definition block, and no text for an RSDP. There is nothing to compare then.
"""
import re
import sys
import uuid

from shown import tables_of

# What iasl has otherwise, of release 20200925 if no other is named: a signature, the type of a structure (None: the table's own
# fields), the offset of the first byte and of the first byte after it from the beginning of the structure (None: its end), and
# why.
EXPLAINED = [
    ("FACS", None, 40, 64, "iasl doesn't write the last reserved bytes"),
    ("APIC", 11, 80, 82, "iasl doesn't know the TRBE interrupt of ACPI 6.5"),
    ("APIC", 24, 2, None, "iasl doesn't know the RISC-V INTC structure of ACPI 6.6"),
    ("APIC", 25, 2, None, "iasl doesn't know the RISC-V IMSIC structure of ACPI 6.6"),
    ("APIC", 26, 2, None, "iasl doesn't know the RISC-V APLIC structure of ACPI 6.6"),
    ("APIC", 27, 2, None, "iasl doesn't know the RISC-V PLIC structure of ACPI 6.6"),
    ("SRAT", 7, 2, None, "iasl doesn't know the RINTC affinity structure of ACPI 6.6"),
    ("PPTT", 1, 24, 28, "iasl doesn't know the cache id of ACPI 6.4"),
    ("IORT", 2, 33, 40, "iasl doesn't know the PASID fields of IORT revision E.d"),
    ("IORT", 6, 16, None, "iasl doesn't know the reserved memory range of IORT revision E.d"),
    ("SPCR", None, 63, 64, "iasl gives the language the offset 76, which is that of the clock frequency"),
    ("SPCR", None, 76, 77, "iasl gives the language the offset 76, which is that of the clock frequency"),
    ("SPCR", None, 80, None, "iasl knows revision 2, which ends at offset 80"),
    ("CCEL", None, 38, 42, "iasl 20250404 has 4 bytes for the 2 that are reserved"),
    ("DBG2", None, 11, None, "iasl 20260408 gives the data of the OEM the offset in their structure"),
    ("IORT", 1, 44, None, "iasl 20260408 writes the first bytes of the table for the padding of a name"),
    ("MPST", None, 44, None, "the nodes of ACPICA's template have the length 0, and iasl's fields overlap"),
    ("NFIT", None, 8, 40, "iasl 20260408 gives the data of SMBIOS the offset in their structure"),
    ("NFIT", 3, 8, None, "iasl 20260408 gives the data of SMBIOS the offset in their structure"),
    ("RHCT", 0, 6, None, "iasl 20250404 looks for the padding of an ISA string in other places"),
    ("SDEV", None, 0, 36, "iasl 20260408 gives the fields after a structure's first ones the offset in the structure"),
    ("SDEV", 0, 0, None, "iasl 20260408 gives the fields after a structure's first ones the offset in the structure"),
    ("SDEV", 1, 0, None, "iasl 20260408 gives the fields after a structure's first ones the offset in the structure"),
    ("WPBT", None, 52, None, "iasl 20260408 writes the first bytes of the table for the arguments"),
]

# The offset and the width of a field are decimal, but the width is hexadecimal with an `h` from release 20250404 on.
FIELD = re.compile(r"\[[0-9A-F]+h (\d+) +([0-9A-F]+)(h?)\] *(.*?) : (.*)")


# A further line of a value: from release 20250404 on with the offset of its first byte before it, and its characters after it.
FURTHER = re.compile(r"(?:/\* [0-9A-F]+h \d+ +\d+ \*/)? +((?:[0-9A-F]{2} ?)+?) *(?:\\|/\*.*)?")

UUID = re.compile(r"[0-9A-Fa-f]{8}(?:-[0-9A-Fa-f]{4}){3}-[0-9A-Fa-f]{12}")


def bytes_of_iasl(text, width):
    """Returns the bytes of a value as iasl writes it, or None if there is none."""
    text = text.strip()
    if text.startswith('"'):
        said = text[1 : text.rindex('"')]
        wide = width > 2 and width == 2 * (len(said) + 1)
        return said.encode("utf-16-le" if wide else "utf-8").ljust(width, b"\0")
    if UUID.match(text):
        return uuid.UUID(UUID.match(text)[0]).bytes_le
    if re.fullmatch(r"[0-9A-F]{2},[0-9A-F]{2}", text):
        return bytes.fromhex(text.replace(",", ""))
    digits = re.match(r"(?:[0-9A-F]{2} )*[0-9A-F]+(?= |$)", text)
    if not digits:
        return None
    if " " in digits[0]:
        return bytes.fromhex(digits[0])
    return int(digits[0], 16).to_bytes(width, "little")


def fields_of_iasl(text):
    """Returns the fields of a disassembled table: offset, bytes and name. A value of several lines goes on until the next `[`."""
    found = []
    for line in text.split("Raw Table Data:")[0].splitlines():
        field, further = FIELD.match(line), FURTHER.fullmatch(line)
        if field:
            at, width, h, name, value = field.groups()
            found.append([int(at), int(width, 16 if h else 10), name.strip(), value])
        elif further and found and re.match(r"[0-9A-F]{2} ", found[-1][3]):
            first = re.match(r"(?:[0-9A-F]{2} ?)+", found[-1][3])[0].strip()
            found[-1][3] = f"{first} {further[1].strip()}"
    fields = ((at, bytes_of_iasl(value, width), name) for at, width, name, value in found)
    return [it for it in fields if it[1] is not None]


def fields_of_acpitool(lines, structure=None):
    """Yields the fields of a shown table: offset, bytes, name, and the structure of the table that they are in."""
    for line in lines:
        if line.numbers is None:
            yield from fields_of_acpitool(line.below, structure or (line if line.size is not None else None))
        else:
            yield line.at, b"".join(value.to_bytes(width, "little") for value, width in line.numbers), line.name, structure


class Comparison:
    def __init__(self, table, disassembled):
        self.ours = list(fields_of_acpitool(table.lines))
        self.theirs = fields_of_iasl(disassembled)
        self.signature = self.ours[0][1].decode(errors="replace")
        self.bytes = {at + i: byte for at, found, _, _ in self.ours for i, byte in enumerate(found)}
        self.same, self.joined, self.split, self.found = 0, 0, 0, []

    def differs(self, begin, end, what):
        """Adds a difference, with its offsets in the structure that it is in."""
        structure = next((it for at, found, _, it in self.ours if at <= begin < at + len(found)), None)
        base, type = (structure.at, structure.type) if structure else (0, None)
        why = [
            text
            for signature, of_type, first, after, text in EXPLAINED
            if (signature, of_type) == (self.signature, type) and first <= begin - base and (after is None or end - base <= after)
        ]
        self.found.append((begin, end, what, why[0] if why else None))

    def compare(self):
        edges = {at for at, _, _, _ in self.ours} | {at + len(found) for at, found, _, _ in self.ours}
        covered = set()
        for at, found, name in self.theirs:
            end = at + len(found)
            if bytes(self.bytes.get(i, -1) & 255 for i in range(at, end)) != found or not {at, end - 1} <= set(self.bytes):
                self.differs(at, end, f"iasl has {found.hex(' ')} for {name}")
                continue
            covered |= set(range(at, end))
            if not {at, end} <= edges and not self.is_part(at, end) and not self.has_no_names(at, end):
                self.differs(at, end, f"iasl has a field {name} there")
        for at, found, name, _ in self.ours:
            end = at + len(found)
            lost = [i for i in range(at, end) if i not in covered]
            if lost:
                if name != "Bytes":
                    self.differs(lost[0], lost[-1] + 1, f"iasl has nothing for {name}")
            elif any((it, it + len(bits)) == (at, end) for it, bits, _ in self.theirs):
                self.same += 1
            elif any(it <= at and end <= it + len(bits) for it, bits, _ in self.theirs):
                self.joined += 1
            else:
                self.split += 1

    def has_no_names(self, begin, end):
        return any(name == "Bytes" and at <= begin and end <= at + len(found) for at, found, name, _ in self.ours)

    def is_part(self, begin, end):
        """Whether the range is one of several fields of iasl, one after another, that are one field of acpitool together."""
        for at, found, _, _ in self.ours:
            if at <= begin and end <= at + len(found):
                fields = [(it, it + len(bits)) for it, bits, _ in self.theirs]
                parts = sorted(it for it in fields if at <= it[0] and it[1] <= at + len(found))
                ends = [at, *(it[1] for it in parts)]
                return [it[0] for it in parts] == ends[:-1] and ends[-1] == at + len(found)
        return False


def main():
    shown, disassembled = (open(it, encoding="latin-1").read() for it in sys.argv[1:3])
    (table,) = tables_of(shown)
    it = Comparison(table, disassembled)
    if not it.theirs:
        print("nothing to compare")
        return
    it.compare()
    print(f"{it.same} fields are the same, {it.joined} are part of one in iasl's text, and {it.split} are several there")
    reasons = []
    for begin, end, what, why in it.found:
        if why is None:
            print(f"  bytes {begin} to {end - 1}: {what}, which nothing explains")
        elif reasons and reasons[-1][2] == why and reasons[-1][1] <= begin:
            reasons[-1][1] = end
        else:
            reasons.append([begin, end, why])
    for begin, end, why in reasons:
        print(f"  bytes {begin} to {end - 1}: {why}")
    sys.exit(any(why is None for _, _, _, why in it.found))


main()

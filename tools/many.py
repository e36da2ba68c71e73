"""Writes an input of acpitool with many parts to standard output, for bench.sh: `many.py KIND COUNT`.

- `marks`: the text of a MADT of COUNT structures, whose lengths are question marks.
- `references`: the text of a PPTT of COUNT processors, each of which refers to the one before it.
- `methods`: a DSDT of COUNT methods, the last of which calls each.
- `devices`: a DSDT of COUNT devices, each with an id, a number and resources, in 47 bytes.
- `asl`: the ASL of COUNT such devices.
- `code`: a DSDT of COUNT devices, each with two methods, in 86 bytes. The methods name objects in their scope, in the root, and
  by a path, and call another one.
- `image`: the image of COUNT tables besides FADT, FACS and DSDT, with the base 0.
"""

import struct
import sys

HEADER = """  Length: ????????
  Revision: 0x{revision:x}
  Checksum: ??
  OEM ID: "BENCH "
  OEM Table ID: "MANY    "
  OEM Revision: 0x1
  Creator ID: "MANY"
  Creator Revision: 0x1
"""
FACS = 64


def table(signature, body, revision=2):
    """A table with its length and its checksum."""
    parts = [signature, struct.pack("<I", 36 + len(body)), bytes([revision, 0]), b"BENCH MANY    \1\0\0\0MANY\1\0\0\0"]
    made = bytearray(b"".join(parts) + body)
    made[9] = -sum(made) % 256
    return bytes(made)


def name_of(index):
    """A name of four characters for each index."""
    digits = "".join("ABCDEFGHIJKLMNOPQRSTUVWXYZ"[index // 26**place % 26] for place in range(3))
    return b"M" + digits.encode()


def frame(opcode, body):
    """An object with its PkgLength, of four bytes."""
    length = len(body) + 4
    return opcode + bytes([0xC0 | length & 15, length >> 4 & 255, length >> 12 & 255, length >> 20]) + body


def marks(count):
    head = 'Multiple APIC Description Table (MADT)\n  Signature: "APIC"\n' + HEADER.format(revision=5)
    yield head + "  Local Interrupt Controller Address: 0xfee00000\n  Flags: {PCAT_COMPAT}\n"
    for index in range(count):
        yield "Processor Local APIC Structure\n  Type: ??\n  Length: ??\n"
        yield f"  ACPI Processor UID: #{index % 256}\n  APIC ID: #{index % 256}\n  Flags: {{Enabled}}\n"


def references(count):
    yield 'Processor Properties Topology Table (PPTT)\n  Signature: "PPTT"\n' + HEADER.format(revision=3)
    for index in range(count):
        yield f"@node{index} Processor Hierarchy Node Structure\n  Type: ??\n  Length: ??\n  Reserved: 0x0\n  Flags: 0x0\n"
        yield f"  Parent: {f'@node{index - 1}' if index else '0x0'}\n"
        yield f"  ACPI Processor ID: #{index}\n  Number of private resources: ????????\n"


def methods(count):
    names = [name_of(index) for index in range(count)]
    body = b"".join(frame(b"\x14", name + b"\x01\xa4\x68") for name in names)
    yield table(b"DSDT", body + frame(b"\x14", b"LAST\0" + b"".join(name + b"\0" for name in names)))


def devices(count):
    resources = b"\x47\x01\xf8\x03\xf8\x03\x00\x08\x22\x10\x00\x79\x00"
    buffer = b"\x11" + bytes([len(resources) + 3]) + b"\x0a" + bytes([len(resources)]) + resources
    body = b""
    for index in range(count):
        objects = b"\x08_HID\x0c\x41\xd0\x05\x01" + b"\x08_UID\x0b" + struct.pack("<H", index) + b"\x08_CRS" + buffer
        body += b"\x5b\x82" + bytes([len(objects) + 5]) + name_of(index) + objects
    yield table(b"DSDT", body)


def asl(count):
    yield 'DefinitionBlock ("", "DSDT", 2, "BENCH", "MANY", 0x00000001)\n{\n'
    for index in range(count):
        yield f"    Device ({name_of(index).decode()})\n    {{\n        Name (_HID, EisaId (\"PNP0501\"))\n"
        yield f"        Name (_UID, 0x{index:04X})\n        Name (_CRS, ResourceTemplate ()\n        {{\n"
        yield "            IO (Decode16, 0x03F8, 0x03F8, 0x00, 0x08, )\n            IRQNoFlags () {4}\n        })\n    }\n"
    yield "}\n"


def code(count):
    status = b"\x14\x13_STA\0\xa0\x09\x93VAL0\0\xa4\0\xa4\x0a\x0f"
    setter = b"\x14\x2bSETX\1\x70\x68VAL0\x70\x72GLOBVAL0\x60GLOB\x70\x5eVAL0\x61\xa4GETVVAL0"
    body = b"\x08GLOB\0\x14\x08GETV\1\xa4\x68"
    for index in range(count):
        objects = b"\x08_UID\x0b" + struct.pack("<H", index) + b"\x08VAL0\0" + status + setter
        body += b"\x5b\x82\x44\x05" + name_of(index) + objects
    yield table(b"DSDT", body)


def image(count):
    """RSDP, FACS and then the tables, each at a multiple of 64, with the XSDT at the end."""
    def fixed(dsdt):
        body = bytearray(240)
        struct.pack_into("<Q", body, 132 - 36, FACS)
        struct.pack_into("<Q", body, 140 - 36, dsdt)
        return table(b"FACP", bytes(body), 6)

    facs = b"FACS" + struct.pack("<I", 64) + bytes(24) + b"\2" + bytes(31)
    parts, entries, at = [facs], [], 128
    for made in [table(b"DSDT", b""), fixed(128)] + [table(b"OEM1", struct.pack("<I", index)) for index in range(count)]:
        parts.append(made + bytes(-len(made) % 64))
        entries.append(at)
        at += len(parts[-1])
    rsdp = bytearray(b"RSD PTR \0BENCH \2" + struct.pack("<IIQ", 0, 36, at) + bytes(4))
    rsdp[8] = -sum(rsdp[:20]) % 256
    rsdp[32] = -sum(rsdp) % 256
    yield bytes(rsdp) + bytes(FACS - len(rsdp))
    yield from parts
    yield table(b"XSDT", struct.pack(f"<{len(entries) - 1}Q", *entries[1:]), 1)


kinds = {part.__name__: part for part in (marks, references, methods, devices, asl, code, image)}
for part in kinds[sys.argv[1]](int(sys.argv[2])):
    sys.stdout.buffer.write(part if isinstance(part, bytes) else part.encode())

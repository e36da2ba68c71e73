"""Writes the tables that the cases of a file show, each to a file of a folder. A table's name is its signature, and the line of
its run. For `constructors.sh`.

usage: case_tables.py CASES FOLDER SIGNATURE ..
"""

import pathlib
import re
import sys

# What stands for bytes in a case: a number of times a text, or times digits (crates/test_cases/src/main.rt).
PIECE = re.compile(r'(?:"([^"]*)"|((?:[0-9a-f]{2})+))(?:\*(\d+))?')


def body_of(text):
    """Returns the bytes of a run's text, and the bytes that are set at offsets afterwards."""
    patches = [(int(at), int(byte, 16)) for at, byte in re.findall(r"@(\d+)=([0-9a-f]{2})", text)]
    text = re.sub(r"@\d+=[0-9a-f]{2}", " ", text)
    body = b""
    for quoted, digits, times in PIECE.findall(text):
        piece = bytes.fromhex(digits) if digits else quoted.encode()
        body += piece * int(times or 1)
    return body, patches


def table_of(signature, revision, text):
    """Returns the table of a header and a run's text. The header's maker is that of the cases."""
    body, patches = body_of(text)
    makers = b"FOOBARCAFEDEAD" + bytes.fromhex("efbeadde") + b"RVAT" + bytes.fromhex("00000001")
    size = (36 + len(body)).to_bytes(4, "little")
    table = bytearray(signature.encode() + size + bytes([revision, 0]) + makers + body)
    table[9] = -sum(table) % 256
    for at, byte in patches:
        table[at] = byte
    return bytes(table)


def runs(path):
    """Returns the line, the signature, the revision and the text of each run that shows a table."""
    found = []
    is_open = False
    for number, line in enumerate(pathlib.Path(path).read_text().splitlines(), 1):
        text = line.split("#")[0].split(";")[0]
        first = re.match(r"show <(....) (\d+)>(.*)", text)
        if first:
            found.append([number, first[1], int(first[2]), first[3]])
        elif is_open and line.startswith("+"):
            found[-1][3] += " " + text[1:]
        is_open = bool(first) or (is_open and line.startswith("+"))
    return found


def main():
    """Writes the tables of these signatures."""
    _, path, folder, *signatures = sys.argv
    for number, signature, revision, text in runs(path):
        if signature in signatures:
            name = f"{signature.lower()}-{number}"
            pathlib.Path(folder, name).write_bytes(table_of(signature, revision, text))


main()

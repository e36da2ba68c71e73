"""Compares what `acpitool make` makes of texts with what it has to make. cases.sh says which texts there are."""

import os
import random
import re
import subprocess
import sys

TOOL, WORK, COUNT = os.path.abspath(sys.argv[1]), sys.argv[2], int(sys.argv[3])
TABLE, TEXT = os.path.join(WORK, "table"), os.path.join(WORK, "text")
DATA, SHOWN = "crates/acpitool/data", "crates/acpitool/stdout"
FURTHER = "crates/acpi_forms/specs/FurtherNames.antt"
wrong = []


def run(*words):
    """Runs acpitool. A signal or a status above 2 is another error."""
    done = subprocess.run([TOOL, *words], capture_output=True, check=False)
    if done.returncode not in (0, 1, 2):
        wrong.append(f"acpitool {' '.join(words)} ended with {done.returncode}")
    return done


def make(text):
    """The table of a text, which may have wrong numbers, or None, and what was printed about it."""
    with open(TEXT, "wb") as file:
        file.write(text)
    done = run("make", "--force", TEXT, TABLE)
    said = done.stderr.decode().replace(f"{TEXT}: ", "")
    if done.returncode:
        return None, said
    with open(TABLE, "rb") as file:
        return file.read(), said


def show(table):
    """The text of a table, or None if it isn't correct. One whose structures can't be found has the status 1, and a text."""
    with open(TABLE, "wb") as file:
        file.write(table)
    done = run("show", TABLE)
    return done.stdout or None


def read(path, mode="r"):
    with open(path, mode, **({} if "b" in mode else {"encoding": "utf-8", "newline": ""})) as file:
        return file.read()


def expect(name, found, wanted):
    if found != wanted:
        wrong.append(f"{name}: {found!r}, and not {wanted!r}")


def samples():
    """The texts that `acpitool show` has to print of the tables in a folder, and the tables."""
    texts = re.split(r"(?m)^// (\./\S+)\n", read(SHOWN))[1:]
    return [(read(os.path.join(DATA, name), "rb"), text.encode()) for name, text in zip(texts[::2], texts[1::2])]


def changed_table(table):
    """The table with some random bytes and another length, which is correct again."""
    some = bytearray(table)
    for _ in range(random.randrange(6)):
        some[random.randrange(36, len(some)) if len(some) > 36 else 8] = random.choice((0, 1, 4, 255, random.randrange(256)))
    if random.randrange(3) == 0:
        some += random.randbytes(random.randrange(1, 80))
    elif random.randrange(3) == 0:
        del some[random.randrange(36, len(some) + 1) :]
    some[4:8] = len(some).to_bytes(4, "little")
    some[9] = 0
    some[9] = -sum(some) % 256
    return bytes(some)


def changed_text(text):
    """The text with one random change: a line that is left out, doubled, exchanged or cut, or another character."""
    lines = text.split(b"\n")
    at, other = random.randrange(len(lines)), random.randrange(len(lines))
    change = random.randrange(6)
    if change == 0:
        del lines[at]
    elif change == 1:
        lines.insert(at, lines[at])
    elif change == 2:
        lines[at], lines[other] = lines[other], lines[at]
    elif change == 3:
        lines[at] = lines[at][: random.randrange(len(lines[at]) + 1)]
    elif change == 4:
        values = (b"??", b"????", b"#7", b"{Enabled}", b"{}", b"@a", b'"a"', b"")
        lines[at] = lines[at].split(b":")[0] + b": " + random.choice(values)
    else:
        line = bytearray(lines[at] or b" ")
        line[random.randrange(len(line))] = random.randrange(128)
        lines[at] = bytes(line)
    return b"\n".join(lines)


tables = samples()
for table, text in tables:
    expect("a text of crates/acpitool/stdout", make(text)[0], table)

with open(FURTHER, encoding="utf-8") as file:
    further = {name.encode() for name in re.findall(r'signature = codes "(.{4})"', file.read())}
# OEMX is a signature that no table has, so there is no template of it.
for signature in sorted({table[:4] for table, _ in tables} - {b"OEMX"} | further):
    template = run("template", signature.decode())
    expect(f"the template of {signature}", make(template.stdout)[1], "")

random.seed(20)
headed = [table for table, _ in tables if len(table) >= 36 and table[:4] not in (b"RSD ", b"FACS")]
made = 0
for number in range(COUNT):
    table = changed_table(random.choice(headed))
    text = show(table)
    if text is None:
        wrong.append(f"table {number} isn't shown: {table.hex()}")
        continue
    # Terms of definition blocks follow as comments, which have no bytes.
    expect(f"table {number}", make(text)[0], table)
    table, _ = make(changed_text(text))
    again = table and show(table)
    if again:
        made += 1
        expect(f"text {number}", make(again)[0], table)
    if len(wrong) > 9:
        break

for line in wrong:
    print(f"cases.sh: {line}", file=sys.stderr)
print(f"{len(tables)} tables and their texts, {COUNT} random tables")
print(f"{made} of {COUNT} changed texts were made again")
sys.exit(1 if wrong else 0)

#!/usr/bin/env python3
"""Tries the edits of tools/edits for edits.sh, crate by crate, over the libraries in crates/*/out: `edits.py KIT CRATE ..`.

An edit is a file in the form of must-fail. Its line `# refused: FUNCTION ..` names the functions whose proof it has to break, by
their paths below the crate. The prover is asked for these alone, so it checks them and what they call. It has to answer for each
that it isn't proved. One line tells what an edit came to, and the status is 1 if one isn't refused, can't be applied or doesn't
compile. What the tries of a crate have in common is checked once."""

import os
import re
import shutil
import signal
import subprocess
import sys
import tempfile

# The folders of a crate that the prover reads.
PARTS = ("src", "specs", "proofs")


class Wrong(Exception):
    """Why an edit wasn't refused."""


def read(path):
    with open(path, encoding="utf-8") as file:
        return file.read()


def dependencies():
    """What each crate of crates.txt names, lowest first."""
    lines = re.findall(r"(?m)^(\w+)(?: [^:\n]*)?:(.*)$", read("crates.txt"))
    return {crate: names.split() for crate, names in lines}


def below(crate, named):
    """The crates of the repository on which a crate stands."""
    found = []
    for name in named[crate]:
        if name in named:
            found += [it for it in [*below(name, named), name] if it not in found]
    return found


def words_for(kit, crate, named):
    """The words by which the prover checks a crate over the libraries that were built."""
    root = os.getcwd()
    words = [f"{kit}/bin/rattle", "check", "--crate-name", crate, "src/lib.rt", "--jobs", "1"]
    for name in ["std", *named[crate]]:
        folder = f"{root}/crates/{name}/out/rlib" if name in named else f"{kit}/rlibs"
        words += ["--extern", f"{name}={folder}/{name}.rlib"]
    for folder in [f"{kit}/rlibs", *(f"{root}/crates/{name}/out/rlib" for name in below(crate, named))]:
        words += ["-L", f"dependency={folder}"]
    return words + ["--antt-project", f"{kit}/rattle/logic/antt-project.json", "--logic-built", f"{kit}/logic_built"]


def apply(text, folder):
    """Makes the changes of an edit, and returns the functions that it names."""
    path = old = None
    for line in text.splitlines():
        key, _, rest = line.partition(" ")
        if key == "file:":
            path = f"{folder}/{rest}"
        elif key == "old:":
            old = rest
        elif key == "new:":
            found = read(path)
            if found.count(old) != 1:
                raise Wrong(f"{os.path.relpath(path, folder)} has its old text {found.count(old)} times")
            with open(path, "w", encoding="utf-8") as file:
                file.write(found.replace(old, rest))
    names = re.findall(r"(?m)^# refused: (.*)$", text)
    if old is None or len(names) != 1:
        raise Wrong("it has no change, or no line that says which functions are refused")
    return names[0].split()


def refusal(text, crate, words, room):
    """What the prover says of a crate with an edit."""
    folder = f"{room}/{crate}"
    shutil.rmtree(folder, ignore_errors=True)
    for part in PARTS:
        if os.path.isdir(f"crates/{crate}/{part}"):
            shutil.copytree(f"crates/{crate}/{part}", f"{folder}/{part}")
    names = apply(text, folder)
    asked = [word for name in names for word in ("--only", name)]
    words = [*words, *asked, "--incremental", f"{room}/kept"]
    for _ in range(2):
        ran = subprocess.run(words, cwd=folder, stdout=subprocess.PIPE, stderr=subprocess.STDOUT, text=True, check=False)
        # Where memory is short, the system kills a check.
        if ran.returncode != -signal.SIGKILL:
            break
    if ran.returncode not in (0, 1) or not re.search(r"(?m)^only=\d+ proved=\d+$", ran.stdout) or "error[" in ran.stdout:
        raise Wrong(f"the prover gave no answer, and ended with {ran.returncode}:\n{ran.stdout}")
    for name in names:
        if not re.search(rf"(?m)^fn {crate}::{re.escape(name)}: (not proved|no proof)", ran.stdout):
            raise Wrong(f"{name} is still proved, or isn't in the crate:\n{ran.stdout}")
    goals = re.findall(r"(?m)^note: \S+: .*\(`(.*?)`\)", ran.stdout)
    faults = re.findall(r"(?m)^\S+:\d+:\d+: error: (.*)$", ran.stdout)
    return f"{' '.join(names)}: {' '.join(dict.fromkeys(goals or faults[:1])) or 'no reason'}"


def main(kit, *crates):
    named, status = dependencies(), 0
    for crate in crates:
        words = words_for(kit, crate, named)
        with tempfile.TemporaryDirectory(prefix="edits-") as room:
            for name in sorted(os.listdir(f"tools/edits/{crate}")):
                try:
                    found = "refused: " + refusal(read(f"tools/edits/{crate}/{name}"), crate, words, room)
                except Wrong as why:
                    found, status = f"NOT REFUSED: {why}", 1
                print(f"{crate}/{name.removesuffix('.edit')}: {found}", flush=True)
    return status


sys.exit(main(*sys.argv[1:]))

"""Writes the manual page of acpitool, or the completions of its words for bash, to standard output: `manual.py page`,
`manual.py completions`. Both are made of what `acpitool --help` prints, by the source of `help.rt`."""

import re
import sys

SOURCE = "crates/acpitool_program/src/help.rt"


def constant(name, source):
    """The text of a constant of the source."""
    text = re.search(rf'const {name}: &str = "(.*?)";', source, re.S).group(1)
    return text.replace("\\\n", "").replace("\\n", "\n")


def escaped(text):
    """Text for the manual: a backslash and a dash are marked, and so is a point or an apostrophe at the start of a line."""
    text = text.replace("\\", "\\e").replace("-", "\\-")
    return re.sub(r"(?m)^([.'])", r"\\&\1", text)


def forms_of(usage):
    """What the words can be, such as `show FILE .. [NAME=N ..]`."""
    return usage.removeprefix("usage: acpitool ").strip().split(" | ")


def page(forms, paragraphs, version):
    """The manual page: each paragraph that begins with a command is a part of COMMANDS, and the last is about the status."""
    commands = {form.split()[0] for form in forms}
    yield f'.TH ACPITOOL 1 "" "{version}"'
    yield ".SH NAME\nacpitool \\- show, make and check ACPI tables"
    yield ".SH SYNOPSIS"
    for form in forms:
        yield f".B acpitool\n{escaped(form)}\n.br"
    yield ".SH COMMANDS"
    *described, status = paragraphs
    for paragraph in described:
        command, rest = re.fullmatch(r"(\S+(?: --\S+)?) (.*)", paragraph, re.S).groups()
        if command.split()[0] not in commands:
            sys.exit(f"manual.py: a paragraph of the help begins with no command: {paragraph[:40]}")
        yield f".TP\n.B {escaped(command)}\n{escaped(rest)}"
    missing = commands - {paragraph.split()[0] for paragraph in described} - {"--help", "--version"}
    if missing:
        sys.exit(f"manual.py: the help says nothing of {', '.join(sorted(missing))}")
    yield f'.SH "EXIT STATUS"\n{escaped(status)}'
    yield ".SH EXAMPLES\n.nf\nacpitool template APIC >text\nacpitool make text apic\nacpitool show apic\n.fi"


def completions(forms):
    """Completes the first word by the commands and options, and further words by files."""
    words = " ".join(dict.fromkeys(form.split()[0] for form in forms))
    yield "_acpitool() {"
    yield '    if [ "$COMP_CWORD" = 1 ]; then'
    yield f"        COMPREPLY=($(compgen -W '{words}' -- \"${{COMP_WORDS[1]}}\"))"
    yield "    else"
    yield '        COMPREPLY=($(compgen -f -- "${COMP_WORDS[COMP_CWORD]}"))'
    yield "    fi"
    yield "}"
    yield "complete -o filenames -F _acpitool acpitool"


with open(SOURCE, encoding="utf-8") as file:
    source = file.read()
forms = forms_of(constant("USAGE", source))
if sys.argv[1:] == ["page"]:
    lines = page(forms, constant("HELP", source).strip().split("\n\n"), constant("VERSION", source).strip())
elif sys.argv[1:] == ["completions"]:
    lines = completions(forms)
else:
    sys.exit("usage: manual.py page | completions")
print(*lines, sep="\n")

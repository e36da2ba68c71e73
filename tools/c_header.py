#!/usr/bin/env python3
"""Compares what callers in C and Rust read with the source of acpi_c. Prints what differs; then its status is 1.

- c/exports.h with the exports of src;
- include/hyssop.h and hyssop.rs with each other, and with the exports: each function has one, with parameters of the same names;
- the structs, the version, the operators, the types of memory, what regions and fields may be and the faults of both with the
  source, and the faults of docs/C.md."""
import glob
import re
import sys

CRATE = "crates/acpi_c"
RUN = "crates/acpi_c_calls/src"
# A type of an export: the parameters in C that stand for it.
TYPES = {
    "Global": [],
    "bool": ["bool X"],
    "u8": ["uint8_t X"],
    "u16": ["uint16_t X"],
    "u32": ["uint32_t X"],
    "u64": ["uint64_t X"],
    "usize": ["size_t X"],
    "&mut u64": ["uint64_t *X"],
    "&mut usize": ["size_t *X"],
    "&[u8]": ["const void *X", "size_t X_size"],
    "&mut [u8]": ["void *X", "size_t X_size"],
    "&State": ["const struct hyssop_state *X"],
    "&mut State": ["struct hyssop_state *X"],
    "&mut [Structure]": ["struct hyssop_structure *X", "size_t X_size"],
    "&mut [Note]": ["struct hyssop_note *X", "size_t X_size"],
    "&mut [ImageTable]": ["struct hyssop_image_table *X", "size_t X_size"],
    "&[Range<'_>]": ["const struct hyssop_range *X", "size_t X_size"],
}
# A type of hyssop.h, and that of hyssop.rs.
RUST = {
    "int": "c_int",
    "uint8_t": "u8",
    "uint16_t": "u16",
    "uint32_t": "u32",
    "enum hyssop_fault": "u32",
    "uint64_t": "u64",
    "size_t": "usize",
    "uint64_t *": "*mut u64",
    "size_t *": "*mut usize",
    "const void *": "*const u8",
    "const char *": "*const u8",
    "void *": "*mut u8",
    "char *": "*mut u8",
    "struct hyssop_writer *": "*mut Writer",
    "const struct hyssop_writer *": "*const Writer",
    "struct hyssop_structure *": "*mut Structure",
    "struct hyssop_note *": "*mut Note",
    "struct hyssop_image_table *": "*mut ImageTable",
    "const struct hyssop_range *": "*const Range",
}
status = 0


def differs(what):
    global status
    print(f"c_header.py: {what}", file=sys.stderr)
    status = 1


def read(path):
    with open(path, encoding="utf-8") as file:
        return file.read()


def parameters(text):
    """The parameters between the brackets of a declaration."""
    return [" ".join(it.split()) for it in text.split(",") if it.strip() not in ("", "void")]


def typed(parameter):
    """The type and the name of a parameter in C."""
    kind, name = re.fullmatch(r"(.*?)(\w+)", parameter).groups()
    return kind.strip() if not kind.endswith("*") else kind, name


def constant(name):
    """A variant of an enum as a constant: NoFadt is NO_FADT."""
    return re.sub(r"(?<!^)(?=[A-Z])", "_", name).upper()


def compare(where, what, wanted, found):
    for it in wanted:
        if it not in found:
            differs(f"{where} has no {what} `{it}`")
    for it in found:
        if it not in wanted:
            differs(f"{where} has the {what} `{it}`, which isn't in the source")


def declarations(text):
    """The functions that a header declares: the result, the name and the parameters of each."""
    plain = re.sub(r"/\*.*?\*/", "", text, flags=re.S)
    found = re.findall(r"^(?:HYSSOP_RESULT )?([\w ]+?[ *])(\w+)\(([^)]*)\);", plain, re.M)
    return [(result.strip(), name, parameters(given)) for result, name, given in found]


source = "".join(read(it) for it in sorted(glob.glob(f"{CRATE}/src/*.rt")))
exports = re.findall(r'pub extern "C" fn (\w+)\(([^)]*)\) -> u32', source)
if source.count("no_mangle") != len(exports):
    differs(f"{CRATE}/src has an export that isn't `pub extern \"C\" fn NAME(..) -> u32`")
in_c = {}
for name, given in exports:
    both = [(it.split(":")[0].strip(), TYPES[it.split(":", 1)[1].strip()]) for it in parameters(given)]
    in_c[name] = [one.replace("X", it) for it, types in both for one in types]
found = declarations(read(f"{CRATE}/c/exports.h"))
compare("exports.h", "declaration", [("uint32_t", name, given) for name, given in in_c.items()], found)


def seen(given):
    """The names of the parameters that callers see: a writer is its buffer and its state, and its texts end with a zero."""
    names = [typed(it)[1] for it in given]
    if "state" not in names:
        return names
    sizes = [f"{it}_size" for it in names if it != "content"]
    return ["writer"] + [it for it in names if it not in ("bytes", "state") and it not in sizes]


def in_rust(given):
    """The parameters in Rust. A text without a size after it is a string of C."""
    names = [typed(it)[1] for it in given]
    types = [
        "*const c_char" if kind == "const char *" and f"{it}_size" not in names else RUST[kind] for kind, it in map(typed, given)
    ]
    return ", ".join(f"{it}: {kind}" for it, kind in zip(names, types))


# What callers see. A function that writes structs counts them, and that of the words has no proved function. A writer begins with
# its buffer, and NULL has no function.
header, rust = read(f"{CRATE}/include/hyssop.h"), read(f"{CRATE}/hyssop.rs")
public = declarations(header)
hidden = ("hyssop_export_fault_name", "hyssop_export_null", "hyssop_export_begin")
wanted = [(name.replace("_export", ""), seen(given)) for name, given in in_c.items() if name not in hidden]
wanted += [("hyssop_fault_words", ["number"]), ("hyssop_begin", ["writer", "bytes", "bytes_size"])]
same = {"out_count": "out_size", "ranges_count": "ranges_size", "count": "size"}
named = [(name, [same.get(typed(it)[1], typed(it)[1]) for it in given]) for _, name, given in public]
compare("hyssop.h", "function", wanted, named)
declared = [
    f"pub fn {name}({in_rust(given)}) -> " + ("*const c_char" if result == "const char *" else RUST[result])
    for result, name, given in public
]
found = re.findall(r"(pub fn \w+)\(([^)]*)\) -> ([^;]*);", rust)
in_file = [f"{name}({', '.join(parameters(given))}) -> {result}" for name, given, result in found]
compare("hyssop.rs", "declaration", declared, in_file)

# The fields of the structs: a type of the source, and that of hyssop.h.
C_FIELDS = {
    "usize": "size_t X;",
    "u64": "uint64_t X;",
    "u32": "uint32_t X;",
    "[u8; 4]": "uint8_t X[4];",
    "[u32; 32]": "uint32_t X[HYSSOP_DEPTH];",
    "[usize; 32]": "size_t X[HYSSOP_DEPTH];",
}
# A slice is a pointer and a size in C and in hyssop.rs.
SLICE = {"&'a [u8]": (["const void *X;", "size_t size;"], [("X", "*const u8"), ("size", "usize")])}
STRUCTS = [(name, f"{RUN}/{file}.rt") for name, file in
           (("Structure", "structures"), ("Note", "notes"), ("ImageTable", "image"), ("State", "state"))]
for name, path in [*STRUCTS, ("Range", "crates/acpi_layout/src/range.rt")]:
    fields = re.findall(r"pub (\w+): ([^,]*),", re.search(rf"pub struct {name}(?:<'a>)? {{(.*?)\n}}", read(path), re.S)[1])
    in_c = f"struct hyssop_{constant(name).lower()}"
    body = re.search(rf"{in_c} {{\n(.*?)}};", header, re.S)[1]
    wanted = [one.replace("X", it) for it, kind in fields for one in SLICE.get(kind, ([C_FIELDS.get(kind)], []))[0]]
    if [re.sub(r" */\*.*\*/", "", line).strip() for line in body.splitlines()] != wanted:
        differs(f"the fields of `{in_c}` in hyssop.h aren't {fields}")
    wanted = [(one.replace("X", it), its) for it, kind in fields for one, its in SLICE.get(kind, ([], [("X", kind)]))[1]]
    if re.findall(r"pub (\w+): ([^,]*),", re.search(rf"pub struct {name} {{(.*?)\n}}", rust, re.S)[1]) != wanted:
        differs(f"the fields of `{name}` in hyssop.rs aren't {fields}")

# A writer's depth, the operators by their opcodes, the types of memory, and what regions and fields may be.
depth = re.search(r"pub const DEPTH: usize = (\d+);", read(f"{RUN}/state.rt"))[1]
if f"#define HYSSOP_DEPTH {depth}\n" not in header or f"pub const DEPTH: usize = {depth};" not in rust:
    differs(f"HYSSOP_DEPTH or DEPTH isn't {depth}")
rows = r"look_up! { \$wanted \$subject;(.*?)\n +;\n(.*?)\n +}\n"
single, double = re.search(rows, read("crates/acpi_term/src/op.rt"), re.S).groups()
wanted = [(name.upper(), f"0x{code}") for name, code in re.findall(r"^ +(\w+) 0x(\w\w) ", single, re.M)]
wanted += [(name.upper(), f"0x5b{code}") for name, code in re.findall(r"^ +(\w+) 0x(\w\w) ", double, re.M)]
compare("hyssop.h", "operator", wanted, re.findall(r"\bHYSSOP_OP_(\w+) = (\w+)", header))
rows = re.findall(r"(\d) => Some\(AddressSpaceCacheable::(\w+)\)", read(f"{RUN}/resource.rt"))
wanted = [(name.upper(), number) for number, name in rows]
found = [(name.replace("_", ""), number) for name, number in re.findall(r"\bHYSSOP_MEMORY_(\w+) = (\d+)", header)]
compare("hyssop.h", "type of memory", wanted, found)
enums = (("SPACE", "region", "OpRegionSpace"), ("ACCESS", "field", "FieldAccessType"), ("UPDATE", "field", "FieldUpdateRule"))
for prefix, file, kind in enums:
    variants = re.search(rf"pub enum {kind} {{(.*?)}}", read(f"crates/acpi_aml/src/{file}.rt"), re.S)[1]
    wanted = [(name.upper(), str(number)) for number, name in enumerate(re.findall(r"(\w+),", variants))]
    found = [(name.replace("_", ""), number) for name, number in re.findall(rf"\bHYSSOP_{prefix}_(\w+) = (\d+)", header)]
    compare("hyssop.h", f"value of {kind}", wanted, found)

# Faults: a name, a number and words.
rows = re.findall(r'^ +([A-Z]\w+) (\d+) "(.*)"$', read(f"{RUN}/fault.rt"), re.M)
wanted = [(constant(name), number, words) for name, number, words in rows]
compare("hyssop.h", "fault", wanted, re.findall(r"^ +HYSSOP_FAULT_(\w+) = (\d+),? /\* (.*) \*/$", header, re.M))
compare("docs/C.md", "fault", wanted, re.findall(r"^\| `(\w+)` \| (\d+) \| (.*?) \|", read("docs/C.md"), re.M))
pairs = [(name, number) for name, number, _ in wanted]


def constants(module):
    """The constants of a module of hyssop.rs."""
    body = re.search(rf"pub mod {module} {{\n(.*?)\n}}\n", rust, re.S)[1]
    return re.findall(r"^    pub const (\w+): u\d+ = (\w+);$", body, re.M)


compare("hyssop.rs", "fault", pairs, constants("fault"))
for module in ("memory", "space", "access", "update", "op"):
    wanted = re.findall(rf"\bHYSSOP_{module.upper()}_(\w+) = (\w+)", header)
    compare("hyssop.rs", f"constant of `{module}`", wanted, constants(module))

version = re.search(r"pub fn version\(\)[^{]*{ [^}]*}\s*{\s*(\d+)\s*}", read(f"{RUN}/names.rt"))[1]
if f"#define HYSSOP_VERSION {version}\n" not in header:
    differs(f"HYSSOP_VERSION of hyssop.h isn't {version}")
if f"pub const VERSION: u32 = {version};" not in rust:
    differs(f"VERSION of hyssop.rs isn't {version}")
if len(exports) < 40 or len(rows) < 70:
    differs("the source has fewer functions or faults than it had")
sys.exit(status)

#!/usr/bin/env python3
"""Writes the tables of fields for the C tests and for Rust, and checks the header's list.

Usage: tools/fields.py [--check]     (in the repository's root)

From the enums of docs/src/src/vmx/vmcs.rs but VmcsControl16: the encoding, the width in bytes and whether the field is read-only come from the
enum's name and members, the offset from document 01's order by width and then by encoding. Written are tests/c/fields.h and rust/src/fields.rs; the
latter also has the fields that setup writes, from VCPU_SETUP_FIELDS of include/x86_vcpu.h, whose names must be those of the encodings. With --check
nothing is written, and the exit status is 1 where a file differs from what would be written.
"""
import re
import sys

STARTS = {"16": (138, 2), "32": (172, 4), "64": (372, 8), "NW": (700, 8)}


def members():
    """The fields by enum: (encoding, name), ascending; the enums by their first encoding."""
    source = open("docs/src/src/vmx/vmcs.rs").read()
    enums = {}
    for enum, body in re.findall(r"pub enum (Vmcs(?:Control|ReadOnly|Guest|Host)(?:16|64|32|NW)) \{(.*?)\n\}", source, re.S):
        if enum != "VmcsControl16":
            enums[enum] = sorted((int(x, 16), name) for name, x in re.findall(r"(\w+) = (0x[0-9A-Fa-f]+),", body))
    assert sum(map(len, enums.values())) == 154
    return dict(sorted(enums.items(), key=lambda item: item[1]))


def c_table(enums):
    text = "/* Written by tools/fields.py: encoding, width in bytes, read-only, offset in the record. */\n"
    text += "static const struct {\n    uint64_t encoding;\n    unsigned width, read_only, offset;\n} fields[] = {\n"
    for width, (start, size) in STARTS.items():
        group = sorted((x, "ReadOnly" in enum) for enum, fields in enums.items() if enum.endswith(width) for x, _ in fields)
        for place, (x, read_only) in enumerate(group):
            text += "    {0x%04X, %d, %d, %d},\n" % (x, size, read_only, start + place * size)
    return text + "};\n"


def setup_fields(enums):
    """The header's list, each with the name and the encoding of one field, ascending."""
    header = open("include/x86_vcpu.h").read()
    listed = [(int(x, 16), enum, name) for enum, name, x in re.findall(r"^    F\((\w+), (\w+), (0x[0-9A-F]+)\)", header, re.M)]
    assert listed == sorted(listed), "VCPU_SETUP_FIELDS does not ascend"
    for x, enum, name in listed:
        assert (x, name) in enums[enum], "VCPU_SETUP_FIELDS: %s::%s is not 0x%04X" % (enum, name, x)
    return listed


def rust_list(name, comment, fields):
    rows = "".join("        %s::%s,\n" % (enum, field) for _, enum, field in fields)
    return "    /// %s\n    pub const %s: [Field; %d] = [\n%s    ];\n" % (comment, name, len(fields), rows)


def rust_names(enums):
    """The constants of each enum's name, and the two lists."""
    text = "//! Written by tools/fields.py: the fields of the VMCS, by the names that they have in the enums of vmcs.rs of `x86_vcpu`.\n"
    text += "\nuse crate::Field;\n\nimpl Field {\n"
    text += rust_list("ALL", "All 154 fields, ascending.", sorted((x, enum, name) for enum, fields in enums.items() for x, name in fields))
    text += "\n" + rust_list("SETUP", "The fields that setup writes, ascending: the host writes each to the processor after [`crate::Session::setup`].", setup_fields(enums))
    text += "}\n"
    for enum, fields in enums.items():
        kind, width = re.match(r"Vmcs(\w+?)(16|64|32|NW)$", enum).groups()
        what = {"Control": "Controls", "ReadOnly": "Exit information, read-only", "Guest": "The guest's state", "Host": "The host's state"}[kind]
        text += "\n/// %s, %s.\npub struct %s;\n\nimpl %s {\n" % (what, "natural width" if width == "NW" else width + " bits", enum, enum)
        text += "".join("    pub const %s: Field = Field(0x%04X);\n" % (name, x) for x, name in fields) + "}\n"
    return text


enums = members()
files = {"tests/c/fields.h": c_table(enums), "rust/src/fields.rs": rust_names(enums)}
if sys.argv[1:] == ["--check"]:
    stale = [path for path, text in files.items() if open(path).read() != text]
    for path in stale:
        print("%s: not what tools/fields.py writes" % path)
    sys.exit(1 if stale else 0)
for path, text in files.items():
    open(path, "w").write(text)

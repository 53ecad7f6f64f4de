"""Read the field enums of vmcs.rs; write the table of fields and the accessors by encoding.

usage: fields.py vmcs.rs fields.tsv fields.rs
"""

import re
import sys

source, table_path, rust_path = sys.argv[1:]
text = open(source).read()

enums = {}
for name, body in re.findall(r"pub enum (Vmcs\w+) \{(.*?)\n\}", text, re.S):
    enums[name] = [(int(v, 16), n) for n, v in re.findall(r"^\s*(\w+) = (0x[0-9A-Fa-f]+),", body, re.M)]
types = dict()
writable = dict()
for access, name, ty in re.findall(r"define_vmcs_fields_(ro|rw)!\((\w+), (\w+)\);", text):
    types[name] = ty
    writable[name] = access == "rw"
assert set(types) == set(enums)

rows = sorted((value, enum, field) for enum, fields in enums.items() for value, field in fields)
widths = {"u16": 0, "u64": 1, "u32": 2, "usize": 3}
kind_names = ["control", "read-only", "guest", "host"]
for value, enum, field in rows:
    assert value % 2 == 0, hex(value)
    assert (value >> 13) & 3 == widths[types[enum]], hex(value)
    assert ((value >> 10) & 3 == 1) == (not writable[enum]), hex(value)
    assert value & ~0x6FFE == 0 and value & 0x9000 == 0 and value < 0x8000
assert all(a[0] < b[0] for a, b in zip(rows, rows[1:])), "not strictly ascending"

with open(table_path, "w") as out:
    out.write("index\tencoding\tenum\tname\twidth\twidth bits\tkind\tkind name\twritable\ttable index\n")
    left_out = 0
    for index, (value, enum, field) in enumerate(rows):
        # Document 01's table has 154: all but the three of VmcsControl16 (docs/DIFFERENCES.md).
        left_out += enum == "VmcsControl16"
        place = "-" if enum == "VmcsControl16" else index - left_out
        width = (value >> 13) & 3
        kind = (value >> 10) & 3
        bits = [16, 64, 32, 64][width]
        out.write(f"{index}\t{value:#06x}\t{enum}\t{field}\t{width}\t{bits}\t{kind}\t{kind_names[kind]}\t{int(writable[enum])}\t{place}\n")

with open(rust_path, "w") as out:
    out.write("// Written by tools/fields.py from vmcs.rs: the listed fields by ascending encoding.\n\n")
    out.write("use crate::vmx::vmcs::*;\nuse axerrno::AxResult;\n\n")
    out.write(f"/// Encoding and name.\npub const FIELDS: [(u32, &str); {len(rows)}] = [\n")
    for value, enum, field in rows:
        out.write(f'    ({enum}::{field} as u32, "{enum}::{field}"),\n')
    out.write("];\n\n")
    out.write("/// Read by the original's accessor.\npub fn read(encoding: u32) -> Option<AxResult<u64>> {\n    Some(match encoding {\n")
    for value, enum, field in rows:
        out.write(f"        {value:#06x} => {enum}::{field}.read().map(|v| v as u64),\n")
    out.write("        _ => return None,\n    })\n}\n\n")
    out.write("""/// What becomes of a write by encoding.
pub enum Write {
    NoField,
    /// The enum has no `write`.
    ReadOnly,
    /// The number does not fit the type that `write` takes.
    TooWide,
    Done(AxResult),
}

/// Write by the original's accessor.
pub fn write(encoding: u32, value: u64) -> Write {
    match encoding {
""")
    for value, enum, field in rows:
        if writable[enum]:
            out.write(f"        {value:#06x} => match value.try_into() {{\n")
            out.write(f"            Ok(value) => Write::Done({enum}::{field}.write(value)),\n")
            out.write("            Err(_) => Write::TooWide,\n        },\n")
        else:
            out.write(f"        {value:#06x} => Write::ReadOnly,\n")
    out.write("        _ => Write::NoField,\n    }\n}\n")

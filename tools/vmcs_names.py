#!/usr/bin/env python3
"""Writes the names and the table of the VMCS fields from the enums of docs/src/src/vmx/vmcs.rs.

Usage: tools/vmcs_names.py [--check]     (in the repository's root)

Every enum but VmcsControl16 is carried over, 154 fields. Written are crates/vmcs/src/names.rt (places in code),
crates/vmcs/src/table.rt (the encodings, and where each width and kind starts), crates/vmcs/specs/Names/*.antt (names in definitions) and
crates/vmcs/specs/Named.antt (kind, name and encoding). With --check nothing is written, and the exit status is 1
where a file differs from what would be written.
"""
import re
import sys

from generated import packed, write_or_check

ROOT = "crates/vmcs/"
KINDS = {0: "control", 1: "read_only", 2: "guest", 3: "host"}
WIDTHS = {0: "Word16", 1: "Word64", 2: "Word32", 3: "Natural"}

source = open("docs/src/src/vmx/vmcs.rs").read()
fields = []
for enum, body in re.findall(r"pub enum (Vmcs\w+) \{(.*?)\n\}", source, re.S):
    if enum != "VmcsControl16":
        fields += [(int(x, 16), enum, name) for name, x in re.findall(r"(\w+) = (0x[0-9A-Fa-f]+),", body)]
fields.sort()
assert len(fields) == 154

places, count = {}, {}
enums = {}
for x, enum, name in fields:
    width = x >> 13 & 3
    places[x] = count.get(width, 0)
    count[width] = places[x] + 1
    enums.setdefault(enum, []).append((x, name))

out = {}

PORTED = "// Ported from the enums of x86_vcpu src/vmx/vmcs.rs (Copyright 2025 The Axvisor Team, Apache-2.0). Changed: %s\n"
text = "// The fields by their names in vmcs.rs. A value is the field's place in the array of its width.\n"
text += PORTED % "a name is a place and not an encoding, and VmcsControl16 is left out."
for enum, members in enums.items():
    consts = "\n".join("    pub const %s: usize = %d;\n" % (name, places[x]) for x, name in members)
    text += "\n#[derive(Drop)]\npub struct %s {}\n\nimpl %s {\n%s}\n" % (enum, enum, consts)
out["src/names.rt"] = text

text = "// The table of fields: the encodings of the enums of vmcs.rs but VmcsControl16, ascending.\n"
text += PORTED % "the encodings are one table, and VmcsControl16 is left out."
text += """ghost use Rattle.std.specs.Prelude.{◌≡◌};
ghost use Rattle.vmcs.specs.Lookup.{start_of, count_of};
ghost use Rattle.vmcs.specs.Named.{encodings, places_named};

"""
text += "use crate::names::{\n" + packed(sorted(enums)) + "};\n"
text += "\npub const ENCODINGS: [u64; 154] = [\n" + packed("0x%04X" % x for x, _, _ in fields) + "];\n"
text += """
// The table by value.
pub fn table() -> [u64; 154]
    ensures { result ≡ encodings }
{
    ENCODINGS
}
"""
starts, counts = [0] * 32, [0] * 32
for place, (x, _, _) in enumerate(fields):
    group = x >> 10
    if x & 0x3FF == 0:
        starts[group] = place
    if x & 0x3FF == 2 * counts[group]:
        counts[group] += 1
for name, numbers, comment in (
    ("start", starts, "The place of the first field of a width and kind, by bits 10 to 14 of the encoding; 0 where there is none."),
    ("count", counts, "How many fields a width and kind has, up to the first index that no field has."),
):
    arms = "".join("        %d => %d,\n" % (group, n) for group, n in enumerate(numbers) if n)
    text += """
// %s
pub fn %s_of(group: u64) -> u64
    ensures { result ≡ %s_of group }
{
    match group {
%s        _ => 0,
    }
}
""" % (comment, name, name, arms)
text += """
const PLACES: [usize; 154] = [
"""
text += "".join("    %s::%s,\n" % (enum, name) for _, enum, name in fields) + "];\n"
text += """
// Every name of names.rt in the order of the table: the contract ties each to its encoding.
pub fn places() -> [usize; 154]
    ensures { result ≡ places_named }
{
    PLACES
}
"""
out["src/table.rt"] = text

for enum, members in enums.items():
    width = WIDTHS[members[0][0] >> 13 & 3]
    text = "-- The fields of %s: each with its place in the array of its width. Assumes nothing.\n" % enum
    text += "use Rattle.vmcs.specs.Field.{Field, %s}\n" % width
    text += "".join("\nabbrev pub %s : Field\n%s = %s %d\n" % (n, n, width, places[x]) for x, n in members)
    out["specs/Names/%s.antt" % enum] = text
out["specs/Names.antt"] = "".join("pub mod %s\n" % e for e in enums)

text = """-- Each field's kind, name and encoding (SDM 3D, appendix B), ascending. Assumes nothing.
use Rattle.std.specs.Prelude.{ℕ, List, [], ◌∷◌, map}
use Rattle.vmcs.specs.Field.{Field, place_of}
"""
text += "".join("use Rattle.vmcs.specs.Names.%s as %s\n" % (e, e) for e in enums)
text += """
pub record Named : Type 0 where
  pub kind : ℕ
  pub field : Field
  pub encoding : ℕ
"""
for number, kind in KINDS.items():
    text += "\nabbrev %s : Field → ℕ → Named\n%s f e = record { kind = %d; field = f; encoding = e }\n" % (kind, kind, number)
text += "\nunfoldable pub named : List Named\nnamed =\n    "
text += "\n    ∷ ".join("%s %s.%s 0x%04X" % (KINDS[x >> 10 & 3], enum, name, x) for x, enum, name in fields)
text += """
    ∷ []

-- the encodings
unfoldable pub encodings : List ℕ
encodings = map (λ (n : Named). n.encoding) named

-- the places of all names, in the order of the table
unfoldable pub places_named : List ℕ
places_named = map (λ (n : Named). place_of n.field) named
"""
out["specs/Named.antt"] = text

sys.exit(write_or_check(out, ROOT))

#!/usr/bin/env python3
"""What the program `tables` must print: usage tools/manual_tables.py > crates/tables/stdout (in the repository's root).

Vectors: the types of document 01, "Events", and of document 02, N7, as a list written out here. Fields: those of the manual (tools/sdm.py) but the 16-bit control
fields, which document 01's table leaves out, with kind (control 0, read-only 1, guest 2, host 3), width, and place among the fields of its width
in ascending order, and how many they are. Exit reasons: those of the manual. Nothing is read from the Rust.
"""
import collections
import sdm

CODES = {8, 10, 11, 12, 13, 14, 17, 21}
TYPES = {2: 2, 3: 6, 4: 6}
for vector in range(256):
    number = TYPES.get(vector, 3 if vector <= 21 else 7 if vector <= 31 else 0)
    print(vector, number, int(vector in CODES), int(number in (4, 5, 6)))

fields = [f for f in sorted(sdm.fields()) if f[1:3] != (sdm.CONTROL, 16)]
seen = collections.Counter()
for encoding, kind, width, *_ in fields:
    group = encoding >> 13  # the width by the encoding: natural width and 64 bits are two groups
    print("%04x" % encoding, kind, width, seen[group])
    seen[group] += 1
print(len(fields), "encodings are read")
for number, *_ in sorted(sdm.EXIT_REASONS):
    print("reason", number)

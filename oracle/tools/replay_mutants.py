"""Whether a list of the program `trace` can tell mutants of the model in replay.py from the Rust.

usage: trace 600 9 > LIST && python3 replay_mutants.py LIST

Four likely mutants are not here, since nothing in the comparable domain tells them apart: another old secondary word (it
is allowed-0 of its own pair, so none of its bits is flexible), the pair test inside the control-word rule after setup's,
the test of entry bit 9 before the rule that makes it too, and the last port 65,535 (beyond the Rust's 1,024 bytes).
"""

import subprocess
import sys
from pathlib import Path

MUTANTS = [
    ("& ~set_bits & ~clear)", ")"),
    ("return 5", "return 3"),
    ("return 7 if vector <= 31", "return 7 if vector <= 32"),
    ("0x8 * rdtscp", "0"),
    ("0x1000 * invpcid", "0"),
    ("0x100000 * xsaves", "0"),
    ("0x92000000,", "0x92000004,"),
    ("clears = [0, 0x198000", "clears = [0, 0x198004"),
    ("fixed1 & ~(NW | CD)", "fixed1"),
    ("fixed0 & ~(PG | PE)", "fixed0"),
    ("value |= 1 << 13", "pass"),
    ("0x4004: 0x40", "0x4004: 0"),
    ("0x482E: 1000000", "0x482E: 0"),
    ("root & ~0xFFF | 0x5E", "root & ~0xFFF | 0x1E"),
    ("[0xE1, *range(0x800, 0x840)]", "[*range(0x800, 0x840)]"),
    ("2 * write + high", "write + 2 * high"),
    ("msr <= 0x1FFF", "msr < 0x1FFF"),
    ("index == 4 or ", ""),
    ("if not self.launched:\n            self.put(0x6C14, stack)", "if True:\n            self.put(0x6C14, stack)"),
    ("vector >= 32 and", "vector >= 31 and"),
    ("or self.get(BLOCKED) != 0", ""),
    ("self.put(PRIMARY, self.get(PRIMARY) | 4)", "pass"),
    ("self.queue.pop(0)\n", "self.queue.pop()\n"),
    ("self.get(CODE) if code is None else code", "0 if code is None else code"),
    ("in (4, 5, 6)", "in (4, 6)"),
    ("self.put(EVENT_LENGTH, self.get(LENGTH))", "self.put(EVENT_LENGTH, self.get(LENGTH) & 255)"),
    ("number in (35, 38, 42)", "number in (35, 38)"),
    ("if failed:\n            self.put(REASON, reason)", "if failed:\n            self.put(EVENT, 0)\n            self.put(REASON, reason)"),
    ("refuse_if(number == 1 and (not info >> 31", "refuse_if(number == 1 and (False"),
    ("access != 0 or", ""),
    ("cr not in (0, 4)", "cr not in (0, 3, 4)"),
    ("rcx & M32 != 0, 20", "rcx != 0, 20"),
    ("x87 == 1\n        and ", ""),
    ("        and not (avx and not sse)\n", ""),
    ("not (avx and not sse)", "not (sse and not avx)"),
    ("        and bndreg == bndcsr\n", ""),
    ("        and len(avx512) == 1\n", ""),
    ("        and not (avx512 == {1} and not avx)\n", ""),
    ("        and tilecfg == tiledata\n", ""),
    ("        and value | supported == supported\n", ""),
    ("55: 3,", "55: length & 255,"),
    ("self.xcr0 = pair\n", "pass\n"),
    ("xcr0_allowed(self.supported, pair), 19", "xcr0_allowed(self.supported, rax), 19"),
    ("0x800 <= rcx & M32 <= 0x8FF", "0x800 <= rcx <= 0x8FF"),
    ("0x800 <= rcx & M32 <= 0x8FF", "0x800 <= rcx & M32 <= 0x83F"),
    ("18: length & 255", "18: length"),
    ("30: length & 255", "30: 0 if qualification & 0x30 else length & 255"),
    ("28: 3,", "28: 2,"),
    ("10: 2,", "10: length & 255,"),
    ("state[1] if gpr == 4 else registers[gpr]", "registers[gpr]"),
    ("efer & 0x500 != 0x500", "efer & 0x400 == 0"),
    ("efer & 0x500 != 0x500", "efer & 0x500 == 0x100"),
    ("[self.registers[4]] + registers[5:]", "registers[4:]"),
    ("self.put(EVENT, self.get(EVENT) & 0x7FFFFFFF)", "pass"),
    ("efer & 0xFD01 | 0x400", "efer | 0x400"),
    ("self.get(ENTRY), 0x200, 0", "0, 0x200, 0"),
    ("low = lambda x: x & M32", "low = lambda x: x"),
    ("(0, 7, 6, 2, 1, 8, 9)", "(0, 7, 6, 2, 1, 9, 8)"),
    ("qualification & 0x30 or", "qualification & 0x10 or"),
    ("size not in (1, 2, 4)", "size not in (1, 2, 3, 4)"),
    ("size == 2 and rax", "rax"),
    ("rax == 0x2000", "rax & 0xFFFF == 0x2000"),
    ("a &= ~0x80", "d &= ~0x80"),
    ("leaf == 7 and rcx == 0", "leaf == 7 and rcx & M32 == 0"),
    ("leaf == 0x16 and a == 0", "False"),
    ("value & M32, value >> 32", "self.registers[0] >> 32 << 32 | value & M32, value >> 32"),
    ("nxe = False if level == 2 else", "nxe ="),
    ("if level == 2 else True", ""),
    ("4 if efer & 0x400 else 3", "4"),
    ("self.mode(efer) == \"3\"", "False"),
]

here = Path(__file__).parent
source = (here / "replay.py").read_text()
data = open(sys.argv[1], "rb").read()
survivors = 0
for old, new in MUTANTS:
    assert source.count(old) == 1, (old, source.count(old))
    run = subprocess.run([sys.executable, "-c", source.replace(old, new)], input=data, capture_output=True)
    if run.returncode == 0:
        survivors += 1
        print("survives:", old, "->", new)
print(f"{len(MUTANTS)} mutants, {survivors} survive")

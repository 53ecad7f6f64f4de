"""Replays a list of the program `trace` on a model of document 01, written apart from the Rust and from the port.

usage: trace 1000 1 | python3 replay.py

It shows that document 01 and the Rust agree in the comparable domain. A difference is printed with its line number; the
exit status is then 1. Of XSETBV the model follows document 02 (N1) and the Rust does not: no trace has it, and the
model is tried on document 02's edges instead. Of vectors 1 and 21, and of codes while CR0.PE is clear, it has document 01's
words, which are the Rust's; the port follows document 02 there (N7), and this list is not about the port.
"""

import sys

M32 = 2**32 - 1
M64 = 2**64 - 1


class Refused(Exception):
    def __init__(self, number):
        self.number = number


def refuse_if(condition, number):
    if condition:
        raise Refused(number)


def control_word(pair, old, set_bits, clear):
    allowed0, allowed1 = pair & M32, pair >> 32
    refuse_if(allowed0 & ~allowed1, 6)
    refuse_if(set_bits & clear, 7)
    refuse_if(set_bits & ~allowed1, 8)
    refuse_if(clear & allowed0, 9)
    flexible = allowed1 & ~allowed0
    return allowed0 | set_bits | (old & flexible & ~set_bits & ~clear)


def event_type(vector):
    if vector == 1:
        return 5
    if vector == 2:
        return 2
    if vector in (3, 4):
        return 6
    if vector <= 20:
        return 3
    return 7 if vector <= 31 else 0


PIN, PRIMARY, SECONDARY, EXIT, ENTRY = 0x4000, 0x4002, 0x401E, 0x400C, 0x4012
EVENT, EVENT_CODE, EVENT_LENGTH = 0x4016, 0x4018, 0x401A
REASON, INFO, CODE, LENGTH, QUALIFICATION = 0x4402, 0x4404, 0x4406, 0x440C, 0x6400
CR0, CR3, CR4, EFER, RIP, RSP, RFLAGS, BLOCKED = 0x6800, 0x6802, 0x6804, 0x2806, 0x681E, 0x681C, 0x6820, 0x4824
CS_BASE, CS_RIGHTS, SS_RIGHTS = 0x6808, 0x4816, 0x4818
PG, PE, NW, CD = 1 << 31, 1, 1 << 29, 1 << 30


def xcr0_allowed(supported, value):
    """Document 02's rule, (a) to (g)."""
    has = lambda *bits: [value >> bit & 1 for bit in bits]
    x87, sse, avx, bndreg, bndcsr, opmask, zmm_hi256, hi16_zmm = has(*range(8))
    tilecfg, tiledata = has(17, 18)
    avx512 = {opmask, zmm_hi256, hi16_zmm}
    return (
        x87 == 1
        and not (avx and not sse)
        and bndreg == bndcsr
        and len(avx512) == 1
        and not (avx512 == {1} and not avx)
        and tilecfg == tiledata
        and value | supported == supported
    )


class Session:
    def __init__(self):
        self.fields = {}
        self.xcr0 = self.supported = 0
        self.registers = [0] * 16
        self.queue = []
        self.frames = {"a": bytearray(4096), "b": bytearray(4096), "m": bytearray(4096)}
        self.launched = False

    def get(self, encoding):
        return self.fields.get(encoding, 0)

    def put(self, encoding, value):
        self.fields[encoding] = value

    # Setup

    def setup(self, n):
        host, entry, root, frames = n[:18], n[18], n[19], n[20:23]
        pairs, plain, fixed = n[23:28], n[28:32], n[32:36]
        guest_pat, supported, rdtscp, invpcid, xsaves = n[36:]
        for pair in pairs:
            refuse_if(pair & M32 & ~(pair >> 32), 6)
        refuse_if(fixed[0] & ~fixed[1] or fixed[2] & ~fixed[3], 6)
        self.pairs, self.fixed = pairs, fixed
        self.xcr0, self.supported = 1, supported
        secondary = 0x82 | 0x8 * rdtscp | 0x1000 * invpcid | 0x100000 * xsaves
        olds = [plain[0], plain[1], pairs[2], plain[2], plain[3]]
        sets = [0x9, 0x92000000, secondary, 0x3C8200, 0xC000]
        clears = [0, 0x198000, 0, 0, 0]
        for encoding, pair, old, s, c in zip([PIN, PRIMARY, SECONDARY, EXIT, ENTRY], pairs, olds, sets, clears):
            self.put(encoding, control_word(pair, old & M32, s, c))
        host_fields = [0x2C00, 0x2C02, 0x6C00, 0x6C02, 0x6C04, 0xC00, 0xC02, 0xC04, 0xC06, 0xC08, 0xC0A,
                       0x6C06, 0x6C08, 0xC0C, 0x6C0A, 0x6C0C, 0x6C0E, 0x6C16]
        for encoding, value in zip(host_fields, host):
            self.put(encoding, value)
        for encoding in (0x6C10, 0x6C12, 0x4C00):
            self.put(encoding, 0)
        self.set_cr0(NW | CD | 1 << 4)
        self.set_cr4(0)
        rights = [0x93, 0x9B, 0x93, 0x93, 0x93, 0x93, 0x82, 0x8B]  # ES CS SS DS FS GS LDTR TR
        for i, right in enumerate(rights):
            self.put(0x800 + 2 * i, 0)
            self.put(0x6806 + 2 * i, 0)
            self.put(0x4800 + 2 * i, 0xFFFF)
            self.put(0x4814 + 2 * i, right)
        for encoding, value in {
            0x6816: 0, 0x4810: 0xFFFF, 0x6818: 0, 0x4812: 0xFFFF, CR3: 0, 0x681A: 0x400, RSP: 0, RIP: entry,
            RFLAGS: 2, 0x6822: 0, 0x6824: 0, 0x6826: 0, 0x482A: 0, BLOCKED: 0, 0x4826: 0, 0x482E: 1000000,
            0x2800: M64, 0x2802: 0, 0x2804: guest_pat, EFER: 0, 0x201A: root & ~0xFFF | 0x5E,
            0x400E: 0, 0x4010: 0, 0x4014: 0, 0x400A: 0, 0x4004: 0x40,
            0x2000: frames[0], 0x2002: frames[1], 0x2004: frames[2],
        }.items():
            self.put(encoding, value)
        self.port(0x604, 1, 1)
        for msr in [0xE1, *range(0x800, 0x840)]:
            self.msr(msr, 0, 1)
            self.msr(msr, 1, 1)
        return "ok"

    def set_cr0(self, value):
        fixed0, fixed1 = self.fixed[:2]
        allowed, demanded = fixed1 & ~(NW | CD), fixed0 & ~(PG | PE)
        self.put(CR0, value & allowed | demanded)
        self.put(0x6004, value)
        self.put(0x6000, demanded | ~allowed & M64)

    def set_cr4(self, value):
        fixed0, fixed1 = self.fixed[2:]
        value |= 1 << 13
        self.put(CR4, value & fixed1 | fixed0)
        self.put(0x6006, value)
        self.put(0x6002, fixed0 | ~fixed1 & M64)

    # Bitmaps, registers, fields

    def port(self, port, count, on):
        refuse_if(count > 0 and port + count - 1 > 65535, 10)
        for p in range(port, port + count):
            frame, p = ("a", p) if p < 0x8000 else ("b", p - 0x8000)
            self.mark(frame, p // 8, p % 8, on)
        return "ok"

    def msr(self, msr, write, on):
        low, high = msr <= 0x1FFF, 0xC0000000 <= msr <= 0xC0001FFF
        refuse_if(not low and not high, 11)
        index = msr & 0x1FFF
        self.mark("m", 1024 * (2 * write + high) + index // 8, index % 8, on)
        return "ok"

    def mark(self, frame, byte, bit, on):
        if on:
            self.frames[frame][byte] |= 1 << bit
        else:
            self.frames[frame][byte] &= ~(1 << bit)

    def setreg(self, index, value):
        refuse_if(index == 4 or index > 15, 23)
        self.registers[index] = value
        return "ok"

    def write(self, encoding, value):
        refuse_if(encoding >> 10 & 3 == 1, 4)
        refuse_if(value >> [16, 64, 32, 64][encoding >> 13 & 3], 5)
        self.put(encoding, value)
        return "ok"

    # Queue and entry

    def queue_event(self, vector, code):
        self.queue.append((vector, code))
        return "ok"

    def inject(self, vector):
        refuse_if(vector == 0 or vector > 255, 12)
        return self.queue_event(vector, None)

    def enter(self, stack):
        answer = "resume" if self.launched else "launch"
        if not self.launched:
            self.put(0x6C14, stack)
            self.launched = True
        if not self.queue:
            return answer + " none"
        vector, code = self.queue[0]
        if vector >= 32 and (not self.get(RFLAGS) & 0x200 or self.get(BLOCKED) != 0):
            self.put(PRIMARY, self.get(PRIMARY) | 4)
            return answer + " held"
        self.queue.pop(0)
        word = 1 << 31 | event_type(vector) << 8 | vector
        if vector in (8, 10, 11, 12, 13, 14, 17):
            word |= 1 << 11
            self.put(EVENT_CODE, self.get(CODE) if code is None else code)
        if event_type(vector) in (4, 5, 6):
            self.put(EVENT_LENGTH, self.get(LENGTH))
        self.put(EVENT, word)
        return answer + " written"

    # Exit

    def report(self, n):
        registers, state, reason, qualification = n[:16], n[16:27], n[27], n[28]
        length, info, code = n[29:32]
        cpuid = n[32:36]
        number, failed = reason & 0xFFFF, reason >> 31 == 1
        rax, rcx, rdx = registers[:3]
        refuse_if(number > 64 or number in (35, 38, 42) or failed and number not in (33, 34, 41), 14)
        if failed:
            self.put(REASON, reason)
            self.put(QUALIFICATION, qualification)
            return "FailEntry"
        rip, cr0, cr4 = state[0], state[4], state[6]
        refuse_if((cr0 ^ self.get(CR0)) & self.get(0x6000) or (cr4 ^ self.get(CR4)) & self.get(0x6002), 15)
        refuse_if(number == 1 and (not info >> 31 or info >> 8 & 7 == 1), 16)
        cr, access, gpr = qualification & 15, qualification >> 4 & 3, qualification >> 8 & 15
        refuse_if(number == 28 and (access != 0 or cr not in (0, 4)), 18)
        low = lambda x: x & M32
        pair = low(rdx) << 32 | low(rax)
        refuse_if(number == 55 and rcx & M32 != 0, 20)
        refuse_if(number == 55 and not xcr0_allowed(self.supported, pair), 19)
        refuse_if(number == 44, 21)
        apic = number in (31, 32) and 0x800 <= rcx & M32 <= 0x8FF
        advance = {10: 2, 28: 3, 55: 3, 18: length & 255, 30: length & 255}.get(number, 2 if apic else 0)
        refuse_if(rip + advance > M64, 17)
        value = state[1] if gpr == 4 else registers[gpr]
        efer = state[7]
        long_mode = number == 28 and cr == 0 and value & PG and efer & 0x500 != 0x500
        refuse_if(long_mode and not self.pairs[4] >> 32 & 0x200, 8)

        self.registers = registers[:4] + [self.registers[4]] + registers[5:]
        for encoding, word in zip([RIP, RSP, RFLAGS, BLOCKED, CR0, CR3, CR4, EFER, CS_BASE, CS_RIGHTS, SS_RIGHTS], state):
            self.put(encoding, word)
        for encoding, word in zip([REASON, QUALIFICATION, LENGTH, INFO, CODE], [reason, qualification, length, info, code]):
            self.put(encoding, word)
        self.put(EVENT, self.get(EVENT) & 0x7FFFFFFF)
        self.put(RIP, rip + advance)
        if number == 55:
            self.xcr0 = pair
            return "Nothing"
        if number == 7:
            self.put(PRIMARY, self.get(PRIMARY) & ~4)
            return "Nothing"
        if number == 52:
            self.put(0x482E, 1000000)
            return "Nothing"
        if number == 10:
            a, b, c, d = self.cpuid(low(rax), rcx, cpuid)
            self.registers[0], self.registers[3], self.registers[1], self.registers[2] = a, b, c, d
            return "Nothing"
        if number == 28:
            (self.set_cr0 if cr == 0 else self.set_cr4)(value)
            if long_mode:
                self.put(EFER, efer & 0xFD01 | 0x400)
                self.put(ENTRY, control_word(self.pairs[4], self.get(ENTRY), 0x200, 0))
            return "Nothing"
        if apic:
            return f"ApicRead {low(rcx):x}" if number == 31 else f"ApicWrite {low(rcx):x} {pair:x}"
        if number == 31:
            return f"SysRegRead {rcx:x}"
        if number == 32:
            return f"SysRegWrite {rcx:x} {pair:x}"
        if number == 1:
            return f"ExternalInterrupt {info & 255:x}"
        if number == 18:
            args = [registers[i] for i in (0, 7, 6, 2, 1, 8, 9)]
            return "Hypercall " + " ".join(f"{x:x}" for x in args)
        if number == 30:
            size, port = (qualification & 7) + 1, qualification >> 16 & 0xFFFF
            if qualification & 0x30 or size not in (1, 2, 4):
                return "Halt"
            if qualification & 8:
                return f"IoRead {port:x} {size:x}"
            if port == 0x604 and size == 2 and rax == 0x2000:
                return "SystemDown"
            return f"IoWrite {port:x} {size:x} {rax & (1 << 8 * size) - 1:x}"
        return "Halt"

    def cpuid(self, leaf, rcx, words):
        a, b, c, d = words
        if leaf == 1:
            a &= ~0x80
            c = c & ~0x20 | 1 << 31
        elif leaf == 7 and rcx == 0:
            c &= ~(1 << 5 | 1 << 16)
        elif leaf == 0x16 and a == 0:
            a = 3000
        elif leaf == 0x40000000:
            a, b, c, d = 0x40000001, 0x524D5652, 0x56524D56, 0x4D56524D
        elif leaf == 0x40000001:
            a = b = c = d = 0
        return a, b, c, d

    def apic(self, value):
        self.registers[0], self.registers[2] = value & M32, value >> 32
        return "ok"

    # Readings

    def mode(self, efer):
        if efer & 0x400:
            return "3" if self.get(CS_RIGHTS) & 0x2000 else "2"
        return "1" if self.get(CR0) & PE else "0"

    def gla2gva(self, efer, address):
        base = 0 if self.mode(efer) == "3" else self.get(CS_BASE)
        refuse_if(address + base > M64, 17)
        return f"{address + base:x}"

    def walk(self):
        cr0, cr4, efer = self.get(CR0), self.get(CR4), self.get(EFER)
        level = 0
        if cr0 & PG:
            level = 2 if not cr4 & 0x20 else 4 if efer & 0x400 else 3
        width = {4: 9, 3: 9, 2: 10, 0: 0}[level]
        pse = cr4 & 0x10 != 0 if level == 2 else True
        nxe = False if level == 2 else efer & 0x800 != 0
        flags = [self.get(SS_RIGHTS) >> 5 & 3 == 3, False, False, pse, cr0 & 0x10000 != 0, nxe, cr4 >> 21 & 1, cr4 >> 20 & 1]
        return "walk " + " ".join(f"{int(x):x}" for x in [self.get(CR3), level, width, *flags])


def call(session, words):
    name = words[0]
    if name == "queue":
        return session.queue_event(int(words[1], 16), None if words[2] == "-" else int(words[2], 16))
    numbers = [int(w, 16) for w in words[1:]]
    if name in ("setup", "report"):
        return getattr(session, name)(numbers)
    return getattr(session, name)(*numbers)


def copy(session):
    new = Session()
    new.__dict__.update(session.__dict__)
    new.fields = dict(session.fields)
    new.registers = list(session.registers)
    new.queue = list(session.queue)
    new.frames = {k: bytearray(v) for k, v in session.frames.items()}
    return new


# Document 02's edges of XSETBV: a supported word, the values that pass, and those that do not.
XCR0_EDGES = [
    (7, [1, 3, 7], [0, 2, 5, 6, 0xF, 0x201]),
    (0x1F, [0x19, 0x1F], [0x9, 0x11]),
    (0xE7, [0xE7], [0xE3, 0x27, 0xC7, 0xA7]),
    (0x60007, [0x60001], [0x20001, 0x40001]),
    (0x207, [0x201], []),
    (M64, [0x101, 1 << 63 | 1, M64], []),
    (6, [], [7, 1]),
    (0, [], [1]),
]
LAST_RIP = M64 - 3


def xsetbv(supported, value, rcx=0, high=0, rip=0x1000):
    """An XSETBV exit of a session with XCR0 1, of a reported length of 9: the number, and then XCR0 and RIP's advance."""
    session = Session()
    session.xcr0, session.supported, session.pairs = 1, supported, [0] * 5
    session.put(RIP, rip)
    registers = [value & M32 | high << 32, rcx, value >> 32 | high << 32] + [0] * 13
    try:
        answer = session.report(registers + [rip] + [0] * 10 + [55, 0, 9, 0, 0] + [0] * 4)
        return (0 if answer == "Nothing" else answer), session.xcr0, session.get(RIP) - rip
    except Refused as refused:
        return refused.number, session.xcr0, session.get(RIP) - rip


def wrong_edges():
    """The edges, and how many of them the model answers otherwise."""
    edges = []
    for supported, passing, refused in XCR0_EDGES:
        for high in (0, M32):
            edges += [(xsetbv(supported, value, high=high), (0, value, 3)) for value in passing]
            edges += [(xsetbv(supported, value, high=high), (19, 1, 0)) for value in refused]
    edges += [
        (xsetbv(7, 7, rcx=1 << 32), (0, 7, 3)),
        (xsetbv(7, 7, rcx=1), (20, 1, 0)),
        (xsetbv(7, 6, rcx=1), (20, 1, 0)),
        (xsetbv(7, 7, rip=LAST_RIP), (0, 7, 3)),
        (xsetbv(7, 7, rip=LAST_RIP + 1), (17, 1, 0)),
        (xsetbv(7, 6, rip=LAST_RIP + 1), (19, 1, 0)),
    ]
    wrong = [edge for edge in edges if edge[0] != edge[1]]
    for got, expected in wrong:
        print(f"XSETBV: model {got} | document 02 {expected}")
    print(f"{len(edges)} edges of XSETBV, {len(wrong)} differences")
    return len(wrong)


def main():
    wrong = wrong_edges()
    calls = sequences = 0
    model = oracle = None
    pending = None

    def settle():
        """Compare the state after the last call."""
        nonlocal wrong
        if pending is None:
            return
        line, text = pending
        for part in ("registers", "queue", "frames"):
            if getattr(model, part) != getattr(oracle, part):
                wrong += 1
                print(f"line {line}: {part} differ after {text}")
        for encoding in model.fields.keys() | oracle.fields.keys():
            if model.get(encoding) != oracle.get(encoding):
                wrong += 1
                print(f"line {line}: field {encoding:x} model {model.get(encoding):x} rust {oracle.get(encoding):x} after {text}")

    for line, text in enumerate(sys.stdin, 1):
        words = text.split()
        if words[0] == "~":
            kind = words[1]
            if kind == "q":
                split = [w.split(":") for w in words[2:]]
                oracle.queue = [(int(v, 16), None if c == "-" else int(c, 16)) for v, c in split]
            else:
                where, value = int(words[2], 16), int(words[3], 16)
                if kind == "f":
                    oracle.fields[where] = value
                elif kind == "r":
                    oracle.registers[where] = value
                else:
                    oracle.frames[kind][where] = value
        elif words[0] == "=":
            expected = " ".join(words[1:])
            trial = copy(model)
            try:
                answer = call(trial, pending[1].split())
                model = trial
            except Refused as refused:
                answer = f"refused {refused.number}"
            if answer != expected:
                wrong += 1
                print(f"line {line}: model {answer} | rust {expected} | {pending[1]}")
        else:
            settle()
            if words[0] == "new":
                sequences += 1
                model, oracle, pending = Session(), Session(), None
            else:
                calls += 1
                pending = (line, text.strip())
    settle()
    print(f"{sequences} sequences, {calls} calls, {wrong} differences")
    return wrong != 0


sys.exit(main())

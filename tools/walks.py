#!/usr/bin/env python3
"""What the program `walks` must print: usage tools/walks.py > crates/walks/stdout (in the repository's root).

The walk here is written from the manual's tables (SDM 3A, 4-4 to 4-20): a row for each kind of entry, with physical addresses of 52 bits, and the rules of request N6. The answers of the
request's worked cases are written out, and the walk must give them. Nothing of the port is read.

A line of many walks has a mark for each, in eights: `.` is the address that the line names, `=` that with the turned bit turned too, `^` that with the bit 19 above turned (PSE-36), `*` another;
`1` to `7` is the rule that fails at the level of the entry under test, `a` to `g` the same at another level; `R` is refusal 26. Where bits of CR3 or of the address are turned, a digit is the
level at which nothing is present.
"""
from collections import namedtuple

READ, WRITE, FETCH = range(3)
P, RW, US, PS, XD = 1, 2, 4, 0x80, 1 << 63
ALL = 2**64 - 1
MEMORY = 0x6000
RECORD = 1485
FLAGS = ("WP", "PSE", "SMEP", "SMAP", "NXE")


def bits(*spans):
    """The word with these bits: a number is one of them, a pair is a first and a last one."""
    word = 0
    for span in spans:
        first, last = span if isinstance(span, tuple) else (span, span)
        word |= (2 << last) - (1 << first)
    return word


# The index's first and last bit of the address; whether PS is judged, and of which kind an entry is then; reserved bits; whether bit 63 is reserved without NXE; whether it has rights.
Row = namedtuple("Row", "index page reserved xd rights")
TABLE, PAGE = False, True
ROWS = {
    # 32-bit paging: 4-4, 4-5, 4-6
    (2, 2, PAGE): Row((22, 31), 22, bits(21), False, True),
    (2, 2, TABLE): Row((22, 31), 0, 0, False, True),
    (2, 1, PAGE): Row((12, 21), 12, 0, False, True),
    # PAE paging: 4-8, 4-9, 4-10, 4-11
    (3, 3, TABLE): Row((30, 31), 0, bits(1, 2, (5, 8), (52, 63)), False, False),
    (3, 2, PAGE): Row((21, 29), 21, bits((13, 20), (52, 62)), True, True),
    (3, 2, TABLE): Row((21, 29), 0, bits((52, 62)), True, True),
    (3, 1, PAGE): Row((12, 20), 12, bits((52, 62)), True, True),
    # 4-level paging: 4-15, 4-16, 4-17, 4-18, 4-19, 4-20
    (4, 4, TABLE): Row((39, 47), 0, bits(7), True, True),
    (4, 3, PAGE): Row((30, 38), 30, bits((13, 29)), True, True),
    (4, 3, TABLE): Row((30, 38), 0, 0, True, True),
    (4, 2, PAGE): Row((21, 29), 21, bits((13, 20)), True, True),
    (4, 2, TABLE): Row((21, 29), 0, 0, True, True),
    (4, 1, PAGE): Row((12, 20), 12, 0, True, True),
}
TOPS = {4: bits((12, 51)), 3: bits((5, 31)), 2: bits((12, 31))}


def span(word, first, last):
    return (word & bits((first, last))) >> first


def row_of(levels, level, entry, flags):
    """The row of an entry: of two at one level bit 7 tells, with 2 levels if CR4.PSE is set."""
    both = (levels, level, PAGE) in ROWS and (levels, level, TABLE) in ROWS
    page = bool(entry & PS) and (levels != 2 or "PSE" in flags) if both else (levels, level, PAGE) in ROWS
    return ROWS[levels, level, page]


def first_broken(row, entry, access, flags, entries):
    """The number of the first rule that an entry breaks, or 0; `entries` are those met that have rights, this one among them."""
    user, nxe = "USER" in flags, "NXE" in flags
    opened = all(each & US for each in entries)
    rules = [
        not entry & P,
        entry & (row.reserved | (0 if nxe or not row.xd else XD)),
        row.rights and user and not entry & US,
        row.rights and access == WRITE and not entry & RW and (user or "WP" in flags),
        row.rights and access == FETCH and nxe and entry & XD,
        row.page and not user and opened and access == FETCH and "SMEP" in flags,
        row.page and not user and opened and access != FETCH and "SMAP" in flags,
    ]
    return next((number for number, broken in enumerate(rules, 1) if broken), 0)


def page_address(levels, row, entry, address):
    offset = address & bits((0, row.page - 1))
    if levels == 2 and row.page == 22:
        return span(entry, 13, 20) << 32 | entry & bits((22, 31)) | offset
    return entry & bits((row.page, 51)) | offset


def walk(memory, levels, access, flags, cr3, address):
    """The answer in words."""
    if access > FETCH:
        return "refused 2"
    if levels == 0:
        return "address %x" % address
    size, table, entries = 4 if levels == 2 else 8, cr3 & TOPS[levels], []
    for level in range(levels, 0, -1):
        any_row = next(row for key, row in ROWS.items() if key[:2] == (levels, level))
        at = table + size * span(address, *any_row.index)
        if at + size > len(memory):
            return "refused 26"
        entry = int.from_bytes(memory[at : at + size], "little")
        row = row_of(levels, level, entry, flags)
        entries += [entry] if row.rights else []
        rule = first_broken(row, entry, access, flags, entries)
        if rule:
            return "level %d rule %d" % (level, rule)
        if row.page:
            return "address %x" % page_address(levels, row, entry, address)
        table = entry & bits((12, 51))


def put(memory, levels, at, entry):
    size = 4 if levels == 2 else 8
    memory[at : at + size] = (entry % 256**size).to_bytes(size, "little")


def said(access, flags):
    """Who accesses, how, and the flags."""
    kind = ("read", "write", "fetch")[access] if access <= FETCH else "kind %d" % access
    return "%s %s" % ("user" if "USER" in flags else "supervisor", kind) + "".join(", " + flag for flag in FLAGS if flag in flags)


# ---- walks with all that they depend on


def case(levels, access, flags, cr3, address, places, entries, length=MEMORY):
    """The entries of pages 1 to 4, at these places in them; 0 is stored nowhere."""
    memory, text = bytearray(MEMORY), "%d levels, %s, CR3 %x, address %x, entries" % (levels, said(access, flags), cr3, address)
    for page, entry in enumerate(entries, 1):
        if entry:
            at = 0x1000 * page | places[page > 1]
            put(memory, levels, at, entry)
            text += " %x %x" % (at, entry)
    answer = walk(memory[:length], levels, access, flags, cr3, address)
    print("%s, memory of %x: %s" % (text, length, answer))
    return answer


def four(flags, *entries):
    return case(4, READ, flags | {"NXE"}, 0x1000, 0x8040201ABC, (8, 8), entries)


def one(levels, flags, cr3, address, at, entry):
    return case(levels, READ, flags | {"NXE"}, cr3, address, (at, 0), [entry])


def worked():
    """The request's cases, with its answers; 0xFFFFFFFFFF003 in the first table and in the second."""
    assert four(set(), 0x2007, 0x3007, 0x4007, 0x5007) == "address 5abc"
    assert four(set(), 0x2007, 0x3007, 0x20000087) == "address 20001abc"
    assert four(set(), 0x2007, 0x3007, 0x20002087) == "level 2 rule 2"
    assert four({"USER"}, 0x2003) == "level 4 rule 3"
    assert four(set(), 0xFFFFFFFFFF003) == "refused 26"
    assert four(set(), 0x2003, 0xFFFFFFFFFF003) == "refused 26"
    assert one(2, {"PSE"}, 0x1000, 0xC01234, 0xC, 0x802087) == "address 100801234"
    assert one(2, set(), 0x1000, 0xC01234, 0xC, 0x802087) == "refused 26"
    assert one(3, set(), 0x1020, 0, 0x20, 0x2003) == "level 3 rule 2"
    assert four({"SMAP"}, 0x2007, 0x3007, 0x4007, 0x5007) == "level 1 rule 7"


def edges():
    """An entry before one past the end; the last entry of every table, with memory that ends with the last of them and a byte before."""
    four(set(), 0xFFFFFFFFFF002)
    four(set(), 0xFFFFFFFFFF083)
    four({"USER"}, 0xFFFFFFFFFF003)
    for levels, end, places, entries in (
        (4, 0x5000, (0xFF8, 0xFF8), (0x2007, 0x3007, 0x4007, 0xFFFFFFFFFF007)),
        (3, 0x4000, (0x18, 0xFF8), (0x2001, 0x3007, 0xFFFFFFFFFF007)),
        (2, 0x3000, (0xFFC, 0xFFC), (0x2007, 0xFFFFF007)),
    ):
        for length in (end, end - 1):
            case(levels, READ, set(), 0x1000, ALL, places, entries, length)


def numbers():
    for levels, kind, length in (
        (4, 0, MEMORY), (4, 1, MEMORY), (4, 2, MEMORY), (4, 3, MEMORY), (4, 255, MEMORY), (4, 3, 0), (4, 0, 0), (3, 0, 0), (2, 0, 0), (0, 0, 0), (0, 1, 0), (0, 2, 0), (0, 3, 0)
    ):
        case(levels, kind, {"WP"}, 0x1000, 0x8040201ABC, (8, 8), (0x2007, 0x3007, 0x4007, 0x5007), length)
    one(0, {"USER"}, ALL, ALL, 0, 0)


def records():
    """A record of the right length and of phases 0 to 4 is one; every phase answers alike."""
    answer = walk(tables(4, 0), 4, READ, set(), page_of(4), ADDRESSES[4])
    for length, phase, memory in [(RECORD, phase, MEMORY) for phase in range(6)] + [(RECORD, 5, 0), (0, 0, MEMORY), (RECORD - 1, 0, MEMORY), (RECORD + 1, 0, MEMORY)]:
        lawful = length == RECORD and phase <= 4
        print("record of %x, phase %d, memory of %x: %s" % (length, phase, memory, answer if lawful else "refused 2"))


# ---- the kinds of entries: the table of level l has page 5 - l and the walk takes its entry 5 - l, but the table below the level under test has page 0

ADDRESSES = {4: 0x8080604ABC, 3: 0x80604ABC, 2: 0xC04ABC}


def page_of(level):
    return 0x1000 * (5 - level)


def table_of(level, tested):
    return 0 if tested > 1 and level == tested - 1 else page_of(level)


def place_of(levels, level, tested):
    return table_of(level, tested) | (5 - level) * (4 if levels == 2 else 8)


def open_of(levels, level):
    """What an entry that lets everyone pass has beside its address."""
    return P if (levels, level) == (3, 3) else P | RW | US


def tables(levels, tested):
    memory = bytearray(MEMORY)
    for level in range(levels, 0, -1):
        put(memory, levels, place_of(levels, level, tested), table_of(level - 1, tested) | open_of(levels, level))
    return memory


class Kind(namedtuple("Kind", "levels level bits flags spare")):
    """An entry under test: PS where that makes it a page, or the table's address; flags of its guest; a bit that is reserved with NXE too, other than RW and US, or is ignored."""

    def page(self):
        return self.level == 1 or self.bits == PS

    def place(self):
        return place_of(self.levels, self.level, self.level)

    def open(self):
        return self.bits | open_of(self.levels, self.level)

    def said(self):
        return "%d levels, level %d, %s, " % (self.levels, self.level, "page" if self.page() else "table")

    def row(self):
        return ROWS[self.levels, self.level, self.page()]

    def walk(self, access, flags, entry, length=MEMORY, cr3=None, address=None):
        memory = tables(self.levels, self.level)
        put(memory, self.levels, self.place(), entry)
        cr3 = page_of(self.levels) if cr3 is None else cr3
        address = ADDRESSES[self.levels] if address is None else address
        return walk(memory[:length], self.levels, access, flags | self.flags, cr3, address)


def rules(kind):
    """Each rule: the smallest entry that breaks it first; with the bit turned of which the rule speaks; with the flag turned."""

    def line(rule, access, flags, others, entry, turned):
        walks = [(flags, entry), (flags, turned), (others, entry)]
        texts = ["%s %x %s" % (said(access, each | kind.flags), word, kind.walk(access, each, word)) for each, word in walks]
        assert texts[0].endswith("level %d rule %d" % (kind.level, rule)), texts[0]
        print("%srule %d: %s" % (kind.said(), rule, "; ".join(texts)))

    present, row = kind.bits | P, kind.row()
    reserved = row.reserved | (XD if row.xd else 0)
    line(1, READ, set(), {"USER"}, kind.bits, present)
    if reserved:
        line(2, READ, set(), {"NXE"}, present | reserved & -reserved, present)
    if row.rights:
        line(3, READ, {"USER"}, set(), present, present | US)
        line(4, WRITE, {"WP"}, set(), present, present | RW)
        if kind.levels != 2:
            line(5, FETCH, {"NXE"}, set(), present | XD, present)
    if kind.page():
        line(6, FETCH, {"SMEP"}, set(), present | US, present)
        line(7, READ, {"SMAP"}, set(), present | US, present)


def mark(answer, home, bit=None, level=None):
    words = answer.split()
    if words[0] == "refused":
        return "R" if words[1] == "26" else "*"
    if words[0] == "level":
        if level is None and words[3] == "1":
            return words[1]
        return words[3] if words[1] == str(level) else "`abcdefg"[int(words[3])]
    address = int(words[1], 16)
    if address == home:
        return "."
    if None not in (home, bit) and address == home ^ 1 << bit:
        return "="
    if None not in (home, bit) and bit + 19 < 64 and address == home ^ 1 << bit + 19:
        return "^"
    return "*"


def sweep(kind, access, flags, name, value, marks):
    """`marks` gives the mark of each walk, by the address that an open entry leads to, if to any."""
    what, first = kind.walk(READ, set(), kind.open()).split()[:2]
    home = int(first, 16) if what == "address" else None
    row = "".join(marks(home))
    to = "" if home is None else ", to %x" % home
    print("%s%s, %s %x%s: %s" % (kind.said(), said(access, flags | kind.flags), name, value, to, " ".join(row[at : at + 8] for at in range(0, len(row), 8))))


def ends(kind, entry):
    """Memory that ends at each byte of the entry, with it, and a byte behind it."""
    lengths = range(kind.place(), kind.place() + (6 if kind.levels == 2 else 10))
    sweep(kind, READ, set(), "memory of", kind.place(), lambda home: (mark(kind.walk(READ, set(), entry, length), home, level=kind.level) for length in lengths))


def places(kind):
    ends(kind, 0)
    if kind.page():
        ends(kind, kind.open())
        address = ADDRESSES[kind.levels]
        sweep(kind, READ, set(), "address", address, lambda home: (mark(kind.walk(READ, set(), kind.open(), address=address ^ 1 << bit), home, bit) for bit in range(64)))
    if kind.level == 1:
        top = page_of(kind.levels)
        sweep(kind, READ, set(), "CR3", top, lambda home: (mark(kind.walk(READ, set(), kind.open(), cr3=top ^ 1 << bit), home, bit) for bit in range(64)))


def entry_bits(kind, access, flags):
    count = 32 if kind.levels == 2 else 64
    sweep(kind, access, flags, "entry", kind.open(), lambda home: (mark(kind.walk(access, flags, kind.open() ^ 1 << bit), home, bit, kind.level) for bit in range(count)))


def combination(kind, number):
    """P, RW and US, of 8 bytes XD, and the spare bit."""
    word = kind.bits | number % 8
    for bit in [kind.spare] if kind.levels == 2 else [63, kind.spare]:
        word |= number // 8 % 2 << bit
        number //= 2
    return word


def combine(kind, access, flags, count):
    flags = flags | {"NXE"}
    count = count // 2 if kind.levels == 2 and count > 8 else count
    entries = [combination(kind, number) for number in range(count)]
    sweep(kind, access, flags, "bits", combination(kind, 31), lambda home: (mark(kind.walk(access, flags, entry), home, level=kind.level) for entry in entries))


def sweeps(kind):
    places(kind)
    entry_bits(kind, READ, set())
    if kind.levels == 2:
        entry_bits(kind._replace(flags=set()), READ, {"NXE"})
    else:
        entry_bits(kind, FETCH, {"NXE", "USER"})
    combine(kind, WRITE, {"SMAP"}, 8)
    combine(kind, WRITE, {"SMAP", "WP"}, 8)
    combine(kind, FETCH, {"SMEP"}, 16)
    combine(kind, FETCH, {"SMAP", "WP"}, 16)
    combine(kind, WRITE, {"USER", "SMAP"}, 8)
    combine(kind, FETCH, {"USER", "SMEP"}, 32)
    if not kind.page():
        combine(kind._replace(bits=0x100000), WRITE, {"USER"}, 8)
        combine(kind._replace(bits=0x5000), FETCH, {"USER"}, 32)


def main():
    worked()
    edges()
    numbers()
    records()
    for levels, level, bits_, spare in (
        (4, 4, 0, 7), (4, 3, PS, 13), (4, 3, 0, 52), (4, 2, PS, 13), (4, 2, 0, 52), (4, 1, 0, 52), (3, 3, 0, 5), (3, 2, PS, 13), (3, 2, 0, 52), (3, 1, 0, 52), (2, 2, PS, 21), (2, 2, 0, 9), (2, 1, 0, 9)
    ):
        kind = Kind(levels, level, bits_, {"PSE"} if levels == 2 else set(), spare)
        rules(kind)
        sweeps(kind)


if __name__ == "__main__":
    main()

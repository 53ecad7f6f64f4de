#!/usr/bin/env python3
"""What casesheet prints, typed from document 01's words and from nothing else.

The expected output of the crates casesheet and casesheet_runs comes from this script and not from the program. The script shares
nothing with the Rattle code and its definitions: it splits the input at line feeds, and matches a line by a regular expression.

Usage: tools/casesheet_reading.py             reads standard input and prints the sheet
       tools/casesheet_reading.py --make      writes the inputs and the stdout of these crates (in the repository's root), but for data/list, which oracle/lists makes
       tools/casesheet_reading.py --check     exit status 1 where one of these files differs from what would be written
"""
import hashlib
import re
import sys

import kept

CASE = re.compile(rb"([a-z]{1,16})" + rb"\t([0-9a-f]{8})" * 5)


def answer(line):
    """The line printed for a line, without its line feed."""
    case = CASE.fullmatch(line)
    if not case:
        return b"-\tbad"
    name = case.group(1)
    allowed0, allowed1, old, on, off = (int(x, 16) for x in case.groups()[1:])
    if allowed0 & ~allowed1:
        return name + b"\trefused 6"
    if on & off:
        return name + b"\trefused 7"
    if on & ~allowed1:
        return name + b"\trefused 8"
    if off & allowed0:
        return name + b"\trefused 9"
    flexible = allowed1 & ~allowed0
    return name + b"\t%08x" % (allowed0 | on | old & flexible & ~on & ~off)


def sheet(data):
    """All that is printed for an input."""
    if len(data) > 65536:
        return b"too long\n"
    lines = data.split(b"\n")
    if lines[-1] == b"":
        lines.pop()  # what follows the last line feed is no line
    return b"".join(answer(line) + b"\n" for line in lines)


EXAMPLE = (
    b"pin\t00000016\t0000007f\t00000016\t00000009\t00000000\n"
    b"clash\t00000016\t0000007f\t00000016\t00000001\t00000001\n"
)
EXAMPLE_PRINTED = b"pin\t0000001f\nclash\trefused 7\n"  # as document 01 prints it

WORDS = b"\t00000016\t0000007f\t00000016\t00000009\t00000000"  # those of P1

EDGES = [
    # every refusal, and each before those after it
    b"six\t00000080\t0000007f\t00000000\t00000000\t00000000",
    b"sixseven\t00000080\t0000007f\t00000000\t00000001\t00000001",
    b"sixeight\t00000080\t0000007f\t00000000\t00000100\t00000000",
    b"sixnine\t00000080\t0000007f\t00000000\t00000000\t00000080",
    b"sixall\t00000080\t0000007f\t00000000\t00000180\t00000180",
    b"seven\t00000016\t0000007f\t00000016\t00000001\t00000001",
    b"seveneight\t00000016\t0000007f\t00000016\t00000080\t00000080",
    b"sevennine\t00000016\t0000007f\t00000016\t00000002\t00000002",
    b"sevenall\t00000016\t0000007f\t00000016\t00000082\t00000082",
    b"eight\t00000016\t0000007f\t00000016\t00000080\t00000000",
    b"eightnine\t00000016\t0000007f\t00000016\t00000080\t00000002",
    b"nine\t00000016\t0000007f\t00000016\t00000000\t00000002",
    # words
    b"zero\t00000000\t00000000\t00000000\t00000000\t00000000",
    b"outside\t00000000\t00000000\tffffffff\t00000000\t00000000",
    b"ones\t00000000\tffffffff\tffffffff\t00000000\t00000000",
    b"required\tffffffff\tffffffff\t00000000\t00000000\t00000000",
    b"kept\t00000000\tffffffff\tdeadbeef\t00000010\t0000000f",
    b"digits\t00000000\tffffffff\t01234567\t00000000\t00000000",
    b"letters\t00000000\tffffffff\t89abcdef\t00000000\t00000000",
    b"highest\t80000000\t80000000\t00000000\t80000000\t7fffffff",
    # names of 1, 16, 17 and no letters, and bytes beside the small letters
    b"a" + WORDS,
    b"z" + WORDS,
    b"abcdefghijklmnop" + WORDS,
    b"abcdefghijklmnopq" + WORDS,
    b"abcdefghijklmnopq" + WORDS[:-1],
    WORDS,
    WORDS[1:],
    b"Pin" + WORDS,
    b"piN" + WORDS,
    b"PIN" + WORDS,
    b"pi`" + WORDS,
    b"pi{" + WORDS,
    b"p1n" + WORDS,
    b"p-n" + WORDS,
    b"p n" + WORDS,
    b" pin" + WORDS,
    b"pin " + WORDS,
    b"p\x00n" + WORDS,
    b"p\xe9n" + WORDS,
    # tabs that are missing, doubled, misplaced or another byte
    b"pin" + WORDS[1:],
    b"pin" + WORDS[:9] + WORDS[10:],
    b"pin" + WORDS[:36] + WORDS[37:],
    b"\tpin" + WORDS,
    b"pin\t" + WORDS,
    b"pin" + WORDS[:9] + b"\t" + WORDS[9:],
    b"pin" + WORDS[:36] + b"\t" + WORDS[36:],
    b"pin" + WORDS + b"\t",
    b"pin " + WORDS[1:],
    b"pin" + WORDS[:9] + b" " + WORDS[10:],
    b"pin\t00\t00016" + WORDS[9:],
    # words of 7 and 9 digits, alone and together
    b"pin\t0000016" + WORDS[9:],
    b"pin\t000000016" + WORDS[9:],
    b"pin" + WORDS[:-1],
    b"pin" + WORDS + b"0",
    b"pin\t0000016\t00000007f" + WORDS[18:],
    b"pin\t000000016\t000007f" + WORDS[18:],
    # four words, and six
    b"pin" + WORDS[:-9],
    b"pin" + WORDS + b"\t00000000",
    # bytes that are no small hexadecimal digits
    b"pin\t00000016\t0000007F" + WORDS[18:],
    b"pin\tABCDEF00" + WORDS[9:],
    b"pin\t0000001/" + WORDS[9:],
    b"pin\t0000001:" + WORDS[9:],
    b"pin\t0000001@" + WORDS[9:],
    b"pin\t0000001`" + WORDS[9:],
    b"pin\t0000001g" + WORDS[9:],
    b"pin\t0000001G" + WORDS[9:],
    b"pin\t0000001\xff" + WORDS[9:],
    b"pin\t0000001\x00" + WORDS[9:],
    b"pin\t0x000016" + WORDS[9:],
    b"pin\t-0000016" + WORDS[9:],
    b"pin\t      16" + WORDS[9:],
    b"pin" + WORDS[:-1] + b"g",
    # a carriage return before the line feed, and blanks at the end
    b"pin" + WORDS + b"\r",
    b"pin" + WORDS + b" ",
    b"\r",
    # empty lines, a line of one byte, a name alone, a case on two lines
    b"",
    b"",
    b"\t",
    b"-",
    b"-\tbad",
    b"pin",
    b"pin" + WORDS[:-9],
    b"00000000",
    b"",
    # the last line lacks its line feed
    b"last" + WORDS,
]


def random_case(k):
    """A case that depends on k alone, with every answer among the first few hundred."""
    bits = int.from_bytes(hashlib.sha512(b"case %d" % k).digest(), "big")

    def take(n):
        nonlocal bits
        bits, low = bits >> n, bits & (1 << n) - 1
        return low

    name = bytes(97 + take(8) % 26 for _ in range(1 + take(4)))
    allowed0 = take(32) & take(32)
    allowed1 = take(32) | (allowed0 if take(3) else 0)
    old = take(32)
    on = take(32) & allowed1
    off = take(32) & ~allowed0 & (0xFFFFFFFF if take(2) == 0 else ~on)
    on |= 1 << take(5) if take(2) == 0 else 0
    off |= 1 << take(5) if take(2) == 0 else 0
    return name + b"".join(b"\t%08x" % x for x in (allowed0, allowed1, old, on, off))


def longest():
    """65,536 bytes: cases, and empty lines for what is left."""
    data = b""
    k = 0
    while len(data) <= 65536 - 62:
        data += random_case(k) + b"\n"
        k += 1
    return data + b"\n" * (65536 - len(data))


RUNS = "crates/casesheet_runs"


def files():
    assert sheet(EXAMPLE) == EXAMPLE_PRINTED
    yield "crates/casesheet/stdin", EXAMPLE
    yield "crates/casesheet/stdout", EXAMPLE_PRINTED
    inputs = {
        "edges": b"\n".join(EDGES),
        "empty": b"",
        "full": longest(),
        "long": longest() + b"\n",
    }
    for name, data in inputs.items():
        yield "%s/data/%s" % (RUNS, name), data
    with open(RUNS + "/data/list", "rb") as made:
        inputs["list"] = made.read()
    yield RUNS + "/stdout", b"".join(name.encode() + b"\n" + sheet(data) for name, data in inputs.items())


if __name__ == "__main__":
    sys.exit(kept.command(__doc__, sheet, files, "document 01"))

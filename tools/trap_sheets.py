#!/usr/bin/env python3
"""What trapsheet prints, typed from the words of request N2 and the manual's layout of the frames, and from nothing else.

The expected output of the crates trapsheet and trapsheet_runs comes from this script and not from the program. The script shares nothing with the Rattle code
and its definitions: it makes a list of the trapped numbers of each kind, and a run is numbers of that list that follow one another.

Usage: tools/trap_sheets.py             reads I/O bitmap A, I/O bitmap B and the MSR bitmaps on standard input and prints their sheet
       tools/trap_sheets.py --make      writes the inputs and the stdout of these crates (in the repository's root)
       tools/trap_sheets.py --check     exit status 1 where one of these files differs from what would be written
"""
import sys

import kept

# Where each frame, and each quarter of the MSR bitmaps, starts in the input: SDM 3C, 25.6.4 and 25.6.9.
A, B, MSR = 0, 4096, 8192
READ_LOW, READ_HIGH, WRITE_LOW, WRITE_HIGH = MSR, MSR + 1024, MSR + 2048, MSR + 3072
LENGTH = 12288


def trapped(data, start, first, count):
    """Those of the count numbers from first on whose bits, from byte start of the input on, are set."""
    return [first + i for i in range(count) if data[start + i // 8] >> i % 8 & 1]


def runs(numbers):
    """The first and the last number of each run of an ascending list."""
    found = []
    for number in numbers:
        if found and found[-1][1] == number - 1:
            found[-1][1] = number
        else:
            found.append([number, number])
    return found


def sheet(data):
    """All that is printed for an input."""
    if len(data) != LENGTH:
        return "refused 2\n"
    kinds = {
        "port": trapped(data, A, 0, 0x8000) + trapped(data, B, 0x8000, 0x8000),
        "read": trapped(data, READ_LOW, 0, 0x2000) + trapped(data, READ_HIGH, 0xC0000000, 0x2000),
        "writ": trapped(data, WRITE_LOW, 0, 0x2000) + trapped(data, WRITE_HIGH, 0xC0000000, 0x2000),
    }
    lines = [kind + " " * 22 + str(len(numbers)).rjust(14) for kind, numbers in kinds.items()]
    for kind, numbers in kinds.items():
        for first, last in runs(numbers):
            lines.append("  ".join([kind, "%08x" % first, "%08x" % last, str(last - first + 1).rjust(14)]))
    assert all(len(line) == 40 for line in lines)
    return "".join(line + "\n" for line in lines)


def frames(parts):
    """The input that has these bytes, each group at its place, and zeros else."""
    data = bytearray(LENGTH)
    for place, part in parts:
        assert not any(data[place : place + len(part)])
        data[place : place + len(part)] = part
    return bytes(data)


ONES = b"\xff"

# Port 0x604, and reads and writes of MSRs 0xE1 and 0x800 to 0x83F.
SETUP = [
    (A + 192, b"\x10"),
    (READ_LOW + 28, b"\x02"),
    (READ_LOW + 256, ONES * 8),
    (WRITE_LOW + 28, b"\x02"),
    (WRITE_LOW + 256, ONES * 8),
]

# As the request prints it.
SETUP_PRINTED = """\
port                                   1
read                                  65
writ                                  65
port  00000604  00000604               1
read  000000e1  000000e1               1
read  00000800  0000083f              64
writ  000000e1  000000e1               1
writ  00000800  0000083f              64
"""

# The four quarters of the MSR bitmaps differ, and so do the frames, so that exchanged ones show.
EDGES = [
    # port 0; 7 with 8
    (A, b"\x81\x01"),
    # every second bit of one byte, from the lowest and from the next; 9 bits over a byte's end
    (A + 32, b"\x55"),
    (A + 34, b"\xaa"),
    (A + 64, b"\xf0\x1f"),
    # a long run that starts and ends within a byte; runs of whole bytes: one, eight, nine; a hole of one bit, and one of a byte
    (A + 255, b"\x80" + ONES * 16 + b"\x7f"),
    (A + 400, ONES),
    (A + 408, ONES * 8),
    (A + 423, ONES * 9),
    (A + 512, ONES * 12 + b"\xfb" + ONES * 12),
    (A + 640, ONES * 8 + b"\x00" + ONES * 8),
    # 0x7FFF with 0x8000; 65,535 alone
    (A + 4095, b"\x80"),
    (B, b"\x01"),
    (B + 2048, b"\x81"),
    (B + 4095, b"\x80"),
    # reads: MSR 0x1FFF with 0xC0000000; 0xC0001FFF, which is beside the write of MSR 0
    (READ_LOW + 7, b"\xc0\x7f"),
    (READ_LOW + 1023, b"\x80"),
    (READ_HIGH, b"\x01"),
    (READ_HIGH + 16, b"\x01"),
    (READ_HIGH + 1023, b"\x80"),
    # writes: the same places, in longer runs
    (WRITE_LOW, b"\x03"),
    (WRITE_LOW + 100, b"\x55"),
    (WRITE_LOW + 1022, b"\xfe\xff"),
    (WRITE_HIGH, b"\xff\x07"),
    (WRITE_HIGH + 200, b"\xfe\x03"),
    (WRITE_HIGH + 1023, b"\xe0"),
]

RUNS = "crates/trapsheet_runs"


def files():
    assert sheet(frames(SETUP)) == SETUP_PRINTED
    yield "crates/trapsheet/stdin", frames(SETUP)
    yield "crates/trapsheet/stdout", SETUP_PRINTED.encode()
    inputs = {
        "edges": frames(EDGES),
        "zeros": bytes(LENGTH),
        "ones": ONES * LENGTH,
        "empty": b"",
        "short": ONES * (LENGTH - 1),
        "long": ONES * (LENGTH + 1),
    }
    for name, data in inputs.items():
        yield "%s/data/%s" % (RUNS, name), data
    yield RUNS + "/stdout", "".join(name + "\n" + sheet(data) for name, data in inputs.items()).encode()


if __name__ == "__main__":
    sys.exit(kept.command(__doc__, lambda data: sheet(data).encode(), files, "request N2"))

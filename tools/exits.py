#!/usr/bin/env python3
"""Tests docs/EXITS.md: usage tools/exits.py (in the repository's root). Every reason 0 to 64 stands in the table by reason exactly once, and every
name in backticks there is a definition of specs/, a file or a function. Prints what is wrong; the exit status is then 1."""
import glob
import re
import sys


def reasons(cell):
    """The numbers that a first cell begins with: single ones and ranges `a to b`."""
    listed = re.match(r"(?:\d+(?: to \d+)?(?:, )?)+", cell).group(0)
    for first, last in re.findall(r"(\d+)(?: to (\d+))?", listed):
        yield from range(int(first), int(last or first) + 1)


def main():
    text = open("docs/EXITS.md").read()
    table = text.split("## By reason")[1].split("###")[0]
    found = sorted(n for row in re.findall(r"^\| (\d.*?) \|", table, re.M) for n in reasons(row))
    wrong = ["reason %d stands %d times" % (n, found.count(n)) for n in range(65) if found.count(n) != 1]
    wrong += ["%d is no reason to 64" % n for n in found if n > 64]
    specs = "\n".join(open(path).read() for path in glob.glob("crates/*/specs/**/*.antt", recursive=True))
    defined = set(re.findall(r"^\s*(?:abbrev|unfoldable) (?:pub )?(\S+) :", specs, re.M)) | {"vcpu_exit_report", "specs/"}
    wrong += ["%s is no definition" % name for name in sorted(set(re.findall(r"`([^`]+)`", text)) - defined)]
    print("\n".join(wrong), end="\n" if wrong else "")
    return int(bool(wrong))


if __name__ == "__main__":
    sys.exit(main())

#!/usr/bin/env python3
"""Tests that what was carried over says so: usage tools/ported.py (in the repository's root).

NOTICE lists each file of crates/ that ports a source of x86_vcpu, with these sources. The comment at the file's head must say "Ported from", name them,
and have the copyright and "Changed:". A file with such a comment must be in the list. Each patch of oracle/patches names its source, the copyright and
"Changed:" before its first file. Prints what is wrong; the exit status is then 1.
"""
import glob
import re
import sys

COPYRIGHT = "Copyright 2025 The Axvisor Team, Apache-2.0"


def head(text, end):
    """The lines before the first that matches, as one text without comment marks."""
    lines = []
    for line in text.split("\n"):
        if re.match(end, line):
            break
        lines.append(line.removeprefix("//").strip())
    return " ".join(lines)


def lacking(text, sources):
    """What a note lacks."""
    return [part for part in ["x86_vcpu " + sources[0], *sources[1:], COPYRIGHT, "Changed:"] if part not in text]


def main():
    listed = {path: sources.split(", ") for path, sources in re.findall(r"^  (crates/\S+\.rt) +(src/.*)$", open("NOTICE").read(), re.M)}
    wrong = []
    for path in sorted(set(glob.glob("crates/*/src/**/*.rt", recursive=True)) | set(listed)):
        try:
            note = head(open(path).read(), "(?!//)")
        except FileNotFoundError:
            wrong.append("%s: in NOTICE, and not there" % path)
            continue
        if path in listed:
            wrong += ["%s: its head lacks \"%s\"" % (path, part) for part in ["Ported from"] * ("Ported from" not in note) + lacking(note, listed[path])]
        elif "Ported from" in note or COPYRIGHT in note:
            wrong.append("%s: not in NOTICE" % path)
    for path in sorted(glob.glob("oracle/patches/*.patch")):
        text = open(path).read()
        wrong += ["%s: its head lacks \"%s\"" % (path, part) for part in lacking(head(text, "--- "), re.findall(r"^--- a/(\S+)", text, re.M))]
    print("\n".join(wrong), end="\n" if wrong else "")
    return int(bool(wrong))


if __name__ == "__main__":
    sys.exit(main())

"""What the scripts that write files of crates share: rows in rt fmt's layout, and writing or comparing."""
import os
import re
import sys


def packed(items):
    """Items of a list in lines of fewer than 100 columns, as rt fmt lays them out."""
    lines = [""]
    for item in items:
        if lines[-1] and 4 + len(lines[-1]) + len(item) + 1 > 99:
            lines.append("")
        lines[-1] += item + ", "
    return "".join("    %s\n" % line.rstrip() for line in lines)


def with_hints(text, old):
    """A text with the `#[tactic(..)]` lines that stand before the old one's functions: hints for the proof are written by hand."""
    for hint, name in re.findall(r"^(#\[tactic\(.*\)\]\n)pub fn (\w+)", old, re.M):
        text = text.replace("\npub fn %s(" % name, "\n%spub fn %s(" % (hint, name))
    return text


def write_or_check(out, root):
    """Writes the texts by path below root, or with --check says which file differs, and then gives 1."""
    wrong = 0
    for name, text in out.items():
        path = root + name
        old = open(path).read() if os.path.exists(path) else ""
        text = with_hints(text, old)
        if old != text and "--check" in sys.argv:
            print("differs: " + path)
            wrong = 1
        elif old != text:
            os.makedirs(os.path.dirname(path), exist_ok=True)
            open(path, "w").write(text)
    return wrong

#!/usr/bin/env python3
"""The probes of examples/emulated beside what names them: the header's section "What the host does", docs/FINDINGS.md, docs/PROCESSORS.md and kept.txt.

A name in brackets is a probe; every probe that makes the host do otherwise (the third column) is named by the header or by docs/FINDINGS.md; every probe has
its result on the two processors that it runs on. Prints what is wrong; the status is then 1.
"""
import re
import sys
from pathlib import Path

ROOT = Path(__file__).resolve().parent.parent
EMULATED = ROOT / "examples" / "emulated"
OLDEST, OLDEST_XSAVE, NEWEST = re.search(r'^OLDEST, OLDEST_XSAVE, NEWEST = "(\w+)", "(\w+)", "(\w+)"', (EMULATED / "run").read_text(), re.M).groups()


def probes():
    rows = [line.split("|") for line in (EMULATED / "probes").read_text().splitlines() if line and line[0] != "#"]
    return {row[0].strip(): row[2].strip() for row in rows}


def models_of(probe):
    return [OLDEST_XSAVE if probe.startswith("xsetbv") else OLDEST, NEWEST]


def named(text):
    """The names in brackets: a list of words of small letters, digits and hyphens; no link of Markdown, and no comment's line end between them."""
    lists = re.findall(r"\[([a-z0-9-]+(?:,[\s*]+[a-z0-9-]+)*)\](?!\()", text)
    return {name for names in lists for name in re.split(r",[\s*]+", names)}


def main():
    known = probes()
    header = (ROOT / "include" / "x86_vcpu.h").read_text()
    section = header[header.index("What the host does"):header.index("---- Sessions")]
    texts = {"include/x86_vcpu.h": section}
    texts.update({f"docs/{page}": (ROOT / "docs" / page).read_text() for page in ("FINDINGS.md", "PROCESSORS.md")})
    wrong = [f"{where} names {name}, which is no probe" for where, text in texts.items() for name in sorted(named(text) - set(known))]
    used = named(section) | named(texts["docs/FINDINGS.md"])
    wrong += [f"probe {name} is named neither by the header nor by docs/FINDINGS.md" for name, options in known.items() if options != "-" and name not in used]
    kept = {tuple(line.split(" | ")[:2]) for line in (EMULATED / "kept.txt").read_text().splitlines()}
    wrong += [f"kept.txt has no result of {name} on {model}" for name in known for model in models_of(name) if (model, name) not in kept]
    print("\n".join(wrong) if wrong else f"{len(known)} probes, each name in brackets is one")
    return 1 if wrong else 0


if __name__ == "__main__":
    sys.exit(main())

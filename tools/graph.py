#!/usr/bin/env python3
"""The library crates as one picture: usage tools/graph.py [--check] (in the repository's root).

Writes the mermaid graph of docs/ARCHITECTURE.md from crates.txt: the libraries by layer (the headings `# ---- NAME` of crates.txt), an arrow from each crate
to every crate that it uses and that no other crate that it uses rests on. With --check it only says whether the document has it, whether crates.txt
lists for each crate those that its files name, and besides only crates on which these rest (the checker wants the crate of every type that a function
holds), and whether every crate stands in the document's tables.
"""
import glob
import os
import re
import sys

PAGE = "docs/ARCHITECTURE.md"


def listed():
    """Each crate in order: its layer and what it uses."""
    layer, crates = "", {}
    for line in open("crates.txt"):
        heading = re.match(r"# ---- (.*)", line)
        crate = re.match(r"(\w+)(?: staticlib)?:(.*)", line)
        if heading:
            layer = heading.group(1).strip()
        if crate:
            crates[crate.group(1)] = (layer, crate.group(2).split())
    return crates


def named(crate, crates):
    """The crates that the files of a crate name, and the kit's libraries. A module of the crate may have the name of a crate."""
    found, modules, of_kit = set(), set(), {u for _, uses in crates.values() for u in uses}
    for path in glob.glob("crates/%s/*/**/*" % crate, recursive=True):
        if path.endswith((".rt", ".antt")) and path.split("/")[2] != "out":
            text = re.sub(r"(//|--) .*", "", open(path).read())
            found.update(re.findall(r"Rattle\.(\w+)", text))
            if path.endswith(".rt"):
                found.update(re.findall(r"\b(\w+)::", text))
                modules.update(re.findall(r"^(?:pub )?mod (\w+);", text, re.M))
    return {c for c in found if c in crates or c in of_kit} - {crate} - modules


def below(crate, crates, seen):
    for c in crates[crate][1]:
        if c in crates and c not in seen:
            seen.add(c)
            below(c, crates, seen)
    return seen


def picture(crates):
    libraries = {c: v for c, v in crates.items() if os.path.exists("crates/%s/src/lib.rt" % c)}
    layers = list(dict.fromkeys(layer for layer, _ in libraries.values()))
    text = "```mermaid\ngraph TD\n"
    for layer in reversed(layers):
        text += '    subgraph "%s"\n' % layer
        text += "".join("        %s\n" % c for c, v in libraries.items() if v[0] == layer) + "    end\n"
    for c, (_, uses) in libraries.items():
        uses = [u for u in uses if u in libraries]
        near = [u for u in uses if not any(u in below(o, crates, set()) for o in uses if o != u)]
        text += "".join("    %s --> %s\n" % (c, u) for u in near)
    return text + "```\n"


def main():
    crates = listed()
    page = open(PAGE).read()
    old = re.search(r"```mermaid\n.*?```\n", page, re.S).group(0)
    new = picture(crates)
    if "--check" not in sys.argv:
        open(PAGE, "w").write(page.replace(old, new))
        return 0
    wrong = []
    if old != new:
        wrong.append("%s: the graph is not that of crates.txt (python3 tools/graph.py writes it)" % PAGE)
    for c, (_, uses) in crates.items():
        names = named(c, crates)
        rest = set().union(*(below(n, crates, {n}) for n in names if n in crates))
        if not names <= set(uses) or not set(uses) <= names | rest:
            wrong.append("crates.txt: %s lists %s, its files name %s" % (c, " ".join(sorted(uses)), " ".join(sorted(names))))
        if "`%s`" % c not in page:
            wrong.append("%s: no `%s`" % (PAGE, c))
    print("\n".join(wrong) or "%d crates, as in %s" % (len(crates), PAGE))
    return 1 if wrong else 0


sys.exit(main())

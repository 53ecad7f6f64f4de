#!/usr/bin/env python3
"""Brings the repository's own definitions and lemmas to snake case, as the library spells its words.

usage: python3 tools/snake_names.py [ROOT] [--dry]

It ran once, after port.py. A definition in camel case, or a name with dashes, of specs/ and of the lemma files of proofs/ gets the spelling with `_`.
Names of the source, exported names, strings, inputs and outputs stay. Where two names would fall together in one file, the definition takes the plain
name and the lemma ends in `_lem`; where the name is the library's, the dash stays (`bit-and` is the bit of an and).
"""
import collections
import os
import re
import sys

ROOT = next((a for a in sys.argv[1:] if not a.startswith("--")), ".")
TOKEN = re.compile(r'--[^\n]*|"(?:[^"\\]|\\.)*"|«[^»]*»|[^\s(){}.;,@"«»\[\]]+')
DECLARED = re.compile(r"^(\s*)(?:(?:pattern|abbrev|unfoldable|pub)\s+)*([^\s(){}\[\];,.:]+)(?:\s+\{[^}]*\})*\s+:\s")
RULESET = re.compile(r"^(?:pub )?ruleset (\S+) =")
UPPER = re.compile(r"^[A-Z0-9_-]+$")
# Files whose name is taken: a module `specs.contracts` is made by the check.
MOVED = {"crates/calls/specs/Contracts.antt": "crates/calls/specs/CallContracts.antt"}
PATHS = {"Rattle.calls.specs.Contracts": "Rattle.calls.specs.CallContracts"}


def files(ending):
    for folder, folders, names in os.walk(os.path.join(ROOT, "crates")):
        folders[:] = sorted(f for f in folders if f != "out")
        for name in sorted(names):
            if name.endswith(ending):
                yield os.path.join(folder, name)


def read(path):
    with open(path, encoding="utf-8") as f:
        return f.read()


def snake(name):
    if not UPPER.match(name):
        name = re.sub(r"(?<=[a-z0-9])[A-Z]", lambda m: "_" + m[0].lower(), name)
    return name.replace("-", "_")


def words(text):
    """The names of a file of antt, without those behind a dot."""
    for m in TOKEN.finditer(text):
        if not m[0].startswith(("--", '"')) and text[m.start() - 1 : m.start()] != ".":
            yield m[0]


def declared():
    """Each own name, and whether a file of specs/ declares it."""
    own = {}
    for path in files(".antt"):
        if os.path.basename(path) == "Proof.antt":
            continue
        for line in read(path).splitlines():
            if line.lstrip().startswith("--"):
                continue
            m = DECLARED.match(line)
            name = m[2] if m else (RULESET.match(line) or [None, None])[1]
            if name and not re.search(r"[^A-Za-z0-9_'-]", name):
                own[name] = own.get(name, False) or "/specs/" in path
    return own


def choose():
    own = declared()
    in_file = {p: set(words(read(p))) for p in files(".antt")}
    where = collections.defaultdict(set)
    for path, names in in_file.items():
        for name in names:
            where[name].add(path)
    params = collections.defaultdict(set)
    rust = set()
    for path in files(".rt"):
        text = re.sub(r"//.*", "", read(path))
        params[path].update(re.findall(r"\b([a-z_0-9]+)\s*:(?!:)", text))
        rust.update(re.findall(r"\b[a-z_][a-z_0-9]*\b", text))
    ghost = {p: set(re.findall(r"[\w'-]+", " ".join(re.findall(r"ghost use [^;]*;", read(p))))) for p in files(".rt")}
    camel = [n for n in own if re.match(r"^[a-z][a-z0-9]*([A-Z0-9][A-Za-z0-9]*)+$", n) and snake(n) != n]
    dashed = [n for n in own if "-" in n]
    turned, said = {}, []
    for name in camel:
        new = snake(name)
        beside = {p for p in where[name] if new in in_file[p]}
        if beside and new in own and not own[new]:
            turned[new] = new + "_lem"
            said.append(f"{new} is {new}_lem beside {name}")
        elif beside:
            said.append(f"look: {name} and {new} in {sorted(beside)}")
        for p, names in ghost.items():
            if name in names and new in params[p]:
                said.append(f"look: {name} is a parameter in {p}")
        turned[name] = new
    taken = collections.defaultdict(set)
    for name, new in turned.items():
        taken[new].update(where[name])
    for name in dashed:
        if name[0].isupper() and not UPPER.match(name):
            continue
        new = snake(name)
        if new in ("bit_and", "bit_or", "bit_xor", "bit_not"):
            continue
        if new in rust or any(new in in_file[p] or p in taken[new] for p in where[name]):
            said.append(f"{name} is {new}_lem")
            new += "_lem"
        turned[name] = new
        taken[new].update(where[name])
    return turned, said


def turn_antt(text, turned):
    for old, new in PATHS.items():
        text = re.sub(re.escape(old) + r"(?![\w-])", new, text)

    def one(m):
        word = m[0]
        if word.startswith('"'):
            return word
        if word.startswith("--"):
            return re.sub(r"`([^`]*)`", lambda c: "`" + TOKEN.sub(one, c[1]) + "`", word)
        return turned.get(word, word)

    return TOKEN.sub(one, text)


CLAUSE = re.compile(r"//[^\n]*|\"(?:[^\"\\]|\\.)*\"|ghost use [^;]*;|\b(?:requires|ensures)\b\*?(?: \w+)? \{")


def turn_rt(text, turned):
    """Turns the names of ghost imports and of clauses; camel case is never a name of the source."""
    for old, new in PATHS.items():
        text = re.sub(re.escape(old) + r"(?![\w-])", new, text)
    out, at = [], 0
    while True:
        m = CLAUSE.search(text, at)
        if not m:
            return "".join(out) + text[at:]
        out.append(text[at : m.start()])
        end = m.end()
        if m[0].startswith("//"):
            out.append(re.sub(r"`([^`]*)`", lambda c: "`" + TOKEN.sub(lambda t: turned.get(t[0], t[0]) if not t[0].islower() else t[0], c[1]) + "`", m[0]))
        elif m[0].startswith('"'):
            out.append(m[0])
        else:
            if m[0].endswith("{"):
                depth = 1
                while depth:
                    depth += {"{": 1, "}": -1}.get(text[end], 0)
                    end += 1
            out.append(turn_antt(text[m.start() : end], turned))
        at = end


def main():
    turned, said = choose()
    print("\n".join(said))
    print(len(turned), "names")
    if "--dry" in sys.argv:
        return
    for ending, turn in ((".antt", turn_antt), (".rt", turn_rt)):
        for path in list(files(ending)):
            text = read(path)
            new = turn(text, turned)
            if new != text:
                with open(path, "w", encoding="utf-8") as f:
                    f.write(new)
    for old, new in MOVED.items():
        old, new = os.path.join(ROOT, old), os.path.join(ROOT, new)
        if os.path.exists(old):
            os.rename(old, new)
            lib = os.path.join(os.path.dirname(new), "Lib.antt")
            text = read(lib)
            a, b = (os.path.basename(p)[:-5] for p in (old, new))
            with open(lib, "w", encoding="utf-8") as f:
                f.write(re.sub(rf"\bmod {a}\b", f"mod {b}", text))


main()

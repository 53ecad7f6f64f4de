#!/usr/bin/env python3
"""Tests that the C interface says what the calls say: usage tools/exports.py (in the repository's
root).

Each function of crates/x86_vcpu_c has the name, module, parameters and clauses of one of
crates/x86_vcpu, and its body is the call of that one with its own arguments in their order. Each
public function of crates/x86_vcpu whose name begins with vcpu_ is exported. What both files import
under one name is the same. Prints what is wrong; the exit status is then 1.
"""
import glob
import os
import re
import sys

FUNCTION = re.compile(
    r'((?:#\[[^\n]*\]\n)*)pub (extern "C" )?fn (vcpu_\w+)\((.*?)\) -> (\w+)\n(.*?)\n\{\n(.*?)\n\}\n', re.S
)
GHOST = re.compile(r"^ghost use ([\w.]+)\.\{(.*)\};$", re.M)
MARK = "#[unsafe(no_mangle)]\n"


def functions(crate):
    """By module and name: attributes, linkage, parameters, result, clauses, body, and imports."""
    found = {}
    for path in sorted(glob.glob("crates/%s/src/*.rt" % crate)):
        text = open(path).read()
        module = os.path.basename(path)[: -len(".rt")]
        origin = {n: place for place, listed in GHOST.findall(text) for n in listed.split(", ")}
        for attributes, linkage, name, given, result, clauses, body in FUNCTION.findall(text):
            parameters = [p.split(": ") for p in re.split(r",\s+(?=\w+: )", given.strip().rstrip(","))]
            found[module, name] = attributes, linkage, parameters, result, clauses, body, origin
    return found


def main():
    calls, exports = functions("x86_vcpu"), functions("x86_vcpu_c")
    wrong = ["%s::%s is not exported" % key for key in sorted(set(calls) - set(exports))]
    for (module, name), (attributes, linkage, parameters, result, clauses, body, origin) in exports.items():
        call = calls.get((module, name))
        where = "x86_vcpu_c, %s::%s" % (module, name)
        if not call:
            wrong.append("%s: x86_vcpu has no such function" % where)
            continue
        path = "x86_vcpu::" + ("" if module == "lib" else module + "::") + name
        if not linkage or MARK not in attributes:
            wrong.append("%s: not exported" % where)
        if (parameters, result, clauses) != (call[2], call[3], call[4]):
            wrong.append("%s: other parameters or clauses than in x86_vcpu" % where)
        if [n for n in origin if n in call[6] and origin[n] != call[6][n]]:
            wrong.append("%s: a name of its clauses is another than in x86_vcpu" % where)
        if re.sub(r"\s+", "", body).replace(",)", ")") != "%s(%s)" % (path, ",".join(p for p, _ in parameters)):
            wrong.append("%s: not the call of %s" % (where, path))
    print("\n".join(wrong) or "%d exports, each the call of x86_vcpu with its clauses" % len(exports))
    return int(bool(wrong) or not exports)


if __name__ == "__main__":
    sys.exit(main())

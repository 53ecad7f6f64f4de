#!/usr/bin/env python3
"""Turns the repository's crates into a Rust workspace: contracts, ghost items and hints for proofs go, and so do the derives
and bounds of Drop, which each type has in Rust. What reads and prints does so by tools/kit. For runs and for mutants, with overflow checks on; it proves nothing.

usage: strip.py REPOSITORY OUT

tools/kit has the crate rattle, which stands for what Rattle's library has and Rust's has otherwise. The crate of the exports is
built as a shared library.
"""

import re
import shutil
import sys
from pathlib import Path

KIT = Path(__file__).resolve().parent / "kit"
EXPORTED = "x86_vcpu_c"
WORKSPACE = """[workspace]
resolver = "2"
members = [{members}]

[profile.dev]
opt-level = 0
debug = false
incremental = false
"""


def dependencies(repository):
    """The crates of crates.txt, each with the names that it depends on."""
    crates = {}
    for line in (repository / "crates.txt").read_text().splitlines():
        line = line.split("#")[0].strip()
        if line:
            name, _, rest = line.partition(":")
            crates[name.split()[0]] = rest.split()
    return crates


def without_ghosts(text):
    """The text without each `requires {..}` and `ensures {..}` between a signature and its body, and without each ghost item:
    a `ghost use`, a ghost field, and what a trait or an impl has as ghost."""
    parts, at = [], 0
    start = r"\n(?:[ \t]+(?:requires|ensures)\b[^{;]*\{|[ \t]*(?:pub )?ghost\b[^{;]*[{;])"
    for match in re.finditer(start, text):
        if match.start() < at:
            continue
        depth, end = int(text[match.end() - 1] == "{"), match.end()
        while depth:
            depth += {"{": 1, "}": -1}.get(text[end], 0)
            end += 1
        if "ghost" in match.group() and text[end] in ",;":
            end += 1
        parts.append(text[at:match.start()])
        at = end
    return "".join(parts) + text[at:]


def stripped(text):
    """A Rattle file as Rust."""
    text = without_ghosts("\n" + text)
    text = re.sub(r"^[ \t]*#!?\[(?:tactic|cycle)\b.*?\]\n", "", text, flags=re.M | re.S)
    text = re.sub(r"^[ \t]*#\[derive\(Drop\)\]\n|(?::| \+) Drop\b", "", text, flags=re.M)
    text = re.sub(r"\bstd::(io|fs)\b", r"rattle::\1", text)
    text = text.replace("std::convert::AsSlice", "rattle::AsSlice")
    text = text.replace("fn fmt<W: fmt::Write>(&self, f: &mut Formatter<W>)", "fn fmt(&self, f: &mut Formatter)")
    text = re.sub(r"^fn main\((\w+): HostRuntime\)(.*)\{$", r"fn main()\2{ let \1 = HostRuntime;", text, flags=re.M)
    return "use rattle::{print, println, HostRuntime, Input, Print};\n" + text


def strip_file(source, target):
    """Writes one file, if it is to change."""
    text = stripped(source.read_text())
    target.parent.mkdir(parents=True, exist_ok=True)
    if not target.is_file() or target.read_text() != text:
        target.write_text(text)


def manifest(name, crates):
    lines = ["[package]", f'name = "{name}"', 'version = "0.0.0"', 'edition = "2024"', ""]
    if name == EXPORTED:
        lines += ["[lib]", 'name = "x86_vcpu"', 'crate-type = ["cdylib"]', ""]
    lines += ["[lints.rust]", 'warnings = "allow"', "", "[dependencies]"]
    needed = crates[name] + ["rattle"] * (name != "rattle")
    lines += [f'{d} = {{ path = "../{d}" }}' for d in needed]
    return "\n".join(lines) + "\n"


def strip_all(repository, out):
    """The whole repository; returns the crates with their dependencies."""
    crates = dependencies(repository)
    crates["rattle"] = []
    out.mkdir(parents=True, exist_ok=True)
    members = []
    for name in crates:
        source = repository / "crates" / name / "src"
        if (KIT / name).is_dir():
            shutil.copytree(KIT / name, out / name, dirs_exist_ok=True)
        elif source.is_dir():
            for file in source.rglob("*.rt"):
                strip_file(file, out / name / "src" / file.relative_to(source).with_suffix(".rs"))
        else:
            raise SystemExit(f"crates.txt names {name}, and crates/{name}/src is not there")
        (out / name / "Cargo.toml").write_text(manifest(name, crates))
        members.append(f'"{name}"')
    (out / "Cargo.toml").write_text(WORKSPACE.format(members=", ".join(members)))
    return crates


if __name__ == "__main__":
    strip_all(Path(sys.argv[1]).resolve(), Path(sys.argv[2]))

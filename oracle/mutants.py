#!/usr/bin/env python3
"""Breaks the port's source in many small ways, builds each mutant unproved, and shows which run notices it.

usage: oracle/mutants.py [--cases N] [--only TEXT] [--by NAME]

The crates are turned to Rust by tools/strip.py. A mutation is a text, found wherever in the library crates it stands, and what takes its place. A mutant
is run by every program with a kept output that depends on the changed crate, and by the differential run where the exported functions depend on it.

It prints a table in Markdown. Exit status: 0 if every mutant is noticed or its survival is explained in mutations.py, and every
mutation applies, its text standing in the library crates exactly once; 3 if the original can't be built; else 1. With --only, the mutations whose file or
text contains TEXT. With --by, the run NAME alone: a mutant of a crate that it does not use survives.
"""

import argparse
import os
import subprocess
import sys
from itertools import zip_longest
from pathlib import Path

HERE = Path(__file__).resolve().parent
REPOSITORY = HERE.parent
WORK = HERE / "target" / "mutants"
sys.path.insert(0, str(HERE / "tools"))
sys.path.insert(0, str(HERE))

import strip  # noqa: E402
from mutations import MUTATIONS  # noqa: E402

SECONDS = 300
LIST_MARK = b"made by oracle/lists"


def run(command, **options):
    return subprocess.run(command, capture_output=True, timeout=SECONDS, **options)


def build():
    """Builds the workspace; the errors if it fails."""
    done = run(["cargo", "build", "--offline", "--quiet"], cwd=WORK)
    return "" if done.returncode == 0 else done.stderr.decode()


def build_differential(library):
    """The differential program over this shared library, kept apart from the one over the archive."""
    environment = dict(os.environ, X86_VCPU_ARCHIVE=str(library))
    done = run(["cargo", "build", "--offline", "--quiet", "--release", "-p", "differential"], cwd=HERE, env=environment)
    if done.returncode != 0:
        raise SystemExit(done.stderr.decode())
    program = WORK / "differential"
    program.write_bytes((HERE / "target/release/differential").read_bytes())
    program.chmod(0o755)
    return program


def dependants(crates, name):
    """The crate and all that depend on it."""
    found = {name}
    while True:
        more = {crate for crate, needs in crates.items() if found & set(needs)} - found
        if not more:
            return found
        found |= more


class Program:
    """A program of the repository on its kept input, beside its files if it reads some. Where it replays lists, `said` names the one that notices a mutant."""

    def __init__(self, name, folder):
        self.name = self.said = name
        given = folder / "stdin"
        self.input = given.read_bytes() if given.is_file() else b""
        self.files = folder / "data" if (folder / "data").is_dir() else folder
        self.expected = (folder / "stdout").read_bytes()
        self.lists = LIST_MARK in self.input.split(b"\n")[0]
        self.own_input = self.files != folder or (self.input != b"" and not self.lists)

    def notices(self):
        try:
            done = run([str(WORK / "target/debug" / self.name)], input=self.input, cwd=self.files)
        except subprocess.TimeoutExpired:
            self.said = self.name
            return True
        self.said = f"{self.name}: {self.first_differing_list(done.stdout)}" if self.lists else self.name
        return done.returncode != 0 or done.stdout != self.expected

    def first_differing_list(self, output):
        """The list, named by its comment, whose answers are the first that differ."""
        name = ""
        for expected, line in zip_longest(self.expected.split(b"\n"), output.split(b"\n")):
            if expected is not None and LIST_MARK in expected:
                name = expected[2:].split(b",")[0].decode()
            if expected != line:
                break
        return name


def programs(crates):
    """The programs that have a kept output, those that read lists or nothing first."""
    folders = {name: REPOSITORY / "crates" / name for name in crates}
    found = [Program(name, folder) for name, folder in folders.items() if (folder / "stdout").is_file()]
    return {program.name: program for program in sorted(found, key=lambda program: program.own_input)}


class Differential:
    name = said = "differential"

    def __init__(self, program, cases):
        self.command = [str(program), str(cases)]
        self.environment = dict(os.environ, LD_LIBRARY_PATH=str(WORK / "target/debug"))

    def notices(self):
        try:
            return run(self.command, env=self.environment).returncode != 0
        except subprocess.TimeoutExpired:
            return True


def main():
    parser = argparse.ArgumentParser()
    parser.add_argument("--cases", type=int, default=20000)
    parser.add_argument("--only", default="")
    parser.add_argument("--by", default="")
    options = parser.parse_args()

    prepared = subprocess.run([str(HERE / "prepare.sh")])
    if prepared.returncode != 0:
        return prepared.returncode
    crates = strip.strip_all(REPOSITORY, WORK)
    errors = build()
    if errors:
        raise SystemExit(errors)
    checks = programs(crates)
    if strip.EXPORTED in crates:
        library = WORK / "target/debug/libx86_vcpu.so"
        checks[strip.EXPORTED] = Differential(build_differential(library), options.cases)
    if options.by:
        checks = {name: check for name, check in checks.items() if check.name == options.by}
        if not checks:
            raise SystemExit(f"no run is called {options.by}")
    wrong = [check.name for check in checks.values() if check.notices()]
    if wrong:
        raise SystemExit(f"not a mutant, and yet noticed by {', '.join(wrong)}")

    sources = library_sources(crates)
    located = [(places(sources, mutation), mutation) for mutation in MUTATIONS]
    chosen = [(found, m) for found, m in located if options.only in f"{' '.join(found)} {m.old} {m.new}"]
    print("| file | from | to | noticed by |")
    print("|---|---|---|---|")
    counts = {"noticed": 0, "explained": 0, "wrong": 0}
    for found, mutation in chosen:
        kind, verdict = try_mutation(found, mutation, crates, checks)
        counts[kind] += 1
        cell = lambda text: "`" + " ".join(text.split()).replace("|", "\\|") + "`"
        print(f"| {', '.join(found)} | {cell(mutation.old)} | {cell(mutation.new)} | {verdict} |", flush=True)
    print()
    print(f"{len(chosen)} mutants: {counts['noticed']} noticed, {counts['explained']} survive and are explained, "
          f"{counts['wrong']} survive unexplained or do not apply")
    return int(counts["wrong"] != 0)


def library_sources(crates):
    """The text of each file of the library crates, by CRATE/src/FILE."""
    found = {}
    for name in crates:
        folder = REPOSITORY / "crates" / name / "src"
        if not (folder / "main.rt").is_file():
            for path in sorted(folder.rglob("*.rt")):
                found[f"{name}/src/{path.relative_to(folder)}"] = path.read_text()
    return found


def places(sources, mutation):
    """The files that have a mutation's text, one as often as it stands there."""
    return [file for file, text in sources.items() for _ in range(text.count(mutation.old))]


def try_mutation(found, mutation, crates, checks):
    """Builds and runs one mutant: its kind and what to say of it."""
    if len(found) != 1:
        return "wrong", f"DOES NOT APPLY: {len(found)} places"
    crate, _, inside = found[0].partition("/src/")
    text = (REPOSITORY / "crates" / found[0]).read_text()
    target = (WORK / crate / "src" / inside).with_suffix(".rs")
    original = target.read_text()
    target.write_text(strip.stripped(text.replace(mutation.old, mutation.new)))
    try:
        errors = build()
        if errors:
            return "wrong", "DOES NOT APPLY: it does not compile"
        affected = dependants(crates, crate)
        running = [check for name, check in checks.items() if name in affected]
        for check in running:
            if check.notices():
                if mutation.survives:
                    return "wrong", f"{check.said}, BUT IT WAS SAID TO SURVIVE"
                return "noticed", check.said
        if mutation.survives:
            return "explained", f"none: {mutation.survives}"
        return "wrong", f"SURVIVES {len(running)} runs"
    finally:
        target.write_text(original)


if __name__ == "__main__":
    sys.exit(main())

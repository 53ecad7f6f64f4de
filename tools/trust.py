#!/usr/bin/env python3
"""Prints the two tables of docs/TRUST.md.

Usage: tools/trust.py [--list | --write] (in the repository's root). With --write they go to the end of the page. The first table counts what must be read: the definitions in specs/ that the contracts of
the exported functions name, and those that they name in turn, and so for each of the statements beside them. The
second has each library crate's functions and lines. Lines are those with content; blank ones and comments do not count. With --list it prints the definitions of the first table.
"""
import os
import re
import sys

PAGE = "docs/TRUST.md"
EXPORTS = "crates/x86_vcpu_c/src"
LISTS = ["crates/calls/specs/DemandThree.antt", "crates/calls/specs/CallContracts.antt"]
CAPABILITY_WORDS = ["crates/calls/specs/CapabilityWords.antt"]
TRIALS = ["crates/trials/specs/Reference.antt"]
WALKS = ["crates/guest_paging/specs/Laws.antt"]
EDITS = ["crates/intercepts/specs/TwoHands.antt"]
# What the statements judge and so do not rest on: setup; over lists the other steps of a session too, and what is said nothing of (the words of an answer).
SETUP = {"setup_of", "io_bitmap_set", "msr_bitmap_set"}
# Of trials: the trial, and the calls, of which it says that a trial tells them, whatever they do.
TRIED = {"trial_of", "report_call", "entry_call", "port_call", "msr_call"}
# Of page walks: the walk.
WALKED = {"page_walk_of"}
# Of edits: the edits, setup, and how an intercept is read.
EDITED = {"port_call", "msr_call", "setup_call", "port_intercept", "msr_intercept"}
STEPS = SETUP | {"queue_event", "inject_interrupt", "entry", "write_field", "set_register", "apic_value", "exit_report", "answer_words"}
# Files that tools/vmcs_names.py and tools/exit_reasons.py write.
GENERATED = re.compile(r"/Names/|/(Named|VmxExitReason|ExitReasons)\.antt$")

START = re.compile(r"\s*(?:abbrev |unfoldable |pub )*(?:record |data )?(?!use\b|mod\b|module\b|infix)([^\s:(){}]+)(?=[^=]*(?::|where))")
USE = re.compile(r"(?:ghost )?use Rattle\.(\w+)\.specs\.([\w.«»']+?)(?:\.\{(.*)\}| as (\w+))?;?$")


def content(text):
    """The lines of a text that are neither blank nor comments."""
    return [line for line in text.split("\n") if line.strip() and not re.match(r"\s*(//|--)", line)]


class Module:
    """A file of specs/: its definitions by name, and where the names that it imports are."""

    def __init__(self, path):
        self.path, self.blocks, self.names = path, [], {}
        self.imports, self.aliases = imported(open(path).read())
        for line in content(open(path).read()):
            if re.match(r"\s*(use|module|infix|pub mod)\b", line):
                continue
            start = re.match(r"(  )?(abbrev|unfoldable|pub record|record|pub data|data)\b", line) and START.match(line)
            if start:
                self.blocks.append([])
                self.names[start.group(1)] = len(self.blocks) - 1
            if self.blocks:
                self.blocks[-1].append(line)
        for number, block in enumerate(self.blocks):
            if re.match(r"\s*(pub )?data\b", block[0]):
                constructors = re.findall(r"^\s+(?:pub )?(\S+) :", "\n".join(block), re.M)
                self.names.update({name: number for name in constructors if name not in self.names})


def imported(text):
    """By name where an import is from, and by alias which module it is: each as crate and dotted path."""
    names, aliases = {}, {}
    for line in text.split("\n"):
        found = USE.match(line)
        if found and os.path.isdir("crates/" + found.group(1)):
            crate, path, listed, alias = found.groups()
            for name in listed.split(", ") if listed else []:
                names[name] = (crate, path)
            if alias:
                aliases[alias] = (crate, path)
    return names, aliases


class Reading:
    """The definitions that are read, from some names on."""

    def __init__(self, stops=frozenset()):
        self.stops, self.modules, self.blocks, self.types, self.stopped = stops, {}, set(), set(), set()

    def module(self, crate, path):
        file = "crates/%s/specs/%s.antt" % (crate, path.replace(".", "/"))
        if file not in self.modules:
            self.modules[file] = Module(file)
        return self.modules[file]

    def follow(self, text, imports, aliases, own=None):
        """Takes every name of a text that is defined in specs/."""
        for token in re.findall(r"[^\s(){};,]+", text):
            token = token.replace("«", "").replace("»", "")
            first, _, name = token.partition(".")
            if name and first in aliases:
                self.take(aliases[first], name)
            for name in dict.fromkeys((token, first, "◌%s◌" % token)):
                if own and name in own.names:
                    self.add(own, own.names[name])
                elif name in imports:
                    self.take(imports[name], name)

    def take(self, place, name):
        crate, path = place
        if path.startswith("declared."):
            self.types.add((crate, path[len("declared."):].removesuffix(".TheVariants")))
        elif name in self.stops:
            self.stopped.add(name)
        else:
            module = self.module(crate, path)
            if name not in module.names:
                raise SystemExit("%s: no definition %s" % (module.path, name))
            self.add(module, module.names[name])

    def add(self, module, number):
        if (module.path, number) not in self.blocks:
            self.blocks.add((module.path, number))
            self.follow("\n".join(module.blocks[number]), module.imports, module.aliases, module)

    def lines(self, generated):
        return sum(len(self.modules[path].blocks[number]) for path, number in self.blocks if bool(GENERATED.search(path)) == generated)

    def type_lines(self):
        """The lines of the structs and enums of the code that the definitions are about."""
        total = 0
        for crate, path in self.types:
            *folders, name = path.split(".")
            code = open("crates/%s/src/%s.rt" % (crate, "/".join(folders) or "lib")).read()
            total += len(content(re.search(r"^(?:pub )?(struct|enum) %s \{.*?^\}" % name, code, re.S | re.M).group(0)))
        return total

    def row(self, what):
        written, generated, types = self.lines(False), self.lines(True), self.type_lines()
        return "| %s | %d | %d | %d | %d | %d |" % (what, len(self.blocks), written, generated, types, written + generated + types)


def exports():
    """What the contracts of the exported functions name."""
    reading, functions = Reading(), 0
    for name in sorted(os.listdir(EXPORTS)):
        text = open(os.path.join(EXPORTS, name)).read()
        for contract in re.findall(r'^pub extern "C" fn.*?^\{', text, re.S | re.M):
            functions += 1
            reading.follow(" ".join(re.findall(r"(?:ensures|requires)(?: \w+)? \{(.*?)\}$", contract, re.S | re.M)), *imported(text))
    return reading, functions


def statements(paths, judged):
    """What the statements of some files name."""
    reading = Reading(judged)
    for path in paths:
        crate, rest = re.match(r"crates/(\w+)/specs/(.*)\.antt", path).groups()
        module = reading.module(crate, rest)
        for number in range(len(module.blocks)):
            reading.add(module, number)
    if reading.stopped != judged:
        raise SystemExit("not named by the statement: %s" % ", ".join(sorted(judged - reading.stopped)))
    return reading


def lines_below(folder, end):
    """The lines with content of the files below a folder, and how many functions they have."""
    kept = []
    for at, _, names in os.walk(folder):
        for name in names:
            if name.endswith(end):
                kept += content(open(os.path.join(at, name)).read())
    return len(kept), sum(1 for line in kept if re.match(r"\s*(pub )?(extern \"C\" )?fn ", line))


def crate_row(name):
    code, functions = lines_below(f"crates/{name}/src", ".rt")
    return name, functions, code, lines_below(f"crates/{name}/specs", ".antt")[0], lines_below(f"crates/{name}/proofs", ".antt")[0]


def main():
    (contracts, functions), lists, words = exports(), statements(LISTS, STEPS), statements(CAPABILITY_WORDS, SETUP)
    trials, walks, edits = statements(TRIALS, TRIED), statements(WALKS, WALKED), statements(EDITS, EDITED)
    if "--list" in sys.argv:
        for reading in (contracts, lists, words, trials, walks, edits):
            for path, number in sorted(reading.blocks):
                print(path, reading.modules[path].blocks[number][0].strip())
            print("types:", *sorted("%s::%s" % each for each in reading.types), "\n")
        return
    lines = ["| to believe | definitions | lines | generated names | types of the code | in all |", "|---|---|---|---|---|---|"]
    lines.append(contracts.row("the contracts of the %d exported functions" % functions))
    lines.append(lists.row("`whole_list`, and that its steps are the contracts"))
    lines.append(words.row("`not_looked_at` and `older_board`"))
    lines.append(trials.row("`six_trials`, beside the calls"))
    lines.append(walks.row("`session_walks`, beside the reading"))
    lines.append(edits.row("`two_hands`, beside the edits and setup"))
    crates = re.findall(r"^([a-z0-9_]+)(?: staticlib)?:", open("crates.txt").read(), re.M)
    rows = [crate_row(name) for name in crates if not os.path.exists(f"crates/{name}/src/main.rt")]
    lines += ["", "| crate | functions | code | definitions | proofs |", "|---|---|---|---|---|"]
    lines += ["| `%s` | %d | %d | %d | %d |" % row for row in rows]
    lines.append("| all | %d | %d | %d | %d |" % tuple(sum(row[i] for row in rows) for i in range(1, 5)))
    text = "\n".join(lines) + "\n"
    if "--write" in sys.argv:
        page = open(PAGE).read()
        open(PAGE, "w").write(page[: page.index("| to believe")] + text)
    else:
        print(text, end="")


if __name__ == "__main__":
    main()

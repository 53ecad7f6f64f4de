#!/usr/bin/env python3
"""Writes the names of the exit reasons from the enum VmxExitReason of docs/src/src/vmx/definitions.rs.

Usage: tools/exit_reasons.py [--check]     (in the repository's root)

Written are crates/definitions/src/exit_reason.rt (names in code, with a function that hands out all of them) and
crates/definitions/specs/VmxExitReason.antt, ExitReasons.antt (names in definitions). With --check nothing is written, and the exit status is 1
where a file differs from what would be written.
"""
import re
import sys

from generated import write_or_check

ROOT = "crates/definitions/"
source = open("docs/src/src/vmx/definitions.rs").read()
body = re.search(r"pub enum VmxExitReason \{(.*?)\n\}", source, re.S).group(1)
reasons = [(name, int(n)) for name, n in re.findall(r"(\w+) = (\d+),", body)]
assert reasons == sorted(reasons, key=lambda r: r[1])

out = {}
text = """// The basic exit reasons (SDM 3D, appendix C) by their names in definitions.rs.
// Ported from the enum VmxExitReason of x86_vcpu src/vmx/definitions.rs (Copyright 2025 The Axvisor Team, Apache-2.0). Changed: reserved numbers have no name.
ghost use Rattle.std.specs.Prelude.{◌≡◌};
ghost use Rattle.definitions.specs.ExitReasons.{exit_reasons};

#[derive(Clone, Copy, Debug, PartialEq, Eq, Hash)]
pub enum VmxExitReason {
"""
text += "\n".join("    %s = %d,\n" % r for r in reasons) + "}\n"
text += "\nconst EXIT_REASONS: [u32; %d] = [\n" % len(reasons)
text += "".join("    VmxExitReason::%s as u32,\n" % name for name, _ in reasons) + "];\n"
text += """
// Every name in the order of its number: the contract ties each to its number.
pub fn exit_reasons() -> [u32; %d]
    ensures { result ≡ exit_reasons }
{
    EXIT_REASONS
}
""" % len(reasons)
out["src/exit_reason.rt"] = text

text = """-- The basic exit reasons (SDM 3D, appendix C) by their names in definitions.rs. Assumes nothing.
use Rattle.std.specs.Prelude.{ℕ}
"""
text += "".join("\nabbrev pub %s : ℕ\n%s = %d\n" % (name, name, n) for name, n in reasons)
out["specs/VmxExitReason.antt"] = text

text = """-- All exit reasons by name, ascending. Assumes nothing.
use Rattle.std.specs.Prelude.{ℕ, List, [], ◌∷◌}
use Rattle.definitions.specs.VmxExitReason as VmxExitReason

unfoldable pub exit_reasons : List ℕ
exit_reasons =
    """
text += "\n    ∷ ".join("VmxExitReason.%s" % name for name, _ in reasons) + "\n    ∷ []\n"
out["specs/ExitReasons.antt"] = text

sys.exit(write_or_check(out, ROOT))

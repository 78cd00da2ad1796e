"""A small repository with a stub of the toolchain, for tests of what runs of ./test keep for later runs. A stub can change a
file of the repository while it works: its command is $MEANWHILE."""
import os
import shutil

from dev.crates import TOP
from dev.testing import TestCase, environment

RT = """#!/bin/sh
case $1 in
  doc) echo "$KIT/page.md" ;;
  version) echo "stand-in-1 logic 0123456789abcdef" ;;
  *) exit 2 ;;
esac
"""
# What the stub of the prover does: it makes of a crate's source its archive, and of copies of definitions it says that the
# examples of the changed one, which are in the first, are refused.
WRITES = 'while [ $# -gt 0 ]; do case $1 in -o) cp src/lib.rt "$2" ;; esac; shift; done'
REFUSES = """for file in proofs/H0_*Examples.antt; do
  if [ -e "$file" ]; then echo "$file:$(wc -l <"$file"):1: error: it isn't so"; fi
done"""
PROVER = f"""#!/bin/sh
(IFS='|'; echo "$*") >>"$NOTES"
eval "$MEANWHILE"
if grep -qs wrong src/lib.rt; then exit 1; fi
{WRITES}
{REFUSES}
echo "logic=proved holes=1"
"""
# This stub of the prover refuses each function whose text has `wrong` in it, and notes the functions that it looked at. If
# there is a file `killed`, it is killed in the midst of its report.
CHECK = """#!/usr/bin/env python3
import os, pathlib, re, signal, subprocess, sys
words = sys.argv[1:]
crate = words[words.index("--crate-name") + 1]
only = [words[at + 1] for at, word in enumerate(words) if word == "--only"]
with open(os.environ["NOTES"], "a") as notes:
    notes.write("".join(f"{crate} {name}\\n" for name in only))
subprocess.run(os.environ["MEANWHILE"], shell=True)
text = pathlib.Path("src/lib.rt").read_text()
for name in only:
    found = re.search(rf"^pub fn {name}\\b.*?^}}", text, re.M | re.S)
    if not found or "wrong" in found[0]:
        print("note: src/lib.rt:1:1: it is not proved that what the function ensures holds (`returns`)")
        print(f"fn {crate}::{name}: not proved")
    else:
        print(f"fn {crate}::{name}: depends on a hole")
    if pathlib.Path("killed").exists():
        sys.stdout.flush()
        os.kill(os.getpid(), signal.SIGKILL)
print("holes=1")
"""
MUTANTS = (("one-wrong", "    n + n", "    wrong(n)", "twice"), ("other-wrong", "    n⏎", "    wrong⏎", "same"),
           ("right", "    n + n", "    2 * n", "twice"))
FILES = {
    "crates.txt": "one:\nabove staticlib: one\none_examples: one\nbase:\nlow: base\nsmall: low\n",
    "HANDLES": "",
    "crates/one/src/lib.rt": "//! One.\n#![tactic(auto)]\n",
    "crates/one/specs/One.antt": "-- One.\npub one : Nat\none = 1\n",
    "crates/one/must-fail/definitions.md": "# Changes\n\n## two\n\n```\nfile: specs/One.antt\nold: one = 1\nnew: one = 2\n"
                                           "refused by: one_is_one\n```\n",
    "crates/above/src/lib.rt": "//! The archive's text.\n",
    "crates/one_examples/src/lib.rt": "//! Examples.\n",
    "crates/one_examples/proofs/Examples.antt": "use Rattle.one.specs.One.{one}\n\n-- one\npub one_is_one : one ≡ 1\none_is_one = refl\n",
    "crates/base/src/lib.rt": "//! Base.\n",
    "crates/low/src/lib.rt": "//! Low.\n\npub fn low() -> u64\n    ensures { result ≡ 1 }\n{\n    1\n}\n\n"
                             "pub const fn seen() -> u64 {\n    1\n}\n\npub fn made() -> impl Copy {\n    1\n}\n",
    "crates/low/src/deep/nested.rt": "//! Nested.\n",
    "crates/low/specs/inside/Nested.antt": "-- Nested.\n",
    "crates/low/specs/Low.antt": "-- Low.\npub low : Nat\nlow = 1\n",
    "crates/low/proofs/Lemma.antt": "-- A lemma of low.\n",
    "crates/low/proofs/low/Answers.antt": "-- An answer of low.\n",
    "crates/small/src/lib.rt": "//! Small.\n\npub fn twice(n: u64) -> u64\n    ensures { result ≡ n + n }\n{\n    n + n\n}\n\n"
                               "pub fn same(n: u64) -> u64\n    ensures { result ≡ n }\n{\n    n\n}\n",
    "crates/small/src/other.rt": "//! Another file.\n\npub fn other() -> u64\n    ensures { result ≡ 2 }\n{\n    2\n}\n",
    "crates/small/specs/Small.antt": "-- Small.\npub small : Nat\nsmall = 1\n",
    "crates/small/proofs/twice/Answers.antt": "-- An answer of twice.\n",
    "crates/small/must-fail/mutants.md": "# Mutants\n\n" + "\n".join(
        f"## {name}\n\n```\nfile: src/lib.rt\nold: {old}\nnew: {new}\nrefused in: {function}: returns\n```\n"
        for name, old, new, function in MUTANTS),
    "read.txt": "right\n",
}


class KeptTest(TestCase):
    """A test with a repository of its own in `self.top`, with the scripts of this one, and a cache of its own."""

    PROVER = PROVER

    def setUp(self):
        self.top, self.kit, self.notes = self.folder / "top", self.folder / "kit", self.folder / "notes"
        shutil.copytree(TOP / "dev", self.top / "dev", ignore=shutil.ignore_patterns("__pycache__", "tests"))
        self.write({f"top/{name}": text for name, text in FILES.items()})
        self.write({"kit/bin/rt": RT, "kit/bin/rattle": self.PROVER, "kit/KIT-ID": "1", "kit/WHAT": ""})
        for name in ("rt", "rattle"):
            (self.kit / "bin" / name).chmod(0o755)

    def run_tool(self, tool, *words, meanwhile=""):
        """Returns how a call of a tool of the repository ended, and the notes of the stub."""
        self.notes.write_text("")
        names = {"PATH": f"{self.kit}/bin:{os.environ['PATH']}", "KIT": str(self.kit), "NOTES": str(self.notes),
                 "MEANWHILE": meanwhile, "XDG_CACHE_HOME": str(self.folder / "cache")}
        ended = self.call(self.top / tool, *words, env=environment() | names, cwd=self.top)
        return ended, self.notes.read_text().splitlines()

    def replace(self, name, old, new):
        """Replaces a text in a file below the test's directory, which has to be there; returns the text as it was."""
        before = (self.folder / name).read_text()
        self.assertIn(old, before)
        (self.folder / name).write_text(before.replace(old, new, 1))
        return before

    def replacing(self, name, old, new):
        """Returns the command that replaces a text in a file of the repository."""
        return f"sed -i 's/{old}/{new}/' '{self.top / name}'"

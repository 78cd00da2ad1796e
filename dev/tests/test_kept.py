"""What dev/build/archive, dev/mutants/definitions and dev/mutants/mutants keep for later runs holds for the files that were
judged, and for nothing else. The prover is a stub (dev/tests/kept_repository.py)."""
import os
import re
import shutil
import unittest

from dev.build.kept import SCRIPTS
from dev.crates import TOP
from dev.tests.kept_repository import CHECK, FILES, PROVER, REFUSES, WRITES, KeptTest

SOURCE = "crates/above/src/lib.rt"


# Catches an archive of other text than the sources', or one that is kept under the sum of other sources.
class Archive(KeptTest):
    def build(self, *words, **settings):
        """Returns whether the archive was built, and how often the prover was called."""
        ended, notes = self.run_tool("dev/build/archive", "above", *words, **settings)
        return ended.returncode == 0, len(notes)

    def assert_has(self, text):
        self.assertEqual((self.top / "crates/above/out/libabove.a").read_text(), text)

    def test_arguments_for_the_prover(self):
        _, [line] = self.run_tool("dev/build/archive", "above")
        words = line.split("|")
        named = ("--crate-name", "--crate-type", "--jobs", "--toolchain", "--backend", "--incremental")
        self.assertEqual([words[0], *(words[words.index(word) + 1] for word in named)], [
            "build", "above", "staticlib", "1", f"{self.kit}/toolchain", "llvm", f"{self.top}/crates/above/out/incremental"])

    def test_again(self):
        self.assertEqual(self.build(), (True, 1))
        self.assert_has(FILES[SOURCE])
        shutil.rmtree(self.top / "crates/above/out")
        self.assertEqual(self.build(), (True, 0))
        self.assert_has(FILES[SOURCE])

    def test_anew(self):
        self.assertEqual([self.build("--anew"), self.build(), self.build("--anew")], [(True, 1), (True, 0), (True, 1)])

    def test_crate_without_an_archive(self):
        ended, notes = self.run_tool("dev/build/archive", "one")
        self.assertEqual((ended.returncode, notes), (2, []))

    def test_source_changed_meanwhile(self):
        self.assertEqual(self.build(meanwhile=self.replacing(SOURCE, "text", "letters")), (True, 1))
        self.assert_has(FILES[SOURCE])
        self.assertEqual(self.build(), (True, 1))
        self.assert_has(FILES[SOURCE].replace("text", "letters"))
        self.write({f"top/{SOURCE}": FILES[SOURCE]})
        self.assertEqual(self.build(), (True, 0))
        self.assert_has(FILES[SOURCE])

    def test_sources_changed_since(self):
        for name in ("crates/one/src/lib.rt", "crates/one/specs/One.antt"):
            with self.subTest(name):
                before = self.run_tool("dev/build/archive", "above", "--sum")[0].stdout.strip()
                self.build()
                self.assertEqual(self.build("--sources", before), (True, 0))
                self.write({f"top/{name}": FILES[name] + "-- more\n"})
                self.assertEqual(self.build("--sources", before), (False, 0))
                self.assertEqual(self.build(), (True, 1))

    def test_source_that_is_not_proved(self):
        self.write({f"top/{SOURCE}": "wrong\n"})
        self.assertEqual([self.build(), self.build()], [(False, 1)] * 2)

    def test_prover_killed_after_it_wrote(self):
        self.assertEqual([self.build(meanwhile=f"{WRITES}; kill -9 $$") for _ in range(2)], [(False, 1)] * 2)
        self.assertFalse((self.top / "crates/above/out/libabove.a").exists())

    # Catches what is kept of another toolchain.
    def test_toolchain(self):
        self.build()
        for name, text in (("KIT-ID", "2"), ("WHAT", "more"), ("bin/rattle", PROVER + "# more\n"), ("bin/rattle", PROVER + "# less\n")):
            with self.subTest(f"{name}: {text[-7:]}"):
                self.write({f"kit/{name}": text})
                self.assertEqual([self.build(), self.build()], [(True, 1), (True, 0)])
        with self.subTest("a longer prover of the same time"):
            time = (self.kit / "bin/rattle").stat().st_mtime_ns
            self.write({"kit/bin/rattle": PROVER + "# longer\n"})
            os.utime(self.kit / "bin/rattle", ns=(time, time))
            self.assertEqual([self.build(), self.build()], [(True, 1), (True, 0)])


# Catches changes of definitions that count as refused for definitions or examples which were saved meanwhile.
class Definitions(KeptTest):
    ONE = "definition one/two: "

    def tried(self, *words, **settings):
        """Returns the status, how often the prover was called, and the last two lines."""
        ended, notes = self.run_tool("dev/mutants/definitions", "--gate", *words, **settings)
        return ended.returncode, len(notes), *(ended.stdout + ended.stderr).splitlines()[-2:]

    def test_again(self):
        lines = (f"{self.ONE}refused, as it must be: one_is_one", "1 passed, 0 failed")
        self.assertEqual([self.tried(), self.tried(), self.tried("--anew")], [(0, 1, *lines), (0, 0, *lines), (0, 1, *lines)])

    def test_file_saved_meanwhile(self):
        for name, command in (
                ("crates/one/specs/One.antt", "sed -i 's/1$/1 /'"), ("crates/one_examples/proofs/Examples.antt", "sed -i 's/1$/1 /'"),
                ("dev/statements/definition_reader.py", "sed -i '$ a # more'")):
            with self.subTest(name):
                self.assertEqual(self.tried("--anew", meanwhile=f"{command} '{self.top / name}'")[:2], (0, 1))
                self.assertEqual(self.tried()[:2], (0, 1))

    def test_changed_file(self):
        self.tried()
        for name in [*scripts(), "crates/one/must-fail/definitions.md", "crates/low/specs/Low.antt",
                     "crates/one_examples/proofs/Examples.antt"]:
            with self.subTest(name):
                before = (self.top / name).read_text()
                (self.top / name).write_text(before.replace("# Changes", "# All changes") if name.endswith(".md") else
                                             before + ("-- more\n" if name.endswith(".antt") else "# more\n"))
                self.assertEqual(self.tried()[:2], (0, 1))
                (self.top / name).write_text(before)
                self.assertEqual(self.tried()[:2], (0, 0))

    # Without the copied example the stub refuses nothing.
    def test_not_refused(self):
        for _ in range(2):
            status, calls, line, _ = self.tried(meanwhile="rm -f proofs/H0_*Examples.antt")
            self.assertEqual((status, calls, line.startswith(f"{self.ONE}NOT REFUSED")), (1, 1, True), line)
        self.assertEqual(self.tried()[:2], (0, 1))

    def test_prover_killed_after_it_refused(self):
        for _ in range(2):
            status, calls, line, _ = self.tried(meanwhile=f"{REFUSES}; kill -9 $$")
            self.assertEqual((status, calls, line.startswith(f"{self.ONE}NOT TRIED")), (1, 1, True), line)

    # Without --gate the changes are tried by `rt check`, which the stub of rt doesn't know.
    def test_without_gate(self):
        self.tried()
        self.assertEqual(self.run_tool("dev/mutants/definitions")[0].returncode, 1)


def scripts():
    """Returns the names of the scripts that decide about mutants and definitions."""
    return sorted(str(path.relative_to(TOP)) for name in SCRIPTS for path in TOP.glob(name) if path.is_file())


# Files on which what is kept of the mutants of the crate small depends, and others; each with a text to change.
DECIDING = (
    ("crates/low/src/lib.rt", "result ≡ 1", "result ≡ 1 + 0"), ("crates/low/src/lib.rt", "u64 {\n    1", "u64 {\n    2"),
    ("crates/low/src/lib.rt", "Copy {\n    1", "Copy {\n    2"), ("crates/low/src/deep/nested.rt", "Nested", "Below"),
    ("crates/low/specs/Low.antt", "low = 1", "low = 2"), ("crates/low/specs/inside/Nested.antt", "Nested", "Below"),
    ("crates/low/proofs/Lemma.antt", "lemma", "theorem"), ("crates/base/src/lib.rt", "Base", "Lowest"),
    ("crates.txt", "low:", "low: std"), ("crates.txt", "small: low", "small: low std"), ("crates.txt", "base:", "base: std"),
    ("crates/small/src/lib.rt", "//! Small", "//! Tiny"), ("crates/small/src/lib.rt", "    n + n\n}", "    n + n\n    // more\n}"),
    ("crates/small/src/other.rt", "    2\n", "    1 + 1\n"), ("crates/small/specs/Small.antt", "small = 1", "small = 2"),
    ("crates/small/proofs/twice/Answers.antt", "answer", "reply"), ("crates/small/must-fail/mutants.md", "    wrong⏎", "    wrong + 1⏎"),
)
WITHOUT_WEIGHT = (
    ("crates/low/src/lib.rt", "{\n    1\n}\n\npub", "{\n    1 + 0\n}\n\npub"), ("crates/low/proofs/low/Answers.antt", "answer", "reply"),
    ("crates/one/src/lib.rt", "One", "Eins"), ("read.txt", "right", "left"), ("crates.txt", "one_examples: one", "one_examples: one std"),
)


# Catches a verdict on a mutant that is kept without the crates below, without the toolchain or for another mutant; a mutant
# that isn't refused and is kept; `--anew` that tries nothing.
class Mutants(KeptTest):
    PROVER = CHECK
    BOTH, KEPT = {"twice", "same"}, {"twice"}  # the functions that are tried, if nothing is kept; and else

    def gate(self, *words, **settings):
        """Returns the status, the last line, the functions at which the prover looked, and the mutants that are refused."""
        ended, notes = self.run_tool("dev/mutants/mutants", "--gate", "--crate", "small", *words, **settings)
        looked_at = {line.split()[1].removesuffix("_mutant_2") for line in notes}
        refused = re.findall(r"^mutant small/([\w-]+): refused, as it must be", ended.stdout, re.M)
        return ended.returncode, ended.stdout.splitlines()[-1], looked_at, sorted(refused)

    def assert_gate(self, functions, *words):
        """Fails unless these functions are tried, and the mutants are refused but for the one that means the same."""
        self.assertEqual(self.gate(*words), (1, "2 passed, 1 failed", functions, ["one-wrong", "other-wrong"]))

    def test_again_and_anew(self):
        self.assert_gate(self.BOTH)
        self.assert_gate(self.KEPT)
        self.assertIn("small: 2 of 3 mutants were refused in earlier runs on this machine",
                      self.run_tool("dev/mutants/mutants", "--gate", "--crate", "small")[0].stdout)
        self.assert_gate(self.BOTH, "--anew")
        self.assert_gate(self.KEPT)

    def test_one_by_its_name(self):
        self.assertEqual(self.gate("--anew", "other-wrong"), (0, "1 passed, 0 failed", {"same"}, ["other-wrong"]))

    def assert_changed(self, name, old, new, functions):
        before = self.replace(name, old, new)
        self.assertEqual(self.gate()[2], functions)
        (self.folder / name).write_text(before)

    def test_files_that_decide(self):
        self.gate()
        for names, functions in ((DECIDING, self.BOTH), (WITHOUT_WEIGHT, self.KEPT)):
            for name, old, new in names:
                with self.subTest(f"{name}: {old}"):
                    self.assert_changed(f"top/{name}", old, new, functions)
        self.assert_gate(self.KEPT)

    def test_scripts_that_decide(self):
        self.gate()
        for name in scripts():
            with self.subTest(name):
                text = (self.top / name).read_text()
                self.assert_changed(f"top/{name}", text, f"{text}# more\n", self.BOTH)

    def test_files_of_other_names(self):
        self.gate()
        for name in ("low/src/deep/nested.rt", "low/specs/inside/Nested.antt", "low/proofs/Lemma.antt"):
            with self.subTest(name):
                path = self.top / "crates" / name
                moved = path.rename(path.with_stem("Other"))
                self.assertEqual(self.gate()[2], self.BOTH)
                moved.rename(path)
                self.assert_gate(self.KEPT)

    def test_repository_elsewhere_and_another_toolchain(self):
        self.gate()
        self.top = self.top.rename(self.folder / "elsewhere")
        self.assert_gate(self.KEPT)
        self.assert_changed("kit/WHAT", "", "another toolchain", self.BOTH)

    def test_no_verdict(self):
        for meanwhile in ("kill -9 $PPID", "touch killed", "echo src/lib.rt:1:1: error: it is no text",
                          "echo 'module `Rattle-low-low` is older. Run the lower steps again'"):
            with self.subTest(meanwhile):
                self.assertEqual(self.gate("--anew", meanwhile=meanwhile)[1], "0 passed, 3 failed")
        self.assert_gate(self.BOTH)

    def test_another_goal(self):
        self.gate()
        self.replace("top/crates/small/must-fail/mutants.md", "in: same: returns", "in: same: returns-in-Ok")
        for _ in range(2):
            self.assertEqual(self.gate(), (1, "1 passed, 2 failed", self.BOTH, ["one-wrong"]))

    def test_no_mutant_of_a_list(self):
        self.gate()
        self.replace("top/crates/small/must-fail/mutants.md", "# Mutants\n", "# Mutants\n\n## nothing\n\nNothing.\n")
        self.assertEqual(self.gate()[1:], ("2 passed, 2 failed", self.KEPT, ["one-wrong", "other-wrong"]))

    def test_file_saved_meanwhile(self):
        for name, old, new in (
                ("crates/small/specs/Small.antt", "small = 1", "small = 3"), ("crates.txt", "low: base", "low: base std"),
                ("crates/small/src/lib.rt", "Small", "Tiny"), ("dev/prover.py", "Runs the prover", "Calls the prover")):
            with self.subTest(name):
                before = (self.top / name).read_text()
                self.gate("--anew", meanwhile=self.replacing(name, old, new))
                self.assertEqual(self.gate()[2], self.BOTH)
                shutil.rmtree(self.folder / "cache")
                (self.top / name).write_text(before)
                self.gate(meanwhile=self.replacing(name, old, new))
                (self.top / name).write_text(before)
                self.assertEqual(self.gate()[2], self.BOTH)


if __name__ == "__main__":
    unittest.main()

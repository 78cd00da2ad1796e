"""./yarib, dev/build/build and bindings/build prove and build what has changed, each crate after those below it, and nothing
else. The prover is a stub (dev/tests/stub_toolchain.py)."""
import concurrent.futures
import os
import re
import time
import unittest

from dev.build.built import LOGIC
from dev.crates import all_crates, below, needs
from dev.prover import kit
from dev.testing import call
from dev.tests.stub_toolchain import TUNABLES, TUNABLES_OF, LauncherTest, begun, started, tools

WHOLE = below(["rt_app"])


def above(crate):
    """Returns the crates of the program that depend on a crate, with it."""
    return {one for one in WHOLE if crate in below([one])}


class Anew(LauncherTest):
    def assert_built(self, crates, **more):
        self.assertEqual(begun(self.assert_starts(**more)), crates)

    # Catches a build that proves nothing again for a changed file of `specs/`, or leaves out a dependent crate.
    def test_changed_file(self):
        for name in ("crates/rt_trie/src/lib.rt", "crates/rt_trie/specs/S.antt", "crates/ya_core/proofs/new/P.antt"):
            with self.subTest(name):
                self.change(name)
                self.assert_built(above(name.split("/")[1]))
                self.assert_built(set())

    # Catches a build that makes only the missing library again.
    def test_library_is_gone(self):
        self.product("rt_trie").unlink()
        self.assert_built(set())
        self.change("crates/rt_app/src/main.rt")
        self.assert_built(above("rt_trie"))

    # Catches a sum without the end of a long file, the names of files or a crate's line of crates.txt.
    def test_long_file_that_ends_differently(self):
        for end in "ab":
            with self.subTest(end):
                (self.top / "crates/rt_diff/src/long.rt").write_text("// " + "x" * 300_000 + end + "\n")
                self.assert_built(above("rt_diff"))

    def test_name_of_a_file_and_line_of_a_crate(self):
        self.change("crates/rt_diff/src/one.rt")
        self.assert_starts()
        for what, command in (("name", "mv crates/rt_diff/src/one.rt crates/rt_diff/src/other.rt"),
                              ("line", "sed -i 's/^rt_diff: /&thiserror /' crates.txt")):
            with self.subTest(what):
                self.assertEqual(self.call("sh", "-c", command, cwd=self.top).returncode, 0)
                self.assert_built(above("rt_diff"))

    def test_newer_file_as_it_was(self):
        (self.top / "crates/rt_cidr/src/lib.rt").touch()
        self.assert_built(set())

    # Catches a build for a changed mutant that the prover must refuse, or for a crate on which the program doesn't depend.
    def test_files_that_do_not_count(self):
        others = [f"crates/{crate}/src/lib.rt" for crate in sorted(set(all_crates()) - WHOLE)]
        for name in ("crates/rt_trie/must-fail/mutants.md", *others, "crates/rt_trie/out/rlib", "README.md", "tests/rows.py"):
            with self.subTest(name):
                self.change(name)
                self.assert_built(set())

    # Catches a sum that depends on a file that the prover doesn't read, or a build that can't copy one.
    def test_files_of_an_editor(self):
        source = self.top / "crates/rt_trie/src"
        (source / ".#lib.rt").symlink_to("user@host.1234:1")
        for name in (".lib.rt.swp", "lib.rt~", "#lib.rt#", "4913", "__pycache__/lib.cpython-311.pyc"):
            with self.subTest(name):
                (source / name).parent.mkdir(exist_ok=True)
                (source / name).write_text("of an editor\n")
                self.assert_built(set())
        self.change("crates/rt_trie/src/lib.rt")
        self.assert_built(above("rt_trie"))

    # Catches a build that uses a library of another toolchain or logic.
    def test_toolchain(self):
        self.assert_built(set(), VERSION="2")
        self.change("crates/rt_app/src/main.rt")
        self.assert_built(WHOLE, VERSION="2")

    def test_logic(self):
        rule, other = self.top / "dev/build/built.py", "0123456789abcdef"
        rule.write_text(rule.read_text().replace(LOGIC, other))
        self.assert_built(WHOLE, LOGIC=other)

    # Catches a launcher that starts the program of a reverted edit, or counts anything below crates/ as built.
    def test_reverted_edit(self):
        source = self.top / "crates/rt_app/src/main.rt"
        text = source.read_text()
        source.write_text(text + "// another\n")
        (source.parents[1] / "out").mkdir(exist_ok=True)
        (source.parents[1] / "out/rt_app").write_text("#!/bin/sh\necho the program of rt run\n")
        (source.parents[1] / "out/rt_app").chmod(0o755)
        source.write_text(text)
        self.assert_built(set())

    # Catches a build that counts a source as built that was changed meanwhile.
    def test_source_changed_meanwhile(self):
        for crate in ("rt_diff", "rt_app"):
            with self.subTest(crate):
                self.change("crates/rt_cidr/src/lib.rt")
                self.start("run", "x", CHANGES=crate)
                self.assertEqual(self.assert_starts().count("end rt_app"), 1)
        self.assert_built(set())

    # Catches a build that keeps each older product or its checksum, or removes a program that may be starting: only the last
    # library is needed.
    def test_what_is_kept(self):
        for _ in range(3):
            self.change("crates/rt_cidr/src/lib.rt")
            self.assert_starts()
        kept = [path.name for path in (self.top / "out/build").glob("*-*") if path.suffix != ".sha256"]
        numbers = {crate: sum(name.startswith(f"{crate}-") for name in kept) for crate in WHOLE}
        self.assertEqual(numbers, {crate: 2 if crate == "rt_app" else 1 for crate in WHOLE})
        sums = (self.top / "out/build").glob("*.sha256")
        self.assertEqual([path.name for path in sums if not path.with_suffix("").exists()], [])


# Catches a launcher that starts a program that is empty, cut or changed, or a build that uses such a library.
class Damaged(LauncherTest):
    def test_program(self):
        program = self.product("rt_app")
        whole = program.read_bytes()
        for name, content in (("empty", b""), ("cut", whole[:-1]), ("changed", whole[:-1] + b"x")):
            with self.subTest(name):
                program.write_bytes(content)
                self.assert_one_line(self.start("run", "x", path="without"), 127)
                ended = self.start("run", "x")
                self.assert_ended(ended, started(["run", "x"], self.top), None)
                self.assertEqual(begun(self.noted()), {"rt_app"})
                self.assertIn(f"{program} is not as it was built", ended.stderr)

    def test_checksum(self):
        program = self.product("rt_app")
        program.with_name(f"{program.name}.sha256").unlink()
        self.assertEqual(begun(self.assert_starts()), {"rt_app"})

    def test_library(self):
        self.product("rt_cidr").write_bytes(b"")
        self.change("crates/rt_app/src/main.rt")
        self.assertIn("rt_cidr", begun(self.assert_starts()))


class Order(LauncherTest):
    IS_BUILT = False

    # Catches a build that proves a crate before one that it needs, doesn't prove a crate that the program needs, or proves
    # another one.
    def test_each_crate_after_those_below(self):
        ended = self.start("run", "x")
        noted = self.noted()
        self.assertEqual(({note.split()[1] for note in noted}, ended.returncode), (WHOLE, 0))
        for crate in sorted(WHOLE):
            with self.subTest(crate):
                for need in sorted(below([crate]) - {crate}):
                    self.assertIn(f"end {need}", noted)
                    self.assertGreater(noted.index(f"begin {crate}"), noted.index(f"end {need}"), need)
                self.assertRegex(ended.stderr, rf"\b{crate}\b")

    # Catches builds without mutual exclusion.
    def test_calls_at_once(self):
        calls = ("run", "lookup", "table", "diff")
        with concurrent.futures.ThreadPoolExecutor(len(calls)) as pool:
            ended = list(pool.map(lambda name: self.start(name, "x"), calls))
        self.assertEqual([one[:2] for one in ended],
                         [(0, started([word, "x"], self.top, TUNABLES_OF.get(word, TUNABLES))) for word in calls])
        self.assertEqual(self.noted().count("begin rt_app"), 1)
        self.change("crates/rt_trie/src/lib.rt")
        with concurrent.futures.ThreadPoolExecutor(2) as pool:
            builds = list(pool.map(lambda name: self.build(name).returncode, ("rt_app", "rt_app")))
        self.assertEqual((builds, self.noted().count("begin rt_trie")), ([0, 0], 1))

    # Catches other arguments for the prover than these, such as ones that disable its checks.
    def test_arguments_for_the_prover(self):
        known = {"--jobs", "--crate-name", "--extern", "-L", "--antt-project", "--logic-built", "--links", "--statements", "-o",
                 "--toolchain", "--backend"}
        self.start("run", "x")
        self.build("yarib_c")
        found = {}
        for text in (self.folder / "notes.words").read_text().split("\n\n")[:-1]:
            words = text.split("\n")
            found[words[words.index("--crate-name") + 1]] = words
        self.assertEqual(set(found), WHOLE | below(["yarib_c"]))
        for crate, words in sorted(found.items()):
            with self.subTest(crate):
                more = {"--crate-type"} if crate == "yarib_c" else set()
                self.assertEqual((words[0], {word for word in words if word.startswith("-")} - known), ("build", more))
                self.assertEqual(words[words.index("--antt-project") + 1], f"{tools()}/kit/rattle/logic/antt-project.json")
                # A program and an archive are compiled; only the statements of a library are needed.
                kind = [word in words for word in ("--statements", "--backend", "--crate-type", "staticlib")]
                self.assertEqual(kind, [False, True] + [crate == "yarib_c"] * 2 if crate in ("rt_app", "yarib_c") else
                                 [True, False, False, False])
                externs = [word.partition("=")[0] for at, word in enumerate(words) if words[at - 1] == "--extern"]
                self.assertEqual(sorted(externs), sorted({"std", *needs()[crate]}))


# Catches a launcher that starts the program of the last build after a failed one, or doesn't report the failure by its
# status.
class Failed(LauncherTest):
    def test_crate_that_is_not_proved(self):
        for crate in ("ya_core", "rt_run", "rt_app"):
            with self.subTest(crate):
                self.change("crates/rt_cidr/src/lib.rt")
                self.change("crates/ya_core/src/lib.rt")
                self.noted()
                ended, log = self.start("run", "x", FAILS=crate), self.top / f"out/build/{crate}.log"
                self.assert_ended(ended, "", None, 126)
                self.assertIn(f"{crate} is not proved; {log}", ended.stderr)
                self.assertEqual(log.read_text(), f"no proof of {crate}\n")
                self.assertNotIn("end rt_app", self.noted())
        self.assertEqual(self.assert_starts().count("end rt_app"), 1)

    # Catches a build that counts as built what a killed prover, a failing linker or a prover without checks left.
    def test_product_that_does_not_count(self):
        for name, settings in (("a prover is killed", {"DIES": "rt_app"}), ("the linker fails", {"LINKER_FAILS": "1"}),
                               ("a prover says of nothing that it is proved", {"SILENT": "rt_app"}),
                               ("a prover says so by another logic", {"STRANGE": "rt_app"}),
                               ("a prover says that there are holes", {"HOLED": "rt_app"})):
            with self.subTest(name):
                self.change("crates/rt_app/src/main.rt")
                self.assert_ended(self.start("run", "x", **settings), "", None, 126)
                self.assertEqual(begun(self.assert_starts()), {"rt_app"})

    # A file may have 100 kB, so that the library of rt_rib, two of whose files have 60 kB, can't be kept: as on a full disk.
    def test_full_disk(self):
        (self.top / "crates/rt_rib/src/lib.rt").write_text("// " + "x" * 60_000 + "\n")
        limited = ("-c", 'trap "" XFSZ; ulimit -f 100; exec "$0" "$@"', self.top / "yarib", "run", "x")
        before = set((self.top / "out/build").glob("rt_[ar][pi][pb]-*"))
        ended = self.start(*limited, by="bash")
        self.assert_ended(ended, "", None, 126)
        self.assertIn("can't be built", ended.stderr.splitlines()[-1])
        self.assertEqual(set((self.top / "out/build").glob("rt_[ar][pi][pb]-*")), before)
        self.assertIn("rt_app", begun(self.assert_starts()))


LIBRARIES = [f"bindings/out/{name}" for name in ("libyarib.a", "libyarib.so.0", "libyarib.so")]


# Catches a build that chooses an archive by its age, or one that doesn't belong to the sources of all crates below; a failed
# build with status 0, or one that replaces the library.
class Library(LauncherTest):
    def build_library(self, **settings):
        """Builds the library for C; returns whether it ended with status 0, and the crates that were proved."""
        self.noted()
        return self.start(by=self.top / "bindings/build", **settings).returncode == 0, begun(self.noted())

    def state(self):
        return [((self.top / name).read_bytes(), (self.top / name).stat().st_ino) for name in LIBRARIES]

    def test_first_build(self):
        self.assertEqual(self.build_library(), (True, below(["yarib_c"]) - WHOLE))
        self.assertEqual([(self.top / name).exists() for name in LIBRARIES], [True] * 3)
        self.assertEqual(self.build_library(), (True, set()))

    def test_changed_crate(self):
        self.build_library()
        for crate in sorted(below(["yarib_c"])):
            with self.subTest(crate):
                source = self.top / "crates" / crate / "src/lib.rt"
                source.write_text(source.read_text() + "// another\n")
                os.utime(source, (time.time() - 1_000_000,) * 2)
                before = self.state()
                for _ in range(2):
                    self.assertFalse(self.build_library(FAILS=crate)[0])
                    self.assertEqual(self.state(), before)
                self.assertEqual(self.build_library(), (True, {one for one in below(["yarib_c"]) if crate in below([one])}))


# The toolchain's own check of the files below the current directory, the first of `rt ci`.
CHECK_FILES = """
import os
import rtlib
crates = rtlib.crates_below(os.getcwd())
for name in sorted(os.listdir()):
    if os.path.isdir(name) and name != ".git":
        rtlib.stop_on_unread(f"{os.getcwd()}/{name}", crates)
"""


# Catches a build that leaves a file or a link that `rt ci` refuses, or depends on the files of ./test, or changes them.
class BesideTheGate(LauncherTest):
    def refused(self):
        """Returns the file below crates that no crate's check reads, by the toolchain on PATH, or None."""
        ended = call(["python3", "-c", CHECK_FILES], cwd=self.top, env=os.environ | {"PYTHONPATH": str(kit() / "bin")})
        named = re.search(rf"no check reads {re.escape(str(self.top))}/(\S+):", ended.stdout + ended.stderr)
        return named[1] if named else None if ended.returncode == 0 else ended

    def test_the_check_refuses_an_unread_file(self):
        unread = self.top / "out/old.rlib/interface/lang/src/lib.rt"
        unread.parent.mkdir(parents=True)
        unread.write_text("")
        self.assertEqual(self.refused(), "out/old.rlib/interface/lang/src/lib.rt")

    def test_after_a_build(self):
        self.change("crates/rt_app/src/main.rt")
        self.assert_starts()
        self.assertIsNone(self.refused())
        self.assertEqual(self.start(by=self.top / "bindings/build").returncode, 0)
        self.assertIsNone(self.refused())

    def test_during_a_build(self):
        self.change("crates/rt_cidr/src/lib.rt")
        with self.begun_build("rt_trie"):
            self.assertIsNone(self.refused())

    def test_files_of_the_gate(self):
        files = {self.top / name: name for name in (
            "crates/rt_cidr/out/rlib/rt_cidr.rlib/interface/lang/src/lib.rt", "crates/rt_app/out/rt_app", "crates/yarib_c/out/yarib_c")}
        for path, text in files.items():
            path.parent.mkdir(parents=True)
            path.write_text(text)
        for name in ("crates/rt_app/src/main.rt", "crates/rt_cidr/src/lib.rt"):
            with self.subTest(name):
                self.change(name)
                self.assert_starts()
                self.build("yarib_c")
                self.assertEqual({path: path.read_text() for path in files}, files)


if __name__ == "__main__":
    unittest.main()

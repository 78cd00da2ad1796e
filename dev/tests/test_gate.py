"""./test runs what its options say, and out/gate.json says what it judged; in a repository of stubs
(dev/tests/gate_repository.py)."""
import datetime
import os
import re
import shutil
import signal
import subprocess
import time
import unittest

from dev.tests.gate_repository import LISTED, MODULES, QUICK, GateTest
from dev.tests.stub_toolchain import heed_signals

# Variables that a caller may have set for other work.
OTHERS = {"YARIB_UNPROVED": "1", "YARIB_ARCHIVE": "/none", "YARIB_LIBRARY": "/none", "YARIB_OTHER": "1", "YARIB_PROGRAM": "/none"}


class Options(GateTest):
    # Catches a gate whose --quick ends with status 1 though all passed, or runs something else.
    def test_quick(self):
        ended = self.assert_passes("--quick")
        self.assertRegex(ended.stdout.splitlines()[-1], r"; nothing was proved$")
        called = {line.split()[0] for line in self.one.notes.read_text().splitlines()}
        self.assertEqual(called - {"rt", "dev/build/unproved"}, QUICK)
        self.assertEqual([words for words in self.one.calls("rt") if words[:1] == ["ci"]], [])
        verdict = self.one.verdict()
        self.assertEqual((verdict["verdict"], verdict["status"], verdict["mode"]), ("passed", 0, "quick"))
        self.assertEqual(["bindings.tests.test_c" in line for line in verdict["left_out"]], [True])

    # Catches a gate that leaves something out with --anew, or tries all again without it; and libraries of earlier runs that
    # count as those of this one.
    def test_anew(self):
        for words, mode in (([], "full"), (["--anew"], "anew")):
            with self.subTest(mode):
                old = ("crates/small/out/rlib/small.rlib", "out/build/small.rlib")
                for name in old:
                    self.one.put(name, "of an earlier run\n")
                self.assert_passes(*words)
                self.assertEqual([name for name in old if (self.one.top / name).exists()], [])
                self.assertEqual(self.one.verdict()["mode"], mode)
                for tool in ("dev/mutants/mutants", "dev/mutants/definitions"):
                    [[first, *more]] = self.one.calls(tool)
                    self.assertEqual((first, "--anew" in more), ("--gate", bool(words)))
                self.assertEqual(self.one.calls("dev/build/archive"), [["yarib_c", "--sum"], ["yarib_c", "--sources", "1", *words]])
                self.assertIn(["ci", *words], self.one.calls("rt"))

    def test_anew_with_a_toolchain_that_keeps_nothing(self):
        self.assert_passes("--anew", breaks="rt=plain")
        self.assertIn(["ci"], self.one.calls("rt"))

    # Catches a .ci/run that doesn't do what its head says.
    def test_continuous_integration(self):
        for words in ([], ["--anew"]):
            with self.subTest(" ".join(words)):
                self.assert_passes(*words, by=".ci/run")
                self.assertIn(["ci", *words], self.one.calls("rt"))

    def test_only(self):
        self.assert_passes("--only", "test_rows", YARIB_PROGRAM="/given")
        self.assertEqual({line.split()[0] for line in self.one.notes.read_text().splitlines()},
                         {"tests.test_rows", "dev/build/build"})
        self.assertIn("YARIB_PROGRAM=/given", self.one.notes.read_text())
        self.assertEqual(self.one.test("--only", "test_rows", breaks="tests.test_rows=fails").returncode, 1)
        self.assertEqual(self.one.test("--only", "no such test").returncode, 1)

    def test_list(self):
        names = {f"{module}.Stub.test_{name}" for module in MODULES for name in ("one", "parts")}
        self.assertEqual(set(self.one.test("--list").stdout.splitlines()), names)

    # Catches a gate that takes an option for another.
    def test_invalid_options(self):
        for words in (["--anwe"], ["--quick", "--anew"], ["--quick", "more"], ["-q"], ["all"]):
            with self.subTest(" ".join(words)):
                ended = self.one.test(*words)
                self.assertEqual((ended.returncode, ended.stdout, self.one.notes.read_text()), (2, "", ""))

    def test_help(self):
        ended = self.one.test("--help")
        self.assertEqual((ended.returncode, "--anew" in ended.stdout, self.one.notes.read_text()), (0, True, ""))

    # Catches a gate that leaves something out by the caller's variables.
    def test_variables_of_the_caller(self):
        for words, named in (([], {"YARIB_PROGRAM", "YARIB_ARCHIVE", "YARIB_LIBRARY"}),
                             (["--quick"], {"YARIB_PROGRAM", "YARIB_UNPROVED"})):
            with self.subTest(" ".join(words)):
                self.assert_passes(*words, **OTHERS)
                notes = self.one.notes.read_text()
                self.assertEqual(set(re.findall(r"\b(YARIB_\w+)=", notes)), named)
                self.assertNotIn("/none", notes)

    # Catches a gate that depends on the caller's locale.
    def test_locale_that_is_not_installed(self):
        self.assert_passes("--quick", LC_ALL="xx_XX.UTF-8", LANG="xx_XX.UTF-8")

    def test_missing_command(self):
        for missing in ("rt", "gcc"):
            with self.subTest(missing):
                bare = self.one.folder / f"without {missing}"
                bare.mkdir()
                for name in {"bash", "env", "git", "python3", "rt", "gcc"} - {missing}:
                    (bare / name).symlink_to(self.one.folder / "bin/rt" if name == "rt" else shutil.which(name))
                ended = self.one.test(PATH=str(bare))
                self.assertEqual((ended.returncode, ended.stdout, self.one.notes.read_text()), (127, "", ""))
                self.assertRegex(ended.stderr, rf"\Atest: {missing} is not on PATH; .*\n\Z")


class Verdict(GateTest):
    # Catches a gate that doesn't say what it judged, what it took from an earlier run or what it left out.
    def test_clean_tree(self):
        commit = self.one.git("rev-parse", "HEAD")
        ended = self.assert_passes(breaks="tests.test_rows=left-out dev/build/archive=kept dev/mutants/definitions=kept")
        verdict = self.one.verdict()
        self.assertEqual((verdict["verdict"], verdict["commit"], verdict["tree"], verdict["differing"], verdict["unknown"]),
                         ("passed", commit, self.one.git("rev-parse", "HEAD^{tree}"), [], []))
        self.assertIn(commit, ended.stdout)
        self.assertEqual((sum(verdict["passed"].values()), verdict["failed"]), (int(ended.stdout.splitlines()[-1].split()[0]), {}))
        self.assertEqual({name: verdict["passed"][f"dev/mutants/{name}"] for name in LISTED}, LISTED)
        self.assertEqual(verdict["kept"], ["libyarib_c.a was built in an earlier run on this machine",
                                           "rt: rt_diff is kept: it was proved here",
                                           "the definitions were as they must be in an earlier run on this machine"])
        self.assertEqual(verdict["left_out"], ["left out: tests.test_rows.Stub.test_one: it can't run here"])
        self.assertEqual((verdict["toolchain"], verdict["logic"]), ("stand-in-1", "0123456789abcdef"))

    def test_changed_and_unknown_files(self):
        self.one.put("changed.rt", "// another\n")
        self.one.put("docs/new.md", "# New\n")
        ended = self.assert_passes("--quick")
        verdict = self.one.verdict()
        self.assertEqual((verdict["differing"], verdict["unknown"]), (["changed.rt"], ["docs/new.md"]))
        for name in ("changed.rt", "docs/new.md"):
            self.assertIn(name, ended.stdout)

    def test_change_meanwhile(self):
        for words in ([], ["--quick"]):
            with self.subTest(" ".join(words)):
                self.one.git("checkout", "--quiet", "changed.rt")
                ended = self.one.test(*words, breaks="tests.test_rows=changes")
                self.assertEqual((ended.returncode, self.one.verdict()["verdict"]), (1, "failed"))
                self.assertIn("was changed while it was judged: changed.rt", ended.stderr)

    def test_output_that_is_no_text(self):
        self.assert_passes("--quick", breaks="tests.test_rows=no-text", PYTHONIOENCODING="utf-8:strict")

    def test_checkout_that_can_not_be_written(self):
        self.one.put("out", "no directory\n")
        ended = self.one.test()
        self.assertEqual((ended.returncode, self.one.calls("tests.test_rows"), self.one.left()), (1, [], []))
        self.assertRegex(ended.stderr, r"\Adev/build/verdict: the checkout can't be written: .*\n\Z")

    def assert_ended_by(self, number):
        """Ends a run by a signal. Fails unless its verdict says so, and no file of it is left."""
        self.one.put("out/gate.json", "an older one\n")
        is_waiting = self.one.folder / "notes.waits"
        is_waiting.unlink(missing_ok=True)
        with subprocess.Popen([self.one.top / "test", "--quick"], cwd=self.one.top, stdout=subprocess.DEVNULL,
                              stderr=subprocess.DEVNULL, start_new_session=True, preexec_fn=heed_signals,
                              env=self.one.environment("tests.test_rows=waits", TZ="Asia/Tokyo")) as running:
            while not is_waiting.exists() and running.poll() is None:
                time.sleep(0.02)
            self.assertFalse((self.one.top / "out/gate.json").exists())
            now = datetime.datetime.now(datetime.timezone.utc).replace(microsecond=0)
            os.killpg(running.pid, number)
        verdict = self.one.verdict()
        began, at_end = (datetime.datetime.strptime(verdict[name], "%Y-%m-%dT%H:%M:%S%z") for name in ("began", "ended"))
        self.assertTrue(began <= now <= at_end < now + datetime.timedelta(hours=1), (began, now, at_end))
        self.assertEqual((verdict["verdict"], verdict["status"], running.returncode), ("stopped", 128 + number, 128 + number))
        self.assertEqual(self.one.left(), [])

    # Catches a gate that is ended and leaves an older verdict, or its files.
    def test_ended(self):
        for number in (signal.SIGHUP, signal.SIGINT, signal.SIGTERM):
            with self.subTest(number.name):
                self.assert_ended_by(number)


if __name__ == "__main__":
    unittest.main()

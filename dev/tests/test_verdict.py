"""dev/build/verdict names the tree that is judged, in a small repository with a stub of the toolchain."""
import contextlib
import json
import os
import pathlib
import shutil
import subprocess
import unittest

from dev.crates import TOP
from dev.testing import TestCase, environment, needs_command

RT = "#!/bin/sh\necho stand-in-1 logic 0123456789abcdef\n"
FILES = {"top/crates.txt": "small:\n", "top/.gitignore": "out/\n*.pyc\n", "top/changed.rt": "//\n", "top/crates/small/src/lib.rt": "//\n",
         "top/tracked.pyc": "a file that git knows and would ignore\n"}
NOBODY = ("setpriv", "--reuid=65534", "--regid=65534", "--clear-groups")
needs_root = unittest.skipIf(os.geteuid() != 0, "only root can call as another user")


@needs_command("git")
class VerdictTest(TestCase):
    def setUp(self):
        self.top, self.notes, self.home = self.folder / "top", self.folder / "notes", self.folder / "home"
        self.notes.mkdir()
        self.write(FILES | {"bin/rt": RT, "home/.gitconfig": "[user]\n\tname = one\n\temail = one@example.org\n"})
        (self.folder / "bin/rt").chmod(0o755)
        for name in ("dev/__init__.py", "dev/crates.py", "dev/build/__init__.py", "dev/build/verdict"):
            (self.top / name).parent.mkdir(parents=True, exist_ok=True)
            shutil.copy(TOP / name, self.top / name)
        self.environment = {name: value for name, value in environment().items() if not name.startswith("GIT_")} | {
            "HOME": str(self.home), "XDG_CONFIG_HOME": str(self.home), "GIT_CONFIG_NOSYSTEM": "1", "PYTHONDONTWRITEBYTECODE": "1",
            "PATH": f"{self.folder}/bin:{os.environ['PATH']}"}
        self.git("init", "--quiet", "--initial-branch=main")
        self.git("add", "--all")
        self.git("add", "--force", "tracked.pyc")
        self.git("commit", "--quiet", "--message", "all")

    def git(self, *words):
        return subprocess.run(["git", *words], cwd=self.top, env=self.environment, check=True, stdout=subprocess.PIPE,
                              text=True).stdout.strip()

    def verdict(self, *words, by=(), **more):
        return self.call(*by, self.top / "dev/build/verdict", *words, env=self.environment | more, cwd=self.top)

    def judged(self, **more):
        """Returns what a verdict says of the files as they are."""
        self.assert_ended(self.verdict("begin", self.notes, **more), None)
        self.assert_ended(self.verdict("end", self.notes, "full", "0", **more), None)
        return json.loads((self.top / "out/gate.json").read_text())

    def assert_judged(self, differing, unknown, **more):
        """Fails unless a verdict names these files, and the tree of HEAD if there are none."""
        found = self.judged(**more)
        self.assertEqual((found["differing"], found["unknown"]), (differing, unknown))
        self.assertEqual(found["tree"] == self.git("rev-parse", "HEAD^{tree}"), not differing and not unknown)
        self.assertEqual(found["commit"], self.git("rev-parse", "HEAD"))


# What the shell does with the files before they are judged, the files that differ then, and those that git doesn't know.
EXTRA = "echo // >extra.rt; echo extra.rt >"
CHANGES = {
    "clean": ("true", [], []),
    "change": ("echo another >changed.rt", ["changed.rt"], []),
    "change_of_the_same_size_and_time": (
        "touch -r changed.rt ../before; echo '/*' >changed.rt; touch -r ../before changed.rt", ["changed.rt"], []),
    "mode": ("chmod 755 changed.rt; git config core.fileMode false", ["changed.rt"], []),
    "staged_change": ("echo another >changed.rt; echo // | tee staged.rt >staged.pyc; git add --force changed.rt staged.rt staged.pyc",
                      ["changed.rt", "staged.pyc", "staged.rt"], []),
    "removed_file": ("rm changed.rt", ["changed.rt"], []),
    "file_of_another_name": ("git mv changed.rt moved.rt; echo unknown >'a näme, and a word.txt'",
                             ["changed.rt", "moved.rt"], ["a näme, and a word.txt"]),
    "file_that_git_does_not_know": ("mkdir docs; echo '# New' >docs/new.md", [], ["docs/new.md"]),
    "ignored_file": ("mkdir out; echo // | tee out/built >one.pyc", [], []),
    "link_in_place_of_a_directory": ("mv crates/small/src ..; ln -s ../../../src crates/small/src",
                                     ["crates/small/src/lib.rt"], ["crates/small/src"]),
    "assumed_unchanged": ("git update-index --assume-unchanged changed.rt; echo another >changed.rt", ["changed.rt"], []),
    "skipped_in_the_worktree": ("git update-index --skip-worktree changed.rt; echo another >changed.rt", ["changed.rt"], []),
    "ignored_by_the_user": (f"{EXTRA}../ignored; git config --global core.excludesFile \"$PWD/../ignored\"", [], ["extra.rt"]),
    "ignored_by_a_setting": (f"{EXTRA}../ignored; git config core.excludesFile \"$PWD/../ignored\"", [], ["extra.rt"]),
    "ignored_by_the_repository_of_git": (f"mkdir -p .git/info; {EXTRA}.git/info/exclude", [], ["extra.rt"]),
    "ignored_by_a_file_beside_it": ("mkdir docs; echo '*' >docs/.gitignore; echo // >docs/extra.rt",
                                    [], ["docs/.gitignore", "docs/extra.rt"]),
}


# Catches a verdict that names a tree which wasn't judged.
class Tree(VerdictTest):
    def test_variables_of_git(self):
        self.write({"top/changed.rt": "// another\n"})
        self.assert_judged(["changed.rt"], [], GIT_DIR="/nowhere", GIT_INDEX_FILE="/nowhere", GIT_WORK_TREE="/nowhere")

    @needs_root
    def test_checkout_of_another_user(self):
        for path in (self.top, *self.top.rglob("*")):
            os.chown(path, 65534, 65534, follow_symlinks=False)
        found = self.judged()
        self.assertIsNotNone(found["tree"])
        self.assertEqual((found["differing"], found["unknown"]), ([], []))

    def test_the_repository_of_git_is_unchanged(self):
        self.write({"top/changed.rt": "// another\n", "top/new.rt": "//\n"})
        files = lambda: {path: path.read_bytes() for path in sorted((self.top / ".git").rglob("*")) if path.is_file()}
        before = files()
        self.judged()
        self.assertEqual(files(), before)
        self.assertEqual(self.git("status", "--porcelain"), "M changed.rt\n?? new.rt")

    def test_outside_a_repository_of_git(self):
        shutil.rmtree(self.top / ".git")
        for place in ("without git", "below another repository"):
            with self.subTest(place):
                found = self.judged()
                self.assertEqual((found["commit"], found["tree"]), (None, None))
                subprocess.run(["git", "init", "--quiet", self.folder], check=True, env=self.environment)

    def test_without_a_commit(self):
        shutil.rmtree(self.top / ".git")
        self.git("init", "--quiet")
        found = self.judged()
        self.assertIsNone(found["commit"])
        self.assertIsNotNone(found["tree"])
        self.assertIn("changed.rt", found["unknown"])


def change(command, differing, unknown):
    def test(self):
        self.assert_ended(self.call("sh", "-ec", command, env=self.environment, cwd=self.top))
        self.assert_judged(differing, unknown)
    return test


for title, values in CHANGES.items():
    setattr(Tree, f"test_{title}", change(*values))


class Steps(VerdictTest):
    def begin(self):
        self.assert_ended(self.verdict("begin", self.notes), None)

    def end(self, *words):
        self.assert_ended(self.verdict("end", self.notes, *words))
        return json.loads((self.top / "out/gate.json").read_text())

    def test_what_is_printed(self):
        self.write({"top/changed.rt": "// another\n", "top/new.rt": "//\n"})
        self.assert_ended(self.verdict("begin", self.notes),
                          f"test: judges commit {self.git('rev-parse', 'HEAD')}\n"
                          "test: judges with a change that isn't committed: changed.rt\n"
                          "test: judges with a file that git doesn't know: new.rt\n")

    # Catches a gate that is ended and leaves an older verdict.
    def test_an_older_verdict(self):
        self.write({"top/out/gate.json": "an older one\n"})
        self.begin()
        self.assertFalse((self.top / "out/gate.json").exists())

    def test_a_change_meanwhile(self):
        for name in ("changed.rt", "new.rt"):
            with self.subTest(name):
                self.begin()
                self.assert_ended(self.verdict("same", self.notes))
                self.write({f"top/{name}": "// more\n"})
                self.assert_ended(self.verdict("same", self.notes), "",
                                  f"dev/build/verdict: was changed while it was judged: {name}\n", 1)

    def test_a_run_that_ended_early(self):
        self.begin()
        found = self.end("quick", "143")
        self.assertEqual((found["mode"], found["verdict"], found["status"]), ("quick", "stopped", 143))

    def test_counts(self):
        self.begin()
        self.write({"notes/whole": "", "notes/counted": "3 0 tests.test_rows\n1 0 rt ci\n2 1 rt ci\n0 1 a name of words\n"})
        found = self.end("anew", "1")
        self.assertEqual((found["verdict"], found["passed"], found["failed"]),
                         ("failed", {"tests.test_rows": 3, "rt ci": 3}, {"rt ci": 1, "a name of words": 1}))
        self.assertEqual((found["toolchain"], found["logic"]), ("stand-in-1", "0123456789abcdef"))

    def test_what_was_kept_and_left_out(self):
        self.begin()
        self.write({"notes/whole": "", "notes/said": "rt: rt_diff is kept: it was proved here\nrt: rt_fib proved\n",
                    "notes/mutants": "small: 3 of 4 mutants were refused in earlier runs on this machine\n"
                                     "none: 0 of 4 mutants were refused in earlier runs on this machine\n",
                    "notes/definitions": "the changes were tried in an earlier run on this machine\n",
                    "notes/output.one": b"left out: a case, since it can't run here\n\xff\n"})
        found = self.end("full", "0")
        self.assertEqual(found["verdict"], "passed")
        self.assertEqual(found["kept"], ["rt: rt_diff is kept: it was proved here",
                                         "small: 3 of 4 mutants were refused in earlier runs on this machine",
                                         "the changes were tried in an earlier run on this machine"])
        self.assertEqual(found["left_out"], ["left out: a case, since it can't run here"])

    # Catches a verdict that is lost by the name of a file.
    def test_a_name_that_is_no_text(self):
        name = os.fsdecode(b"a name of byte \xff that is no text")
        (self.top / name).write_text("unknown\n")
        self.environment["PYTHONIOENCODING"] = "utf-8:strict"
        self.begin()
        self.assertEqual(self.end("full", "0")["unknown"], [name])

    # Catches a run of an hour in a checkout that can't be written, whose verdict is a traceback.
    def test_a_checkout_that_can_not_be_written(self):
        self.write({"top/out": "no directory\n"})
        ended = self.verdict("begin", self.notes)
        self.assert_ended(ended, "", None, 1)
        self.assertRegex(ended.stderr, r"\Adev/build/verdict: the checkout can't be written: .*; ./test writes into .*\n\Z")

    @needs_root
    def test_a_checkout_of_another_user_that_can_not_be_written(self):
        self.folder.chmod(0o755)
        self.notes.chmod(0o777)
        for path in (self.top, *self.top.rglob("*")):
            path.chmod(0o755)
        if self.call(*NOBODY, "test", "-x", self.top / "dev/build/verdict").returncode:
            self.skipTest("another user can't reach the test's directory")
        for name in ("out", "crates/small/out"):
            with self.subTest(name):
                ended = self.verdict("begin", self.notes, by=NOBODY)
                self.assert_ended(ended, "", None, 1)
                self.assertIn("the checkout can't be written", ended.stderr)
                self.assertEqual(len(ended.stderr.splitlines()), 1)
            (self.top / "out").mkdir(exist_ok=True)
            (self.top / "out").chmod(0o777)

    def test_a_verdict_that_can_not_be_written(self):
        self.begin()
        with contextlib.suppress(OSError):
            (self.top / "out").rmdir()
        self.write({"top/out": "no directory\n"})
        ended = self.verdict("end", self.notes, "full", "0")
        self.assert_ended(ended, "", None, 1)
        self.assertIn("the verdict can't be written", ended.stderr)

    def test_arguments(self):
        for words in ([], ["end", self.notes], ["begin"], ["other", self.notes]):
            with self.subTest(f"{len(words)} {pathlib.Path(words[0]).name if words else ''}"):
                ended = self.verdict(*words)
                self.assertEqual((ended.returncode, "usage: verdict" in ended.stderr), (2, True))


if __name__ == "__main__":
    unittest.main()

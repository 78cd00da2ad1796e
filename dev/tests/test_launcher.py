"""./yarib starts the program with what it is given, and answers without it what needs no program. What is built is a stub
(dev/tests/stub_toolchain.py), so this says nothing of proofs."""
import os
import pathlib
import re
import subprocess
import unittest

from dev.build.built import LOGIC
from dev.crates import TOP
from dev.models.calls import help_texts
from dev.testing import TestCase
from dev.tests.stub_toolchain import (TUNABLES, TUNABLES_OF, LauncherTest, commands_in, started, tools, wait_until)

WORDS = {
    "none": [],
    "a subcommand": ["run"],
    "options and files": ["run", "--limit", "3", "--batch", "4", "one.feed", "two.feed"],
    "three hundred": [str(count) for count in range(300)],
    "blanks and signs": ["a b", "", "*", "$HOME", "it's", '"', "\\", "two\nlines", "--", "-n", "-h"],
}
STATUSES = (1, 2, 6, 126, 127, 255)


def with_own(tunables):
    """Returns the launcher's tunables followed by a user's, which take precedence."""
    return f"{TUNABLES}:{tunables}"


class Starts(LauncherTest):
    # Catches a launcher that drops arguments after the third, or splits or joins arguments.
    def test_arguments(self):
        for name, words in WORDS.items():
            with self.subTest(name):
                self.assert_ended(self.start(*words), started(words, self.top))

    def test_an_argument_that_is_no_text(self):
        ended = self.start(b"\xff", "--")
        self.assertEqual((ended.returncode, ended.stdout.split("\0")[:4]), (0, ["3", "yarib", "\\xff", "--"]))

    # Catches a launcher that drops the status.
    def test_status(self):
        for status in STATUSES:
            with self.subTest(status):
                self.assert_ended(self.start("run", "x", STARTED_STATUS=str(status)), None, "", status)

    def test_standard_input(self):
        self.assert_ended(self.start("run", "x", input=b"10.0.0.1\n"), started(["run", "x"], self.top, input="10.0.0.1\n"))

    # Catches a launcher that drops a user's own tunables.
    def test_tunables_of_the_user(self):
        own = "glibc.malloc.arena_max=2"
        self.assert_ended(self.start("run", "x", GLIBC_TUNABLES=own), started(["run", "x"], self.top, with_own(own)))

    def test_tunables_of_a_subcommand(self):
        for word, tunables in TUNABLES_OF.items():
            with self.subTest(word):
                self.assert_ended(self.start(word, "x"), started([word, "x"], self.top, tunables))

    # Catches a launcher that starts the program in the repository's directory, or by another name.
    def test_by_a_link_from_elsewhere(self):
        (self.folder / "called").symlink_to(self.top / "yarib")
        ended = self.start("run", "x", by=self.folder / "called", cwd=self.folder)
        self.assert_ended(ended, started(["run", "x"], self.folder))

    def test_nothing_is_built_again(self):
        for words in (["run", "x"], ["table", "x"], []):
            self.start(*words)
        self.assertEqual(self.noted(), [])

    # Catches a launcher that keeps the build's lock while the program runs.
    def test_a_build_beside_the_running_program(self):
        for state in ("found built", "just built"):
            with self.subTest(state), subprocess.Popen(
                    [self.top / "yarib", "run", "x"], **self.waiting("none") | {"stdin": subprocess.PIPE}) as running:
                wait_until(lambda: b"yarib\0run" in pathlib.Path(f"/proc/{running.pid}/cmdline").read_bytes())
                self.change("crates/rt_cidr/src/lib.rt")
                self.assertEqual(self.start("run", "x", timeout=60).returncode, 0)
                self.change("crates/rt_app/src/main.rt")
                self.assertEqual(running.communicate()[0].decode(), started(["run", "x"], self.top))


# What an invalid command line is answered: its words, the text, and the word that is named there.
MISUSES = {
    "a subcommand that doesn't exist": (["walk"], "no-subcommand", "walk"),
    "signs of the shell": (["a&b\\c", "x"], "no-subcommand", "a&b\\c"),
    "an option that doesn't exist": (["--frob", "run"], "no-option", "--frob"),
}
NO_OPTIONS = (
    (["table", "--bets", "x"], "--bets"), (["run", "x", "--lim=3"], "--lim"), (["diff", "-x"], "-x"),
    (["replay", "--best"], "--best"), (["lookup", "--within", "10.0.0.0/8"], "--within"),
    (["table", "--old-feed", "1", "x"], "--old-feed"), (["replay", "--batch", "4"], "--batch"))
NO_OPERANDS = {"run": "<FILE>...", "lookup": "<FILE>...", "table": "<FILE>...", "diff": "<OLD>...\n  <NEW>...",
               "replay": "--levels <L>"}
NEED_A_PROGRAM = (
    ["run", "one.feed", "--help"], ["help", "walk"], ["help", "yarib"], ["-hx"], ["--help=x"], ["--"], ["run", "x"],
    ["table", "--limit"], ["run", "--", "--frob"], ["table", "-"], ["a\tb"],
    # Options that no help shows.
    ["lookup", "--feed", "1", "x"], ["lookup", "--batch", "4", "x"], ["table", "--batch=4", "x"],
    ["diff", "--old-feed", "1", "x", "--", "y"], ["diff", "--new-feed=1", "--batch", "4", "x", "--", "y"])


def stored(name):
    return (TOP / "tests/help" / name).read_text()


def usage_of(text):
    """Returns the usage that a help text has."""
    return re.search(r"^Usage: (.*)$", text, re.M)[1]


# Catches a launcher that builds a program for help, the version or an invalid command, or that prints another text or
# status for them.
class WithoutAProgram(LauncherTest):
    IS_BUILT = False

    def start(self, *words, path="without", **more):
        return super().start(*words, path=path, **more)

    def tearDown(self):
        self.assertEqual(self.noted(), [], "nothing is built for them")

    def test_help(self):
        page = help_texts()
        known = [([name, flag], page[name]) for name in ("run", "lookup", "table", "diff", "replay") for flag in ("--help", "-h")]
        known += [(["help", name], page[name]) for name in ("run", "replay")]
        known += [([word], page["yarib"]) for word in ("--help", "-h", "help")]
        for words, text in [*known, (["run", "--help", "one.feed"], page["run"])]:
            with self.subTest(" ".join(words)):
                self.assert_ended(self.start(*words), text)

    def test_version(self):
        about = self.build("--about", "rt_app").stdout
        for word in ("--version", "-V"):
            with self.subTest(word):
                self.assert_ended(self.start(word), stored("version") + about)

    def test_no_word(self):
        self.assert_ended(self.start(), "", help_texts()["yarib"], 3)

    def test_misuse(self):
        for name, (words, text, word) in MISUSES.items():
            with self.subTest(name):
                self.assert_ended(self.start(*words), "", stored(text).replace("WORD", word), 3)

    def test_unknown_option_of_a_subcommand(self):
        page = help_texts()
        for words, option in NO_OPTIONS:
            with self.subTest(" ".join(words)):
                text = stored("no-option").replace("WORD", option).replace("yarib <COMMAND>", usage_of(page[words[0]]))
                self.assert_ended(self.start(*words), "", text, 3)

    def test_no_operands(self):
        for name, operands in NO_OPERANDS.items():
            with self.subTest(name):
                usage = usage_of(help_texts()[name]).replace("[OPTIONS] ", "")
                text = stored("no-operand").replace("WORD", operands).replace("yarib <COMMAND>", usage)
                self.assert_ended(self.start(name), "", text, 3)

    def test_only_flags(self):
        self.assertEqual(self.start("table", "--best").returncode, 3)

    def test_what_needs_a_program(self):
        for words in NEED_A_PROGRAM:
            with self.subTest(" ".join(words)):
                self.assertEqual(self.start(*words).returncode, 127)


# Catches a launcher that still prints the stored texts once there is a program.
class WithAProgram(LauncherTest):
    def test_the_program_answers(self):
        for words in (["--help"], ["walk"], []):
            with self.subTest(" ".join(words)):
                self.assert_starts(words)

    def test_version(self):
        about = self.build("--about", "rt_app").stdout
        self.assert_ended(self.start("--version"), started(["--version"], self.top) + about)

    # Catches a launcher that needs the toolchain though nothing is to be built.
    def test_without_the_toolchain(self):
        self.assert_ended(self.start("run", "x", path="without"), started(["run", "x"], self.top))


# Catches a launcher that doesn't report in a single line what is missing, or has another status for it.
class Missing(LauncherTest):
    IS_BUILT = False

    def test_toolchain(self):
        self.assert_one_line(self.start("run", "x", path="without"), 127, "PATH", "rt")

    def test_toolchain_of_another_logic(self):
        self.assert_one_line(self.start("run", "x", LOGIC="another"), 127, LOGIC)

    def test_python(self):
        bare = self.folder / "bare"
        bare.mkdir()
        for name in ("bash", "dirname", "readlink", "rt"):
            (bare / name).symlink_to(tools() / ("with" if name == "rt" else "without") / name)
        self.assert_one_line(self.start("run", "x", PATH=str(bare)), 127, "python3")

    def test_directory_that_can_not_be_made(self):
        (self.top / "out").write_text("no directory\n")
        self.assert_one_line(self.start("run", "x"), 126)

    # Catches a source that can't be read that is reported with a traceback.
    def test_source_that_can_not_be_read(self):
        (self.top / "crates/rt_trie/src/unread.rt").symlink_to("/proc/self/mem")
        for words in (["run", "x"], ["--help"]):
            with self.subTest(" ".join(words)):
                self.assert_one_line(self.start(*words), 126)

    # Catches a build or a removal in a directory that isn't the repository.
    def test_directory_without_sources(self):
        for name in ("crates.txt", "crates/rt_app/src/main.rt"):
            with self.subTest(name):
                (self.top / name).rename(self.folder / "kept")
                self.assert_one_line(self.start("run", "x"), 126, str(self.top))
                self.assertEqual(self.noted(), [])
                (self.folder / "kept").rename(self.top / name)


class OnPath(TestCase):
    # Catches tests that end with a traceback if a directory of PATH can't be read.
    def test_directories_that_can_not_be_read(self):
        self.assertEqual(list(commands_in(["/dev/null", "/nowhere", ""])), [pathlib.Path(name) for name in os.listdir(".")])


if __name__ == "__main__":
    unittest.main()

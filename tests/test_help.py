"""Help, version, unknown words, and what the help says of faults and statuses."""
import os
import re
import textwrap

from dev.crates import TOP
from dev.models import calls
from dev.testing import program
from dev.versions import VERSION
from tests.cases import ProgramCase
from tests.texts import ROW

NEEDS = {"program"}

PAGES = calls.help_texts()
# The help's text for an error, and a line that has it; the help's text for a status, and a call that ends with it.
FAULTS = [
    ("E1 unknown command", "frob"), ("E2 wrong number of fields", "dump x"),
    ("E3 invalid prefix or address", "lookup 256.0.0.1"), ("E3 invalid prefix or address", "withdraw 10.0.0/8"),
    ("E4 prefix length over 32", "withdraw 10.0.0.0/33"), ("E5 bit set past the length", "withdraw 10.0.0.1/8"),
    ("E6 invalid preference", "add 10.0.0.0/8 4294967296 192.0.2.1"),
    ("E7 invalid next hop", "add 10.0.0.0/8 1 192.0.2.256"), ("E7 invalid next hop", "add 10.0.0.0/8 1 discard"),
    ("E8 line over 128 bytes", "#" * 129),
]
STATUSES = [
    ("0 done", "row.feed"), ("2 invalid line", "faulty.feed"), ("3 invalid command line", "--frob"),
    ("4 unreadable file", "missing"), ("6 output not written", "row.feed"),
]


def stored(name):
    """Returns what ./yarib prints without a program."""
    return (TOP / "tests/help" / name).read_text()


class Help(ProgramCase):
    # Catches a program that reads its own path as an argument: `started as ..`.
    def test_any_name(self):
        """The name under which the program is started changes nothing."""
        for name in (b"\xff", b"another name", b"yarib"):
            path = os.path.join(os.fsencode(self.folder), name)
            os.symlink(program(), path)
            with self.subTest(f"started as {name}"):
                self.assertEqual(self.call(path, "run", "row.feed"), self.yarib("run", "row.feed"))
            with self.subTest(f"usage, started as {name}"):
                self.assert_ended(self.call(path, "run"), "", self.yarib("run").stderr, 3)

    # Catches a missing or different line of a help page: the page.
    def test_pages(self):
        for words in ("--help", "-h", "help"):
            self.assert_prints(words, PAGES["yarib"])
        for name in ("run", "lookup", "table", "diff", "replay"):
            for words in (f"{name} --help", f"{name} -h", f"help {name}", f"{name} --help row.feed"):
                self.assert_prints(words, PAGES[name])
        self.assert_prints("", "", PAGES["yarib"], 3, name="no word")

    def test_version(self):
        for words in ("--version", "-V"):
            self.assert_prints(words, f"yarib {VERSION}\n")
        self.assertEqual(stored("version"), f"yarib {VERSION}\n", "what ./yarib prints without a program")

    def test_unknown_first_words(self):
        """The output of ./yarib for such arguments without a built program, except a hint at a similar argument and at
        where it belongs."""
        for name, listed in (("no-subcommand", ("walk", "RUN", "runs", "row.feed", "-", "a b", "help.")),
                             ("no-option", ("--frob", "--limit", "--limits", "--help-me", "--versions", "--run"))):
            for words in [[one, *more] for one in listed for more in ([], ["run", "row.feed"], ["--help"])]:
                ended = self.yarib(*words)
                found = re.sub(r"  tip: .*?\n\nUsage: yarib (--\w+ )?", "Usage: yarib ", ended.stderr, flags=re.S)
                with self.subTest(" ".join(words)):
                    self.assert_ended(ended._replace(stderr=found), "", stored(name).replace("WORD", words[0]), 3)

    def test_misused_words(self):
        for words, part in (
            ("walk", "'walk'"), ("help walk", "'walk'"), ("row.feed", "'row.feed'"), ("run", "<FILE>"), ([""], "''"),
            ("run --frob row.feed", "'--frob'"), ("replay --limit 1", "'--limit'"), ("RUN row.feed", "'RUN'"),
            ("--frob", "'--frob'"), ("run --levels 1 row.feed", "'--levels'"),
        ):
            self.assert_misused(words, part)

    # Catches a program that gives the advice of the library, to pass an unknown option as a file's name.
    def test_unknown_options(self):
        """The message on an unknown option, to the byte."""
        self.assert_calls({}, calls.UNKNOWN)

    # Catches a help page whose replay shows another value.
    def test_examples(self):
        """Each call that a help page shows prints the text below it on that page."""
        self.write({"one.feed": ROW, "two.feed": "add 10.0.0.0/8 50 192.0.2.2\n",
                    "new.feed": ROW + "add 10.1.0.0/16 100 192.0.2.2\n"})
        listed = []
        for name in ("lookup", "table", "run", "replay", "diff"):
            for words, shown in re.findall(r"^  \$ yarib (.*)\n((?:  [^$].*\n)*)", self.stdout(name, "--help"), re.M):
                listed.append((words.split(), (1 if name == "diff" else 0, textwrap.dedent(shown), "")))
        self.assertEqual(len(listed), 13)
        self.assert_calls({}, listed)

    # Catches a help page that gives an error code another meaning: `E6 invalid preference`.
    def test_faults(self):
        page = self.stdout("run", "--help")
        for text, line in FAULTS:
            self.assert_run(f"{text}: {line[:40]}", [line + "\n"], f"1:1 fault {text[:2]}\ntable 0\n", 2)
            self.assertIn(f" {text}", page)

    def test_statuses(self):
        page = self.stdout("run", "--help")
        for text, word in STATUSES:
            with self.subTest(text), open("/dev/full" if text[0] == "6" else "/dev/null", "w") as output:
                self.assertEqual(self.yarib("run", word, stdout=output).returncode, int(text[0]))
                self.assertIn(f" {text}", page)

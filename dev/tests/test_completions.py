"""bash completes the words of yarib that its help texts have."""
import re
import unittest

from dev.crates import TOP
from dev.models.calls import help_texts
from dev.testing import TestCase, call

SCRIPT = """source packaging/completions/yarib.bash
compopt() { echo "files"; }
COMP_WORDS=("$@")
COMP_CWORD=$(($# - 1))
_yarib
printf "%s\\n" "${COMPREPLY[@]}"
"""
PAGE = help_texts()
COMMANDS = re.findall(r"^  (\w+)  ", PAGE["yarib"].partition("Options:")[0], re.M)
SUBCOMMANDS = sorted(set(COMMANDS) - {"help"})


def offered(*words):
    """Returns the completions for the last argument, or `files` if it may be a file."""
    lines = call(["bash", "-c", SCRIPT, "bash", "yarib", *words], cwd=TOP, timeout=120).stdout.split()
    return "files" if "files" in lines else sorted(lines)


# Catches completions with an invalid word, or without one of the help.
class Completions(TestCase):
    def test_first_word(self):
        self.assertEqual(offered(""), sorted(COMMANDS + re.findall(r"(--\w+)", PAGE["yarib"])))

    def test_whole_subcommand(self):
        for name in COMMANDS:
            with self.subTest(name):
                self.assertEqual(offered(name), [name])

    def test_after_help(self):
        self.assertEqual(offered("help", ""), SUBCOMMANDS)

    def test_operands(self):
        for name in SUBCOMMANDS:
            with self.subTest(name):
                takes_files = bool(re.search(r"^  <(FILE|OLD)>", PAGE[name], re.M))
                self.assertEqual(offered(name, "x") == "files", takes_files)
                self.assertEqual(offered(name, "x", "x") == "files", takes_files)

    def test_calls_that_are_completed(self):
        ended = call(["bash", "-c", "source packaging/completions/yarib.bash; complete -p"], cwd=TOP)
        self.assertEqual(re.findall(r"_yarib (\S+)$", ended.stdout, re.M), ["yarib", "./yarib"])


def options_of(name):
    """Returns the test of the options of a subcommand, and of their values."""
    def test(self):
        listed = re.findall(r"^ +(?:-\w, )?(--[\w-]+)(?: <(\w+)>)? .*?(?:\[possible values: (.*)\])?$", PAGE[name], re.M)
        self.assertEqual(offered(name, "-"), sorted(option for option, _, _ in listed))
        for option, value, values in listed:
            with self.subTest(option):
                self.assertIn(option, offered(name, option[:3]))
                wanted = sorted(values.split(", ")) if values else "files" if value == "FILE" else [] if value else None
                if wanted is not None:
                    self.assertEqual(offered(name, option, ""), wanted)
    return test


for subcommand in SUBCOMMANDS:
    setattr(Completions, f"test_options_of_{subcommand}", options_of(subcommand))


if __name__ == "__main__":
    unittest.main()

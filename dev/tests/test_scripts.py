"""Each executable script describes itself: `SCRIPT --help` prints its docstring with status 0, within a second of
processor time, and does nothing."""
import ast
import os
import resource

from dev.testing import TestCase, environment
from dev.tests.pages import files_of_repository, name_of


# It hands all its words to the program, which it builds first.
HANDS_ON = {"try"}


def scripts():
    """Yields each executable script of the repository with its text."""
    for file in files_of_repository():
        if file.is_file() and not file.is_symlink() and os.access(file, os.X_OK) and name_of(file) not in HANDS_ON:
            text = file.read_text(errors="replace")
            if text.startswith("#!"):
                yield file, text


def first_line(text):
    """Returns the first line of the docstring of a script that reads its words itself, or nothing."""
    if "python3" not in text.partition("\n")[0] or "ArgumentParser" not in text:
        return ""
    return (ast.get_docstring(ast.parse(text)) or "no docstring").partition("\n")[0]


def used():
    """Returns the processor time of all processes that were started and have ended."""
    children = resource.getrusage(resource.RUSAGE_CHILDREN)
    return children.ru_utime + children.ru_stime


class Scripts(TestCase):
    def test_scripts_are_found(self):
        self.varies()
        self.assertGreater(len(list(scripts())), 40)

    def test_help(self):
        for file, text in scripts():
            with self.subTest(name_of(file)):
                before = used()
                ended = self.call(file, "--help", env=environment(), timeout=60)
                self.assertEqual((ended.returncode, ended.stderr, list(self.folder.iterdir())), (0, "", []))
                self.assertLess(used() - before, 1)
                self.assertTrue(ended.stdout)
                self.assertIn(first_line(text), ended.stdout)

"""Tries the mutants of bindings/LANGUAGE/must-fail/mutants.md: each becomes a test, which passes if the test that the
mutant names fails on a copy of the language's directory."""
import os
import re
import shutil

from bindings.tests.library import BINDINGS, LibraryCase, library, scratch
from dev.mutants.unproved import mutants_of

# How often the test is run until it fails: threads don't meet in each run.
TRIES = 5
IGNORED = shutil.ignore_patterns("out", "target", "__pycache__")


class MutantCase(LibraryCase):
    """A test case with a test for each mutant; `fails` of a language returns true if a test fails on the changed
    copy."""

    def copy_of(self, language):
        """Returns the directory of the language's copy, beside the header and the library, which all tests of a process
        use."""
        folder = scratch() / "mutants"
        for name in {language, "c"}:
            if not (folder / name).exists():
                shutil.copytree(BINDINGS / name, folder / name, ignore=IGNORED)
        if not (folder / "out").exists():
            os.symlink(library(), folder / "out")
        return folder / language

    def check_mutant(self, mutant):
        """Fails unless the test that the mutant names fails on it."""
        file = self.copy_of(mutant.language) / mutant.file
        text = file.read_text()
        file.write_text(mutant.changed(text))
        try:
            self.assertTrue(any(self.fails(mutant) for _ in range(TRIES)),
                            f"{mutant.noticed_by} doesn't fail on this mutant of {mutant.file}")
        finally:
            file.write_text(text)


def add_mutants(case, language, files=r".*"):
    """Adds a test for each mutant of these files to a class."""
    for mutant in mutants_of(language):
        if re.fullmatch(files, mutant.file):
            test = lambda self, mutant=mutant: self.check_mutant(mutant)
            setattr(case, f"test_{mutant.name.replace('-', '_')}", test)

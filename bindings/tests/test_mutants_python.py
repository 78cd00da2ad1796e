"""Tries the mutants of Python's binding."""
import re
import sys

from bindings.tests.library import library
from bindings.tests.mutants import MutantCase, add_mutants
from dev.crates import TOP
from dev.testing import environment

NEEDS = {"library"}
PROVED = True

# Showing how two long lists differ takes longer than the tests.
BEGIN = "import difflib, unittest; difflib.ndiff = lambda *two: (); unittest.main(None)"


class Mutants(MutantCase):
    def fails(self, mutant):
        settings = environment() | {"YARIB_LIBRARY": str(library() / "libyarib.so.0"), "PYTHONDONTWRITEBYTECODE": "1",
                                    "YARIB_VECTORS": str(self.vectors()), "PYTHONPATH": str(TOP)}
        ended = self.call(sys.executable, "-c", BEGIN, "-f", f"tests.{mutant.noticed_by}", cwd=self.copy_of("python"),
                          env=settings, timeout=1800)
        return ended.returncode != 0 and re.search(r"^(FAIL|ERROR): test_", ended.stderr, re.M) is not None


add_mutants(Mutants, "python")

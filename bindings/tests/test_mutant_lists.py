"""The lists of the bindings' mutants: each mutant can be made of the sources, and the test that it names is there."""
import re

from bindings.tests import test_go, test_rust
from bindings.tests.library import BINDINGS, parts_of
from dev.mutants.unproved import BadMutant, Mutant, mutants_of
from dev.testing import TestCase

# Parts that a test runs by words that it doesn't list.
OTHER_PARTS = {"test_refused": ["concurrent"], "test_first_calls": ["keys"]}
PYTHON_TEST = re.compile(r"^class (\w+)|^    def (test_\w+)", re.M)
TWO_CLASSES = """class One:
    def __exit__(self):
        self.close()


class Two:
    def __exit__(self):
        self.close()


self.close()
"""


def tests_of_c():
    """Returns the names of the tests of C, alone and with the words of their parts."""
    names = [path.stem for path in (BINDINGS / "c").glob("test_*.c")]
    return names + [f"{name} {part}" for name in names
                    for part in [*parts_of(name.removeprefix("test_")), *OTHER_PARTS.get(name, [])]]


def tests_of_python():
    """Returns the names of the tests of Python's binding."""
    found = []
    for path in (BINDINGS / "python/tests").glob("test_*.py"):
        name_of_class = None
        for class_name, method in PYTHON_TEST.findall(path.read_text()):
            name_of_class = class_name or name_of_class
            if method:
                found.append(f"{path.stem}.{name_of_class}.{method}")
    return found


class Lists(TestCase):
    def check_list(self, language, tests):
        mutants = mutants_of(language)
        self.assertEqual(len({mutant.name for mutant in mutants}), len(mutants))
        for mutant in mutants:
            with self.subTest(mutant.name):
                text = (BINDINGS / language / mutant.file).read_text()
                self.assertNotEqual(mutant.changed(text), text)
                self.assertIn(mutant.noticed_by, tests)

    def test_c(self):
        self.check_list("c", tests_of_c())

    def test_python(self):
        self.check_list("python", tests_of_python())

    def test_rust(self):
        self.check_list("rust", [name.replace(":", "") for name in test_rust.names_of_tests()])

    def test_go(self):
        self.check_list("go", test_go.names_of_tests())


class Places(TestCase):
    """Where a mutant changes a file."""

    def changed(self, function, text=TWO_CLASSES, old="self.close()"):
        return Mutant("python", "one", "one.py", old, "pass", function, "test").changed(text)

    def test_the_named_function(self):
        """Another function may have the same text."""
        expected = TWO_CLASSES.replace("\n        self.close()\n\n\nself", "\n        pass\n\n\nself")
        self.assertEqual(self.changed("Two.__exit__"), expected)

    def test_outside_functions(self):
        self.assertEqual(self.changed(None), TWO_CLASSES.removesuffix("self.close()\n") + "pass\n")

    def test_no_such_function(self):
        self.assertRaisesRegex(BadMutant, "no function Three", self.changed, "Three.__exit__")

    def test_twice_in_the_function(self):
        text = "def one():\n    stop()\n    stop()\n"
        self.assertRaisesRegex(BadMutant, "2 times", self.changed, "one", text, "stop()")
        self.assertRaisesRegex(BadMutant, "0 times", self.changed, "one", text, "go()")

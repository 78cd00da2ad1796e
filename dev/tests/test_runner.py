"""Tests the runner of tests and the list of expected tests: what fails is recorded, and what is dropped, emptied or new is
noticed."""
import ast
import json
import sys
import textwrap
from unittest import mock

from dev import expected, gate, runner
from dev.testing import TOP, Ended, TestCase, environment, first_difference

SAMPLE = """
import unittest
from dev.testing import TestCase

class Sample(TestCase):
    def test_passes(self):
        self.assertEqual(1, 1)
        self.assert_ended(self.call("true"))

    def test_fails(self):
        self.assertEqual(1, 2)

    def test_raises(self):
        raise OSError("no disk")

    def test_without_assertion(self):
        return
        self.assertEqual(1, 2)

    def test_parts(self):
        for name, number in (("first", 1), ("second", 2), ("first", 1)):
            with self.subTest(name):
                self.assertEqual(number, 1)

    def test_left_out(self):
        self.skipTest("no such command")

    def test_part_left_out(self):
        with self.subTest("here"):
            self.assertTrue(True)
        with self.subTest("elsewhere"):
            self.skipTest("no such command")

    def test_varies(self):
        self.varies()
        self.assertTrue(True)

    def test_counts(self):
        self.count(7)

    @unittest.expectedFailure
    def test_known_fault(self):
        self.assertEqual(1, 2)
"""


def recorded(case, text):
    """Returns the records of the tests of a module with this text."""
    case.write({"test_sample.py": textwrap.dedent(text)})
    record = case.folder / "record"
    ended = case.call(sys.executable, "-m", "dev.runner", "test_sample", "--record", record, cwd=TOP,
                      env=environment() | {"PYTHONPATH": str(case.folder)})
    lines = record.read_text().splitlines() if record.exists() else []
    return ended, {json.loads(line)["test"].rpartition(".")[2]: json.loads(line) for line in lines}


class Records(TestCase):
    """How tests end is recorded."""

    def test_each_ending(self):
        ended, found = recorded(self, SAMPLE)
        self.assert_ended(ended, stdout=None, stderr=None)
        wanted = {"test_passes": ("passed", 2), "test_fails": ("failed", 1), "test_raises": ("failed", 0),
                  "test_without_assertion": ("failed", 0), "test_parts": ("failed", 3), "test_left_out": ("skipped", 0),
                  "test_part_left_out": ("passed", None), "test_varies": ("passed", None), "test_counts": ("passed", 7),
                  "test_known_fault": ("failed", 1)}
        self.assertEqual({name: (one["ended"], one["assertions"]) for name, one in found.items()}, wanted)

    def test_parts_have_names(self):
        parts = recorded(self, SAMPLE)[1]["test_parts"]["parts"]
        self.assertEqual({name: ending for name, (ending, _) in parts.items()},
                         {"[first]": "passed", "[second]": "failed", "[first #2]": "passed"})

    def test_a_module_that_cannot_be_loaded(self):
        ended, found = recorded(self, "import nowhere\n")
        self.assertNotEqual(ended.returncode, 0)
        self.assertEqual(found, {})

    def test_a_class_that_cannot_be_set_up(self):
        found = recorded(self, """
            from dev.testing import TestCase
            class Sample(TestCase):
                @classmethod
                def setUpClass(cls):
                    raise OSError("no disk")
                def test_one(self):
                    self.assertTrue(True)
            """)[1]
        self.assertEqual([one["ended"] for one in found.values()], ["failed"])


class Assertions(TestCase):
    """Each assertion of dev/testing.py fails if what it says isn't so: counting it doesn't disarm it."""

    def test_each_assertion_fails(self):
        wrong = {"assertEqual": (1, 2), "assertTrue": (False,), "assertFalse": (True,), "assertIn": (1, []), "assertNotIn": (1, [1]),
                 "assertIsNone": (1,), "assertRegex": ("a", "b"), "assertLess": (2, 1), "assertGreater": (1, 2), "assertLessEqual": (2, 1),
                 "assertNotEqual": (1, 1), "assertCountEqual": ([1], [2]), "assertListEqual": ([1], [2]), "assertDictEqual": ({}, {1: 1}),
                 "assertMultiLineEqual": ("a", "b"), "assert_ended": (Ended(1, "", ""),)}
        for name, values in wrong.items():
            with self.subTest(name):
                case = TestCase()
                with self.assertRaises(AssertionError):
                    getattr(case, name)(*values)
                self.assertEqual(case.compared, 1)

    def test_a_call_with_another_output_fails(self):
        for name, ended in (("stdout", Ended(0, "b\n", "")), ("stderr", Ended(0, "a\n", "c\n")), ("status", Ended(2, "a\n", ""))):
            with self.subTest(name), self.assertRaises(AssertionError):
                TestCase().assert_ended(ended, "a\n")

    def test_the_first_line_that_differs(self):
        self.assertEqual(first_difference("a\nb\n", "a\nc\n"), (2, "b\n", "c\n"))
        self.assertEqual(first_difference("a\n", "a\nc\n"), (2, "", "c\n"))


def record(test, ended="passed", assertions=1, parts=()):
    return {"test": test, "ended": ended, "message": "", "assertions": assertions, "seconds": 0,
            "parts": {part: ["passed", ""] for part in parts}}


class Expected(TestCase):
    """What is dropped, emptied or new is a difference from tests/expected.txt."""

    def setUp(self):
        self.write({"expected.txt": "mutant rt_rib:one\nproof rt_rib\ntests.test_a.A.test_one 3\ntests.test_a.A.test_one [x]\n"
                                    "tests.test_a.A.test_two -\ntests.test_b.B.test_other 1\n"})
        self.enterContext(mock.patch.object(expected, "EXPECTED", self.folder / "expected.txt"))
        self.enterContext(mock.patch.object(expected, "RECORDS", self.folder / "records"))
        self.right = [record("tests.test_a.A.test_one", assertions=3, parts=["[x]"]),
                      record("tests.test_a.A.test_two", assertions=None)]
        self.others = {"mutant rt_rib:one", "proof rt_rib"}

    def differences(self, records, others=None, whole=("tests.test_a",)):
        return list(expected.differences(records, self.others if others is None else others, list(whole)))

    def test_nothing_differs(self):
        self.assertEqual(self.differences(self.right), [])

    def test_differences(self):
        one, two = self.right
        cases = {
            "a dropped test": ([one], self.others),
            "a dropped subTest": ([one | {"parts": {}}, two], self.others),
            "fewer assertions": ([one | {"assertions": 2}, two], self.others),
            "a new test": ([*self.right, record("tests.test_a.A.test_new")], self.others),
            "a new subTest": ([record("tests.test_a.A.test_one", assertions=3, parts=["[x]", "[y]"]), two], self.others),
            "a number that became uncertain": ([one | {"assertions": None}, two], self.others),
            "a dropped mutant": (self.right, {"proof rt_rib"}),
            "a new mutant": (self.right, self.others | {"mutant rt_rib:two"}),
            "a dropped crate": (self.right, {"mutant rt_rib:one"}),
        }
        for name, (records, others) in cases.items():
            with self.subTest(name):
                self.assertEqual(len(self.differences(records, others)), 1)

    def test_a_dropped_module(self):
        self.assertEqual(len(self.differences(self.right, whole=["tests.test_a", "tests.test_b"])), 1)
        with mock.patch.object(runner, "modules", return_value=["tests.test_a"]):
            self.assertEqual(list(expected.gone()), ["tests.test_b.B.test_other: is in tests/expected.txt, and its module is gone"])

    def test_what_is_left_out_is_no_difference(self):
        left_out = record("tests.test_a.A.test_one", "skipped", 0), self.right[1]
        self.assertEqual(self.differences(left_out), [])

    def test_a_test_that_was_always_left_out(self):
        """Its numbers aren't known, so a machine that can run it may find any."""
        expected.keep([record("tests.test_a.A.test_one", "skipped", 0)])
        with mock.patch.object(runner, "names", return_value={"tests.test_a": ["tests.test_a.A.test_new"]}):
            expected.keep([record("tests.test_a.A.test_new", "skipped", 0)])
            expected.update([])
        self.assertEqual(expected.read()[0], {"tests.test_a.A.test_new": ("?", set())})
        self.assertEqual(self.differences([record("tests.test_a.A.test_new", assertions=9, parts=["[z]"])], expected.read()[1]), [])

    def test_an_update_writes_what_ran(self):
        changed = [record("tests.test_a.A.test_one", assertions=4, parts=["[y]"]), record("tests.test_a.A.test_new", assertions=None)]
        expected.keep(changed)
        exist = {"tests.test_a": ["tests.test_a.A.test_one", "tests.test_a.A.test_new"]}
        with mock.patch.object(runner, "names", return_value=exist):
            self.assertEqual(expected.update(["mutant rt_rib:two"]), [])
        tests, others = expected.read()
        self.assertEqual(tests, {"tests.test_a.A.test_one": ("4", {"[y]"}), "tests.test_a.A.test_new": ("-", set())})
        self.assertIn("mutant rt_rib:two", others)
        self.assertNotIn("mutant rt_rib:one", others)


class Names(TestCase):
    """Tests are found by their names."""

    def test_each_module_is_found(self):
        files = {str(file.relative_to(TOP)) for folder in runner.FOLDERS for file in (TOP / folder).rglob("test_*.py")}
        self.assertEqual({f"{module.replace('.', '/')}.py" for module in runner.modules()}, files)

    def test_names_of_tests_that_a_loop_makes(self):
        """Whatever modules were loaded before, and have added to sys.path."""
        for module in ("tests.test_processors", "convert.tests.inside.test_pieces"):
            with self.subTest(module):
                alone = self.call(sys.executable, "-c", f"from dev import runner; print(*runner.methods('{module}'))", cwd=TOP)
                self.assert_ended(alone, stdout=None)
                self.assertEqual(alone.stdout.split(), runner.names()[module])

    def test_no_test_outside_the_folders(self):
        strays = [str(file.relative_to(TOP)) for file in TOP.rglob("test_*.py")
                  if not any(str(file.relative_to(TOP)).startswith(f"{folder}/") for folder in (*runner.FOLDERS, "out"))]
        self.assertEqual([name for name in strays if "/out/" not in name], [])

    def test_each_method_of_a_test_case_is_a_test(self):
        self.assertIn("dev.tests.test_runner.Names.test_each_method_of_a_test_case_is_a_test", runner.methods("dev.tests.test_runner"))

    def test_needs_are_read_from_the_source(self):
        self.assertEqual(runner.about("dev.tests.test_runner"), (frozenset(), False, False))
        self.assertTrue(all(needs <= {"program", "library"} for needs, _, _ in map(runner.about, runner.modules())))
        forms = "NEEDS = {'program'}\nPROVED = True\n", "NEEDS, PROVED = {'program'}, True\n"
        for form in forms:
            with self.subTest(form.splitlines()[0]), mock.patch.object(runner, "source_of", return_value=ast.parse(form)):
                self.assertEqual(runner.about("tests.test_a"), (frozenset({"program"}), True, False))

    def test_a_module_that_cannot_be_loaded_here(self):
        self.assertIn("dev.tests.test_runner.Names.test_help_and_list", runner.written("dev.tests.test_runner"))

    def test_help_and_list(self):
        for words in (["--help"], ["--list"]):
            with self.subTest(words[0]):
                ended = self.call(TOP / "test", *words)
                self.assert_ended(ended, stdout=None)
                self.assertTrue(ended.stdout)

    def test_no_test_matches(self):
        ended = self.call(TOP / "test", "--only", "no.such.test")
        self.assert_ended(ended, "", "test: no test matches no.such.test; ./test --list prints their names\n", 1)

    def test_the_clock(self):
        self.assertEqual(gate.clock(61.9), "1:01")

"""./test fails, and says what failed, if anything of what it runs fails, is killed, is missing or does less than expected; in a
repository of stubs (dev/tests/gate_repository.py)."""
import unittest

from dev.tests.gate_repository import LISTED, MODULES, GateTest

PART = "tests.test_rows.Stub.test_parts [second]: is in tests/expected.txt, and didn't run"
# What breaks, and what the summary names then.
FAILURES = {
    **{f"{module.rpartition('_')[2]} fails": (f"{module}=fails", f"{module}.Stub.test_one")
       for module in MODULES if module != "dev.tests.test_pages"},
    "a module is killed": ("tests.test_rows=killed", "tests.test_rows"),
    "a module that needs the library is killed": ("bindings.tests.test_c=killed", "bindings.tests.test_c"),
    "a subtest fails": ("tests.test_rows=part-fails", "tests.test_rows.Stub.test_parts [first]"),
    "a subtest is dropped": ("tests.test_rows=dropped", PART),
    "an assertion is dropped": ("tests.test_rows=fewer", "tests.test_rows.Stub.test_one: made 1 assertions, and in tests/expected.txt 2"),
    "the archive isn't built": ("dev/build/archive=status", "dev/build/archive"),
    "the archive's prover is killed": ("dev/build/archive=killed", "dev/build/archive"),
    "the library isn't built": ("bindings/build=status", "bindings/build"),
    "a crate isn't proved": ("rt=unproved", "proof yarib_c: is in tests/expected.txt, and wasn't tried"),
    **{f"{tool} {end.replace('-', ' ')}": (f"dev/mutants/{tool}={end}", name) for tool in LISTED for end, name in (
        ("killed", f"dev/mutants/{tool}"), ("status", f"dev/mutants/{tool}"), ("one-fails", f"dev/mutants/{tool}"),
        ("count-and-status", f"dev/mutants/{tool}"), ("no-count", f"dev/mutants/{tool}"),
        ("none", f"{tool[:-1]} x/1: is in tests/expected.txt, and wasn't tried"),
        ("fewer", f"{tool[:-1]} x/2: is in tests/expected.txt, and wasn't tried"))},
}


# Catches a gate that passes over a module or a tool that fails, is killed, is missing or does less, or that counts it as passed.
class Failures(GateTest):
    def test_module_that_is_gone(self):
        (self.one.top / "tests/test_rows.py").unlink()
        self.assert_fails("", "tests.test_rows.Stub.test_one: is in tests/expected.txt, and its module is gone")

    def test_module_that_can_not_be_imported(self):
        self.assert_fails("tests.test_rows=no-module", "tests.test_rows")

    def test_test_that_is_not_expected(self):
        self.one.put("tests/test_more.py", "from dev.testing import TestCase\n\nclass More(TestCase):\n"
                     "    def test_more(self):\n        self.assertTrue(True)\n")
        self.assert_fails("", "tests.test_more.More.test_more: isn't in tests/expected.txt")

    def test_mutant_that_is_not_expected(self):
        path = self.one.top / "tests/expected.txt"
        path.write_text(path.read_text().replace("mutant x/4\n", ""))
        self.assert_fails("", "mutant x/4: isn't in tests/expected.txt")

    # What is run first, or what all else rests on, ends the run.
    def test_what_ends_the_run(self):
        for breaks in ("dev.tests.test_pages=fails", "rt=status", "rt=no-count", "rt=one-fails"):
            with self.subTest(breaks):
                self.assertNotEqual(self.one.test(breaks=breaks).returncode, 0)
                self.assertEqual(self.one.verdict()["verdict"], "stopped")
                self.assertEqual(self.one.left(), [])

    def test_quick(self):
        for module in ("dev.tests.test_pages", "dev.tests.test_build", "tests.test_rows"):
            with self.subTest(module):
                self.assert_fails(f"{module}=fails", f"{module}.Stub.test_one", "--quick")


def failure(breaks, name):
    return lambda self: self.assert_fails(breaks, name) and None


for title, (breaks, name) in FAILURES.items():
    setattr(Failures, "test_" + "".join(sign if sign.isalnum() else "_" for sign in title), failure(breaks, name))


if __name__ == "__main__":
    unittest.main()

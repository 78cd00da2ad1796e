"""Finds the tests of the repository, runs those of a module in a process of its own, and records how each ended.

Tests are `unittest` test cases in the files test_*.py of FOLDERS. A test's name is that of its method, such as
tests.test_run.Files.test_order, and a subTest's name follows it in brackets. `python3 -m dev.runner MODULE` runs one module,
as ./test does."""
import argparse
import ast
import functools
import importlib
import io
import json
import pathlib
import subprocess
import sys
import time
import traceback
import unittest

from dev.crates import TOP

FOLDERS = ("tests", "dev/tests", "convert/tests", "map/tests", "bindings/tests", "bindings/python/tests")


def modules():
    """Returns the names of all modules with tests."""
    files = [file for folder in FOLDERS for file in (TOP / folder).rglob("test_*.py")]
    return sorted(".".join(file.relative_to(TOP).with_suffix("").parts) for file in files)


def methods(module):
    """Returns a module's tests by their names."""
    found, suites = {}, [unittest.defaultTestLoader.loadTestsFromModule(importlib.import_module(module))]
    while suites:
        for one in suites.pop():
            if isinstance(one, unittest.TestSuite):
                suites.append(one)
            else:
                found[one.id()] = one
    return dict(sorted(found.items()))


@functools.cache
def source_of(module):
    """Returns a module's syntax tree."""
    return ast.parse((TOP / (module.replace(".", "/") + ".py")).read_text())


def about(module):
    """Returns what ./test has to know of a module, by the constants that dev/testing.py describes: what it needs, whether it
    needs the proved program, and whether it runs alone. The module isn't loaded, since that may need a library."""
    constants = {}
    for line in source_of(module).body:
        if isinstance(line, ast.Assign):
            target = line.targets[0]
            pairs = zip(target.elts, getattr(line.value, "elts", ())) if isinstance(target, ast.Tuple) else [(target, line.value)]
            constants |= {name.id: value for name, value in pairs if isinstance(name, ast.Name)}
    needs, proved, alone = (ast.literal_eval(constants[name]) if name in constants else without
                            for name, without in (("NEEDS", set()), ("PROVED", False), ("ALONE", False)))
    return frozenset(needs), proved, alone


def written(module):
    """Returns the names of the tests that a module's source has, for a module that can't be loaded here."""
    return sorted(f"{module}.{kind.name}.{one.name}" for kind in source_of(module).body if isinstance(kind, ast.ClassDef)
                  for one in kind.body if isinstance(one, ast.FunctionDef) and one.name.startswith("test"))


def names_in(package):
    """Returns the names of the tests of each module of a package."""
    found = {}
    for module in modules():
        if module.rpartition(".")[0] == package:
            try:
                found[module] = list(methods(module))
            except Exception:  # its own run reports why
                found[module] = written(module)
    return found


@functools.cache
def names():
    """Returns the names of the tests of each module. A process for each package loads its modules, since they may change where
    Python looks for others, and the settings of what they start."""
    packages = sorted({module.rpartition(".")[0] for module in modules()})
    started = [subprocess.Popen([sys.executable, "-m", "dev.runner", "--names", package], cwd=TOP, stdout=subprocess.PIPE)
               for package in packages]
    found = {}
    for process in started:
        found |= json.loads(process.communicate()[0])
    return found


class Recorded(unittest.TestResult):
    """Writes a line of JSON for each test that ended: its name, how it ended, its number of assertions, its seconds, and
    the same of its subTests."""

    def __init__(self, file):
        super().__init__()
        self.file, self.began, self.parts, self.whole = file, 0.0, {}, None

    def startTest(self, test):
        super().startTest(test)
        self.began, self.parts, self.whole = time.monotonic(), {}, None

    def stopTest(self, test):
        super().stopTest(test)
        endings = {ending for ending, _ in self.parts.values()}
        ending, message = self.whole or ("failed" if "failed" in endings else "passed", "")
        is_counted = getattr(test, "is_counted", True) and "skipped" not in endings
        self.write({"test": test.id(), "ended": ending, "message": message, "parts": self.parts,
                    "assertions": getattr(test, "compared", 0) if is_counted else None,
                    "seconds": round(time.monotonic() - self.began, 2)})

    def write(self, line):
        self.file.write(json.dumps(line) + "\n")
        self.file.flush()

    def note(self, test, ending, message=""):
        """Notes how a test ended, a subTest, or what a class or a module sets up."""
        if parent := getattr(test, "test_case", None):
            name = self.name_of(test.id().removeprefix(parent.id()).strip())
            self.parts[name] = ending, message
        elif isinstance(test, unittest.TestCase):
            self.whole = ending, message
        else:
            self.write({"test": test.id(), "ended": ending, "message": message, "parts": {}, "assertions": None, "seconds": 0})

    def name_of(self, name):
        """Returns the name of a subTest, in brackets on one line; a name that another subTest has gets a number."""
        name = " ".join((name if name.startswith("[") else f"[{name[1:-1]}]").split())
        number = 2
        while name in self.parts:
            name = f"{name.rpartition(']')[0].rpartition(' #')[0] or name[:-1]} #{number}]"
            number += 1
        return name

    def addSuccess(self, test):
        if getattr(test, "compared", None) == 0:
            return self.note(test, "failed", "it ended without an assertion")
        self.note(test, "passed")

    def addSubTest(self, test, subtest, err):
        self.note(subtest, *(("passed",) if err is None else ("failed", self.shown(err))))

    def addFailure(self, test, err):
        self.note(test, "failed", self.shown(err))

    def addError(self, test, err):
        self.note(test, "failed", self.shown(err))

    def addSkip(self, test, reason):
        self.note(test, "skipped", reason)

    def addExpectedFailure(self, test, err):
        self.note(test, "failed", "a failure was expected: a known fault has no test")

    def addUnexpectedSuccess(self, test):
        self.note(test, "failed", "a failure was expected, and it passed")

    @staticmethod
    def shown(err):
        """Returns a failure as text, without the frames of unittest."""
        kind, error, trace = err
        frames = [frame for frame in traceback.extract_tb(trace)
                  if pathlib.Path(frame.filename).parent.name != "unittest" and frame.name not in ("counting", "assert_ended")]
        lines = io.StringIO()
        lines.writelines(traceback.format_list(frames))
        lines.writelines(traceback.format_exception_only(kind, error))
        return lines.getvalue()


def run_module(module, names, file):
    """Runs these tests of a module, or all, and writes to the file how they ended."""
    known = methods(module)
    chosen = [known[name] for name in known if not names or name in names]
    unittest.TestSuite([unittest.defaultTestLoader.suiteClass(chosen)]).run(Recorded(file))


def main():
    parser = argparse.ArgumentParser(description=__doc__, formatter_class=argparse.RawDescriptionHelpFormatter)
    parser.add_argument("module")
    parser.add_argument("tests", nargs="*", metavar="TEST", help="names of tests; all if none is named")
    parser.add_argument("--record", type=pathlib.Path, default="/dev/stdout", help="the file that gets a line for each test")
    parser.add_argument("--names", action="store_true", help="prints the names of all tests of a package as JSON instead")
    args = parser.parse_args()
    if args.names:
        return print(json.dumps(names_in(args.module)))
    with open(args.record, "a") as file:
        run_module(args.module, args.tests, file)


if __name__ == "__main__":
    main()

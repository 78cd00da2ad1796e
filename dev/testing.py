"""What all tests share: a directory of its own for each test, one way to call a command, one assertion on a call, and
the number of comparisons that a test made.

Tests are `unittest` test cases in files `test_*.py`. `./test --only PATTERN` runs some, `./test --list` prints their names;
`python3 -m unittest tests.test_rows` and pytest run the same files. These constants of a module tell ./test how to run it:

- NEEDS: of what is built first, {"program"}, {"library"} or both;
- PROVED = True: it judges memory, time or what only the proved program has, so `./test --quick` leaves it out;
- ALONE = True: it measures time, so nothing else runs beside it."""
import functools
import os
import pathlib
import re
import shutil
import subprocess
import tempfile
import unittest
from typing import NamedTuple

from dev.crates import TOP

# A failing comparison shows at most this many characters of each side.
MOST_SHOWN = 1000


class Ended(NamedTuple):
    """How a call ended, by subprocess's names."""
    returncode: int
    stdout: str
    stderr: str


def text_of(output):
    """Returns the bytes as text; invalid UTF-8 is escaped."""
    return output if isinstance(output, str) else (output or b"").decode(errors="backslashreplace")


def call(command, *, input=None, timeout=600, **settings):
    """Calls a command, and returns how it ended. `input` is text or bytes; the other settings are those of subprocess.run.
    Raises subprocess.TimeoutExpired if the call doesn't end in time."""
    settings = {"stdout": subprocess.PIPE, "stderr": subprocess.PIPE} | settings
    if input is None:
        settings.setdefault("stdin", subprocess.DEVNULL)
    else:
        settings["input"] = input.encode() if isinstance(input, str) else input
    ended = subprocess.run(list(map(os.fspath, command)), timeout=timeout, **settings)
    return Ended(ended.returncode, text_of(ended.stdout), text_of(ended.stderr))


def first_difference(found, wanted):
    """Returns the number of the first line that differs, and both lines."""
    found, wanted = found.splitlines(keepends=True), wanted.splitlines(keepends=True)
    at = next((at for at, pair in enumerate(zip(found, wanted)) if pair[0] != pair[1]), min(len(found), len(wanted)))
    return at + 1, "".join(found[at : at + 1])[:MOST_SHOWN], "".join(wanted[at : at + 1])[:MOST_SHOWN]


@functools.cache
def program():
    """Returns the path of the program that is judged: YARIB_PROGRAM, or else that which ./try builds unproved."""
    if named := os.environ.get("YARIB_PROGRAM"):
        return pathlib.Path(named).resolve()
    built = subprocess.run([TOP / "dev/build/unproved"], stdout=subprocess.PIPE, text=True, stdin=subprocess.DEVNULL)
    if built.returncode or not built.stdout.strip():
        raise unittest.SkipTest("the unproved program can't be built here; ./try says why")
    return pathlib.Path(built.stdout.strip())


def compiled(folder, source, *options):
    """Compiles a source in C of this repository with gcc into the directory, and returns the path of the program, or with
    -shared of a library that is loaded before one."""
    target = folder / pathlib.Path(source).stem
    subprocess.run(["gcc", "-O2", *options, "-o", target, TOP / source], check=True)
    return target


@functools.cache
def library(source):
    """Returns the path of a library of this source in C, which exists until the process ends, and its directory."""
    folder = tempfile.TemporaryDirectory(prefix="yarib-test-")
    return compiled(pathlib.Path(folder.name), source, "-shared", "-fPIC"), folder


def launched(subcommand="run", limited=False):
    """Returns the setting that the launchers make before they start the program with this subcommand, as in ./yarib's own
    lines: arenas of large pages, which request address space in large pieces if several are filled and it isn't limited."""
    launcher = (TOP / "yarib").read_text()
    arenas = {word: (number, asks) for words, number, asks in re.findall(r"([\w*| ]+)\) arenas=(\d+) limits=(.*?) ;;", launcher)
              for word in words.split(" in ")[-1].replace(" ", "").split("|")}
    number, asks = arenas.get(subcommand, arenas["*"])
    pieces = "" if limited or "ulimit" not in asks else re.search(r"^case \$limits in .*?\) pieces=(\S+) ;;", launcher, re.M)[1]
    setting = re.search(r'^export GLIBC_TUNABLES="(.*?)\$\{', launcher, re.M)[1]
    return {"GLIBC_TUNABLES": setting.replace("$arenas", number).replace("$pieces", pieces)}


def is_unproved():
    """Returns true if the program that is judged was built without proofs: it has AddressSanitizer, so nothing can be
    loaded before it, and it needs /proc."""
    return "YARIB_PROGRAM" not in os.environ or "YARIB_UNPROVED" in os.environ


def needs_command(*names):
    """Skips a test, or a class of tests, if one of these commands isn't on PATH."""
    missing = [name for name in names if not shutil.which(name)]
    return unittest.skipIf(missing, f"{', '.join(missing)} not on PATH")


def counted(assertion):
    """Returns an assertion that also counts that it was called by a test, and not by another assertion."""
    @functools.wraps(assertion)
    def counting(self, *values, **options):
        if self.is_asserting:
            return assertion(self, *values, **options)
        self.compared += 1
        self.is_asserting = True
        try:
            return assertion(self, *values, **options)
        finally:
            self.is_asserting = False
    return counting


class TestCase(unittest.TestCase):
    """A test case that counts its assertions. ./test compares their number with that in tests/expected.txt, so a test whose
    cases, answers or comparisons were dropped fails. `self.folder` is an empty directory of the test's own, which is
    removed after it."""

    maxDiff = MOST_SHOWN
    is_asserting = False
    compared = 0  # assertions that this test called
    is_counted = True  # their number is the same in each run

    def count(self, comparisons):
        """Counts comparisons that were made elsewhere, such as by a program in C."""
        self.compared += comparisons

    def varies(self):
        """Says that the number of this test's assertions depends on time, chance or the machine: it only has to be more
        than 0."""
        self.is_counted = False

    @functools.cached_property
    def folder(self):
        made = tempfile.TemporaryDirectory(prefix="yarib-test-", ignore_cleanup_errors=True)
        self.addCleanup(vars(self).pop, "folder", None)
        self.addCleanup(made.cleanup)
        return pathlib.Path(made.name).resolve()

    def write(self, files):
        """Writes these files, a text or bytes for each name, into the test's directory."""
        for name, content in files.items():
            path = self.folder / name
            path.parent.mkdir(parents=True, exist_ok=True)
            path.write_bytes(content.encode() if isinstance(content, str) else content)

    def call(self, *command, **settings):
        """Calls a command in the test's directory, and returns how it ended."""
        return call(command, **{"cwd": self.folder} | settings)

    def yarib(self, *words, **settings):
        """Calls the program in the test's directory, and returns how it ended."""
        return self.call(program(), *words, **settings)

    def preloaded(self, source):
        """Returns the variable that loads a library of this source in C before a program, which has to be called in the
        test's directory: no path with a space can be loaded, so the library is put there."""
        path = library(source)[0]
        shutil.copy(path, self.folder)
        return {"LD_PRELOAD": f"./{path.name}"}

    def assert_ended(self, ended, stdout="", stderr="", returncode=0, message=None):
        """Fails unless the call ended with this status and these outputs; None takes any output. Of long outputs the
        first line that differs is shown."""
        shown = message or "the call"
        if ended.returncode != returncode:
            self.fail(f"{shown}: status {ended.returncode} in place of {returncode}; stdout {ended.stdout[:MOST_SHOWN]!r}, "
                      f"stderr {ended.stderr[:MOST_SHOWN]!r}")
        for name, found, wanted in (("stdout", ended.stdout, stdout), ("stderr", ended.stderr, stderr)):
            if wanted is not None and found != wanted:
                line, is_line, should = first_difference(found, wanted)
                self.fail(f"{shown}: line {line} of {name} is {is_line!r} in place of {should!r}")


for name in [name for name in dir(TestCase) if name.startswith("assert")]:
    setattr(TestCase, name, counted(getattr(TestCase, name)))


@functools.cache
def environment():
    """Returns the environment for calls that must not depend on the caller's: C's locale, and no variable of ours."""
    kept = {name: value for name, value in os.environ.items() if not name.startswith(("YARIB_", "LC_", "LANG"))}
    return kept | {"LC_ALL": "C"}

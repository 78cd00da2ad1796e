"""What the tests of the bindings share: the library for C in the forms that they need, and the tests of bindings/c,
built by its Makefile and run.

YARIB_LIBRARY names the directory of a built library, or its shared library; else bindings/build makes one of the
archive that YARIB_ARCHIVE names, or of the one that was proved here last."""
import atexit
import functools
import os
import pathlib
import re
import shutil
import subprocess
import tempfile
import unittest

from dev.crates import CRATES, TOP
from dev.models import table_vectors
from dev.testing import TestCase, call, environment

BINDINGS = TOP / "bindings"
STRICT = ["-std=c99", "-Wall", "-Wextra", "-Werror", "-I", BINDINGS / "c"]
# Memory of malloc in huge pages: a forwarding table of 64 MB takes a quarter of the time to make.
os.environ["GLIBC_TUNABLES"] = "glibc.malloc.hugetlb=1"
ADDRESS, THREAD = ("-g", "-fsanitize=address"), ("-g", "-fsanitize=thread")
COUNT = re.compile(r"^(\d+) comparisons\n\Z", re.M)


@functools.cache
def scratch():
    """Returns a directory that this process removes when it ends."""
    folder = tempfile.mkdtemp(prefix="yarib-bindings-")
    atexit.register(shutil.rmtree, folder, ignore_errors=True)
    return pathlib.Path(folder).resolve()


def archive():
    """Returns the path of the proved archive."""
    path = pathlib.Path(os.environ.get("YARIB_ARCHIVE") or CRATES / "yarib_c/out/libyarib_c.a").resolve()
    if not path.exists():
        raise unittest.SkipTest("there is no proved archive; `dev/build/build yarib_c` makes it")
    return path


@functools.cache
def made(name, **settings):
    """Returns the directory of a library that bindings/build makes under these variables, once in a process."""
    folder = scratch() / f"library {name}"
    ended = call([BINDINGS / "build", folder], env=environment() | {"YARIB_ARCHIVE": str(archive())} | settings)
    if ended.returncode or ended.stderr:
        raise AssertionError(f"bindings/build: status {ended.returncode}: {ended.stderr}")
    return folder


def library():
    """Returns the directory of the library as it is installed."""
    if named := os.environ.get("YARIB_LIBRARY"):
        path = pathlib.Path(named).resolve()
        return path if path.is_dir() else path.parent
    return made("as installed")


def bare(*options):
    """Returns the directory of a library without a heap, compiled with these options."""
    return made(" ".join(["bare", *options]), YARIB_HEAP="", CFLAGS=" ".join(["-O1" if options else "-O2", *options]))


def sanitized(*options):
    """Returns the directory of a library compiled with these options."""
    return made(" ".join(["with", *options]), CFLAGS=" ".join(["-O1", *options]))


@functools.cache
def has_options(*options):
    """Returns true if gcc has what these options need."""
    (scratch() / "none.c").write_text("int main(void) { return 0; }\n")
    words = ["gcc", *options, "none.c", "-o", "none"]
    is_compiled = subprocess.run(words, cwd=scratch(), capture_output=True).returncode == 0
    return is_compiled and subprocess.run([scratch() / "none"], capture_output=True).returncode == 0


def shown(page):
    """Returns what a page of the bindings says that each of its commands prints."""
    text = (BINDINGS / page).read_text()
    return dict(re.findall(r"^\$ (.*)\n((?:(?!\$ |```).*\n)*)", text, re.M))


def declared():
    """Returns the names of the calls that the header declares."""
    return re.findall(r"^(?:YARIB_STATUS |enum yarib_status |uint32_t |const char \*)(yarib_\w+)\(",
                      (BINDINGS / "c/yarib.h").read_text(), re.M)


def parts_of(name):
    """Returns the names of the parts that a test of bindings/c runs by name."""
    return re.findall(r'\{"(\w+)", \w+\}', (BINDINGS / "c" / f"test_{name}.c").read_text())


class LibraryCase(TestCase):
    """A test case that builds and runs tests of bindings/c."""

    def needs_options(self, *options):
        """Skips the test if gcc hasn't what these options need."""
        if not has_options(*options):
            self.skipTest(f"gcc has no {' '.join(options)} here")

    @staticmethod
    def vectors():
        """Returns the path of the test vectors, which are written once in a process."""
        path = scratch() / "vectors"
        if not path.exists():
            table_vectors.write(path)
        return path

    def build(self, name, *options, words=(), libraries=None):
        """Builds test_NAME.c as the Makefile says, with these options of gcc and words of make, and returns its
        path."""
        plain, without_heap = libraries or (library(), None)
        wanted = re.search(r"^WITH_BARE = (.*)$", (BINDINGS / "c/Makefile").read_text(), re.M)[1].split()
        if name in wanted:
            without_heap = without_heap or bare()
        ended = call(["make", "-s", "-C", BINDINGS / "c", f"build-{name}", f"OUT={self.folder}", f"LIBRARY={plain}",
                      f"BARE={without_heap}", f"OPTIONS={' '.join(options)}", *words], env=environment())
        self.assert_ended(ended, message=f"gcc of test_{name}.c")
        return self.folder / f"test_{name}"

    def run_counted(self, *command, stdout="", least=1, **settings):
        """Runs a test and counts its comparisons. Before their number it may print what matches `stdout`, which is
        returned. It fails if there are fewer than `least`."""
        settings.setdefault("timeout", 1800)
        settings["env"] = environment() | settings.get("env", {})
        ended = self.call(*command, **settings)
        name = " ".join([pathlib.Path(command[0]).name, *map(str, command[1:])])
        self.assert_ended(ended, stdout=None, message=name)
        found = COUNT.search(ended.stdout)
        self.assertIsNotNone(found, f"{name} prints no number of comparisons: {ended.stdout[-300:]!r}")
        self.assertRegex(ended.stdout[: found.start()], f"\\A(?:{stdout})\\Z")
        self.assertGreaterEqual(int(found[1]), least, name)
        self.count(int(found[1]))
        return ended.stdout[: found.start()]

    def run_parts(self, name, made, parts=None, **settings):
        """Runs each part of a test by its name."""
        for part in parts or parts_of(name):
            with self.subTest(part):
                self.run_counted(made, part, **settings)

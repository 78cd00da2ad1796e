"""Go's binding: each test that go has, its examples, its race detector, and how its files are laid out."""
import os
import re
import shutil

from bindings.tests.library import BINDINGS, LibraryCase, library, shown
from dev.crates import TOP, cache
from dev.testing import environment, needs_command
from dev.versions import VERSION

NEEDS = {"library"}

GO = BINDINGS / "go"
EXAMPLES = ("example", "example_readers", "example_daemon")


def names_of_tests():
    """Returns the names of the tests in the sources."""
    files = sorted(GO.glob("*_test.go"))
    return [name for file in files for name in re.findall(r"^func (Test\w+)\(", file.read_text(), re.M)]


class GoCase(LibraryCase):
    FLAGS = "-mod=mod -count=1"

    def setUp(self):
        """Copies the package to a place next to the library, where it finds it, and the header."""
        for name in ("c", "go"):
            shutil.copytree(BINDINGS / name, self.folder / name)
        os.symlink(library(), self.folder / "out")

    def go(self, *words, cwd="go", flags=FLAGS, **settings):
        """Calls go in a directory of the test's, without a network."""
        environ = environment() | {"GOCACHE": str(cache("bindings") / "go"), "GOPROXY": "off", "CGO_ENABLED": "1",
                                   "YARIB_VECTORS": str(self.vectors())} | settings
        if flags:
            environ["GOFLAGS"] = flags
        return self.call("go", *words, cwd=self.folder / cwd, timeout=1800, env=environ)


@needs_command("go")
class Go(GoCase):
    def test_each(self):
        """Each test of the sources passes, by its name."""
        ended = self.go("test", "-v", "./...")
        found = dict((name, how) for how, name in re.findall(r"^--- (\w+): (Test\w+) ", ended.stdout, re.M))
        for name in names_of_tests():
            with self.subTest(name):
                self.assertEqual(found.get(name), "PASS", ended.stdout[-2000:] + ended.stderr[-2000:])
        self.assertEqual(ended.returncode, 0)

    @needs_command("gofmt")
    def test_layout(self):
        self.assert_ended(self.call("gofmt", "-l", ".", cwd=self.folder / "go"))

    def test_vet(self):
        self.assert_ended(self.go("vet", "./..."), "", None)

    def test_race_detector(self):
        """Go's race detector sees Go's side: its locks, and what goroutines share."""
        if self.go("run", "-race", "./example").returncode:
            self.skipTest("go has no race detector here")
        ended = self.go("test", "-race", "-run", "Goroutines|Reader", ".")
        self.assertEqual(ended.returncode, 0)
        self.assertNotIn("WARNING: DATA RACE", ended.stdout + ended.stderr)

    def test_examples(self):
        for name in EXAMPLES:
            with self.subTest(name):
                ended = self.go("run", f"./{name}", flags=None)
                self.assert_ended(ended, shown("go/README.md")[f"go run ./{name}"], None)


@needs_command("go", "pkg-config")
class Vendored(GoCase):
    def test_vendored(self):
        """A program that vendors Go's package and links the installed library builds without a network."""
        prefix, module = self.folder / "prefix", re.search(r"^module (\S+)$", (GO / "go.mod").read_text(), re.M)[1]
        self.assert_ended(self.call(TOP / "install", "--library", prefix), None, None)
        text = f"module caller\n\ngo 1.19\n\nrequire {module} v{VERSION}\n\nreplace {module} => ../package\n"
        self.write({"caller/go.mod": text, "caller/main.go": (GO / "example/main.go").read_text()})
        shutil.copytree(GO, self.folder / "package")
        how = {"cwd": "caller", "flags": "-tags=yarib_pkgconfig", "PKG_CONFIG_PATH": str(prefix / "lib/pkgconfig"),
               "LD_LIBRARY_PATH": str(prefix / "lib")}
        self.assert_ended(self.go("mod", "vendor", **how), None, None)
        # What isn't vendored isn't there.
        shutil.rmtree(self.folder / "package")
        self.assert_ended(self.go("build", "-mod=vendor", ".", **how))
        ended = self.call(self.folder / "caller/caller", env=environment() | {"LD_LIBRARY_PATH": str(prefix / "lib")})
        self.assert_ended(ended, shown("go/README.md")["go run ./example"], None)

"""The examples of C and Python print what the pages of the bindings show."""
import shutil
import sys

from bindings.tests.library import ADDRESS, BINDINGS, STRICT, LibraryCase, has_options, library, shown
from dev.testing import environment

NEEDS = {"library"}


class Pages(LibraryCase):
    def compile(self, name, *options):
        """Compiles an example of C in the test's directory, with every warning on."""
        self.assert_ended(self.call("gcc", "-O1", *STRICT, "-pthread", *options, "-o", name,
                                    BINDINGS / "c" / f"{name}.c", library() / "libyarib.a"))

    def test_examples_of_c(self):
        for name in ("example", "example_readers"):
            with self.subTest(name):
                self.compile(name)
                self.assert_ended(self.call(f"./{name}"), shown("c/README.md")[f"./{name}"], None)

    def test_examples_of_python(self):
        settings = environment() | {"YARIB_LIBRARY": str(library() / "libyarib.so.0"),
                                    "PYTHONPATH": str(BINDINGS / "python")}
        for name in ("example.py", "example_daemon.py"):
            with self.subTest(name):
                ended = self.call(sys.executable, BINDINGS / "python" / name, env=settings)
                self.assert_ended(ended, shown("python/README.md")[f"python3 {name}"])


class Daemon(LibraryCase):
    """C's example of a daemon."""

    def setUp(self):
        options = ADDRESS * has_options(*ADDRESS)
        self.assert_ended(self.call("gcc", "-O1", *STRICT, "-pthread", *options, "-o", "example_daemon",
                                    BINDINGS / "c/example_daemon.c", library() / "libyarib.a"))
        shutil.copy(BINDINGS / "c/example.feed", self.folder)

    def test_page(self):
        for line, printed in shown("c/README.md").items():
            if "example_daemon" in line:
                with self.subTest(line):
                    self.assert_ended(self.call("bash", "-c", line), printed)
        self.assertEqual((self.folder / "saved.feed").read_text().splitlines()[-1], "add 10.3.0.0/16 0 192.0.2.13")

    def test_a_file_that_is_missing(self):
        ended = self.call("./example_daemon", "none", "saved.feed")
        self.assert_ended(ended, "", None, 1)
        self.assertEqual(len(ended.stderr.splitlines()), 1)

    def test_output_that_is_full(self):
        with open("/dev/full", "w") as full:
            ended = self.call("./example_daemon", "example.feed", "saved.feed", input="look 10.1.2.3\n", stdout=full)
        self.assertEqual(ended.returncode, 1)

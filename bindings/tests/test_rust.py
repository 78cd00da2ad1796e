"""Rust's binding: each test that cargo has, its examples, and how its files are laid out."""
import json
import re

from bindings.tests.library import BINDINGS, LibraryCase, library, shown
from dev.crates import cache
from dev.testing import environment, needs_command
from dev.versions import VERSION

NEEDS = {"library"}

RUST = BINDINGS / "rust"
EXAMPLES = ("two_feeds", "readers", "daemon")
STRICT = ("-D", "warnings", "-W", "clippy::pedantic")


def names_of_tests():
    """Returns the names of the tests in the sources, each after its file's."""
    names = []
    for file in sorted([*(RUST / "src").glob("*.rs"), *(RUST / "tests").glob("*.rs")]):
        names += [f"{file.stem}: {name}" for name in re.findall(r"^ *#\[test\]\n *fn (\w+)", file.read_text(), re.M)]
    return names


class CargoCase(LibraryCase):
    def cargo(self, *words, **settings):
        """Calls cargo, which keeps what it compiles for later calls."""
        settings["env"] = environment() | {"YARIB_LIB": str(library()), "YARIB_VECTORS": str(self.vectors()),
                                           "CARGO_TARGET_DIR": str(cache("bindings") / "target")}
        return self.call("cargo", *words, cwd=RUST, timeout=1800, **settings)


@needs_command("cargo")
class Rust(CargoCase):
    def test_each(self):
        """Each test of the sources passes, by its name."""
        ended = self.cargo("test", "--offline")
        found = dict(re.findall(r"^test (?:\w+::)*(\w+) \.\.\. (\w+)$", ended.stdout, re.M))
        for name in names_of_tests():
            with self.subTest(name):
                self.assertEqual(found.get(name.partition(": ")[2]), "ok", ended.stdout[-2000:] + ended.stderr[-2000:])
        self.assertEqual(ended.returncode, 0)

    def test_examples(self):
        for name in EXAMPLES:
            with self.subTest(name):
                ended = self.cargo("run", "--offline", "--quiet", "--example", name)
                self.assert_ended(ended, shown("rust/README.md")[f"cargo run --example {name}"], None)

    def test_metadata(self):
        ended = self.cargo("metadata", "--offline", "--no-deps", "--format-version", "1")
        package = json.loads(ended.stdout)["packages"][0]
        expected = {"version": VERSION, "license": None, "publish": [], "readme": "README.md", "repository": None,
                    "rust_version": "1.70"}
        self.assertEqual({name: package[name] for name in expected}, expected)

    @needs_command("rustfmt")
    def test_layout(self):
        self.assert_ended(self.cargo("fmt", "--check"), "", None)

    def test_clippy(self):
        if self.cargo("clippy", "--version").returncode:
            self.skipTest("cargo has no clippy here")
        self.assert_ended(self.cargo("clippy", "--offline", "--quiet", "--all-targets", "--", *STRICT), None)

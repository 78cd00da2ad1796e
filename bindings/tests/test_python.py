"""Python's package: what pip installs and what its annotations say. Its other tests are in bindings/python/tests."""
import re
import shutil
import sys

from bindings.tests.library import BINDINGS, LibraryCase, library, scratch, shown
from dev.testing import environment, needs_command

NEEDS = {"library"}

PACKAGE = BINDINGS / "python"
PIP = ("there/bin/pip", "install", "--quiet", "--no-index", "--disable-pip-version-check")
VERSIONS = "from make_wheel import NAME, VERSION; import yarib; print(NAME, VERSION, yarib.VERSION)"
WHEEL = "import make_wheel; print(make_wheel.build_wheel('.'), make_wheel.build_sdist('.'))"


def version():
    """Returns the package's version as pip reads it."""
    return re.search(r'^version = "(.*)"$', (PACKAGE / "pyproject.toml").read_text(), re.M)[1]


def with_library():
    """Returns the environment in which the package finds the library."""
    return environment() | {"YARIB_LIBRARY": str(library() / "libyarib.so.0"), "PYTHONDONTWRITEBYTECODE": "1"}


class Types(LibraryCase):
    @needs_command("mypy")
    def test_annotations(self):
        words = ["mypy", "--strict", "--python-version", "3.9", "--cache-dir", scratch() / "mypy", "yarib"]
        ended = self.call(*words, cwd=PACKAGE)
        number = len(list((PACKAGE / "yarib").glob("*.py")))
        self.assert_ended(ended, f"Success: no issues found in {number} source files\n", None)


class Package(LibraryCase):
    """If Python has venv, pip installs the package without a network, and uses nothing else from its folder."""

    def setUp(self):
        if self.call(sys.executable, "-m", "venv", "there").returncode:
            self.skipTest("Python has no venv here")

    def run_example(self, settings):
        shutil.copy(PACKAGE / "example.py", self.folder)
        ended = self.call("there/bin/python", "example.py", env=settings)
        self.assert_ended(ended, shown("python/README.md")["python3 example.py"])

    def test_without_a_library(self):
        self.assert_ended(self.call(*PIP, PACKAGE, env=environment()))
        self.run_example(with_library())
        self.assertEqual([path.name for path in self.folder.rglob("yarib/py.typed")], ["py.typed"])
        installed = {path.name for path in self.folder.rglob("yarib/*.py")}
        self.assertEqual(installed, {path.name for path in (PACKAGE / "yarib").glob("*.py")})

    def test_with_the_library(self):
        self.assert_ended(self.call(*PIP, PACKAGE, env=with_library()))
        self.run_example(environment())


class Wheel(LibraryCase):
    def test_versions(self):
        ended = self.call(sys.executable, "-c", VERSIONS, env=with_library() | {"PYTHONPATH": str(PACKAGE)})
        self.assert_ended(ended, f"yarib {version()} {version()}\n")

    def test_a_wheel_of_1970(self):
        """No file of a zip had a time in 1970."""
        settings = environment() | {"PYTHONPATH": str(PACKAGE), "PYTHONDONTWRITEBYTECODE": "1",
                                    "SOURCE_DATE_EPOCH": "0"}
        ended = self.call(sys.executable, "-c", WHEEL, env=settings)
        self.assert_ended(ended, f"yarib-{version()}-py3-none-any.whl yarib-{version()}.tar.gz\n")

"""Copies of the repository with the program that is judged as the built one, for tests of ./install and ./try."""
import os
import pathlib
import re
import shutil
import subprocess
import tempfile

from dev.build.built import product, put
from dev.crates import TOP
from dev.testing import TestCase, environment, program
from tests.texts import ROW

COPIED = ("HANDLES", "NOTICES.md", "VERSION", "bindings", "crates", "crates.txt", "dev", "docs/CLI.md", "install", "packaging",
          "tests/help", "try", "yarib")


def copied(copy):
    """Makes a copy of what ./install and ./try need, and returns its path."""
    for name in COPIED:
        (copy / name).parent.mkdir(parents=True, exist_ok=True)
        if (TOP / name).is_dir():
            shutil.copytree(TOP / name, copy / name, ignore=shutil.ignore_patterns("out", "target", "__pycache__", "must-fail"))
        else:
            shutil.copy(TOP / name, copy / name)
    built_in(copy).parent.mkdir(parents=True)
    build(copy, program().read_bytes())
    return copy


def built_in(copy):
    """Returns the path of the program in a copy of the repository once it is built."""
    return copy / product("rt_app").relative_to(TOP)


def build(copy, content):
    """Puts these bytes where dev/build/build puts the program."""
    new = built_in(copy).with_name("new")
    new.write_bytes(content)
    new.chmod(0o755)
    put(new, built_in(copy))


def write_script(path, text):
    path.parent.mkdir(parents=True, exist_ok=True)
    path.write_text(text)
    path.chmod(0o755)


def first_on_path(folder, **variables):
    """Returns an environment in which the commands of a directory come first."""
    return environment() | {"PATH": f"{folder}:{os.environ['PATH']}"} | variables


def files_below(folder):
    """Returns the files below a directory; for the program's size, which is part of a name, with the letter N."""
    names = (str(file.relative_to(folder)) for file in folder.rglob("*") if not file.is_dir())
    return sorted(re.sub(r"size-\d+$", "size-N", name) for name in names)


class CopyCase(TestCase):
    """A test with a copy of the repository, `self.copy`. The tests of a class share it: one that changes a copy makes its
    own. A call doesn't depend on the caller's environment."""

    kind = []  # what ./install is called with before the prefix
    environment = environment()

    @classmethod
    def setUpClass(cls):
        made = tempfile.TemporaryDirectory(prefix="yarib-test-")
        cls.addClassCleanup(made.cleanup)
        cls.shared = pathlib.Path(made.name).resolve()
        cls.copy = copied(cls.shared / "a copy")

    def setUp(self):
        self.write({"row.feed": ROW})

    def call(self, *command, **settings):
        return super().call(*command, **{"env": self.environment} | settings)

    def install(self, *words, **settings):
        """Calls ./install, and returns how it ended."""
        return self.call(self.copy / "install", *self.kind, *words, **settings)

    def assert_refused(self, prefix):
        """Fails unless ./install refuses a prefix in one line, and makes nothing there."""
        ended = self.install(prefix)
        self.assert_ended(ended, stderr=None, returncode=2)
        self.assertEqual((len(ended.stderr.splitlines()), pathlib.Path(str(prefix).strip()).exists()), (1, False))

    def assert_installed_at_once(self, count, prefix):
        """Fails unless this number of calls of ./install at once end well."""
        calls = [subprocess.Popen([self.copy / "install", *self.kind, prefix], stdout=subprocess.DEVNULL, stderr=subprocess.PIPE,
                                  env=self.environment) for _ in range(count)]
        self.assertEqual({(one.communicate()[1], one.returncode) for one in calls}, {(b"", 0)})

    def own_copy(self):
        """Gives the test a copy of its own, with its program as `yarib` next to it."""
        self.copy = copied(self.folder / "a copy")
        return self.copy

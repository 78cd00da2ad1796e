"""The one table that says which command converts an input with its options.

A test names a converter and its options (`bird-to-feeds --one-hop`); the table makes words of them. Behind these the test
puts the directory of the feeds, and the input is standard input. The table is that of this checkout's converters, unless the
variable YARIB_CONVERTERS names another:

- a directory with converters, or a checkout of this repository;
- a file of Python with a function `words(converter, options)`. For a program that recognizes its input it could be:

      def words(converter, options):
          return ["yarib", "import", *options]
"""
import atexit
import importlib.util
import os
import pathlib
import sys
import tempfile
from typing import Callable, NamedTuple

from dev import testing

CONVERT = pathlib.Path(__file__).resolve().parents[1]
VARIABLE = "YARIB_CONVERTERS"


class Table(NamedTuple):
    """A table of commands: what it was named, and its function."""
    name: str
    words: Callable


def scripts_in(folder):
    """Returns the table of the converters in a directory. Python without installed packages starts in a third of the
    time."""
    return Table(str(folder), lambda converter, options: [sys.executable, "-S", str(folder / converter), *options])


def table_named(text):
    """Returns the table that a directory or a file of Python has. Raises ValueError if it is neither."""
    path = pathlib.Path(text).resolve()
    for folder in (path, path / "convert"):
        if (folder / "bird-to-feeds").is_file():
            return scripts_in(folder)
    if path.suffix != ".py" or not path.is_file():
        raise ValueError(f"{text} is neither a directory with converters nor a file of Python with `words`")
    spec = importlib.util.spec_from_file_location("table_of_commands", path)
    module = importlib.util.module_from_spec(spec)
    spec.loader.exec_module(module)
    return Table(str(path), module.words)


def environment():
    """Returns the environment of the converters, which is the same whoever calls. Python keeps what it compiled of them where
    nothing else looks for it."""
    kept = {name: value for name, value in testing.environment().items() if name != "PYTHONDONTWRITEBYTECODE"}
    return kept | {"PYTHONPYCACHEPREFIX": COMPILED.name}


COMPILED = tempfile.TemporaryDirectory(prefix="yarib-compiled-", ignore_cleanup_errors=True)
atexit.register(COMPILED.cleanup)
TESTED = table_named(os.environ.get(VARIABLE, CONVERT))

"""Converters with other constants, and with other functions of their modules."""
import os
import pathlib
import subprocess
import sys

from convert.tests.commands import CONVERT, environment
from convert.tests.converting import SAMPLES, Conversion, ConverterCase, is_for_feeds
from dev import testing

WITH_CONSTANTS = pathlib.Path(__file__).with_name("with_constants.py")


def words(command, constants):
    """Returns the words of a converter's call with these constants, which are statements of Python."""
    name, *options = command.split()
    return [sys.executable, "-S", str(WITH_CONSTANTS), constants, str(CONVERT / name), *options]


def pieces(piece, processes=3, block=None):
    """Returns the constants with which this number of processes converts pieces of this size."""
    return f"PIECE, PROCESSES, BLOCK = {piece}, {processes}, {block or max(7, piece // 3)}\n"


def start(command, constants, *more, **settings):
    """Starts a converter with these constants, which reads what is written to it."""
    settings = {"stdin": subprocess.PIPE, "stderr": subprocess.PIPE, "cwd": SAMPLES, "env": environment()} | settings
    return subprocess.Popen([*words(command, constants), *map(os.fspath, more)], **settings)


class InsideCase(ConverterCase):
    """A test case that calls converters with other constants."""

    def convert_with(self, constants, command, data, *more, folder=None, **settings):
        """Calls a converter of this checkout with these constants; its feeds go into a new directory."""
        folder = self.folder / (folder or next(self.folders))
        last = [folder] if is_for_feeds(command) else []
        settings = {"cwd": SAMPLES, "env": environment()} | settings
        return Conversion(*testing.call([*words(command, constants), *more, *last], input=data, **settings), folder)

    def assert_same(self, command, data, *sizes):
        """Fails unless several processes, with pieces of these sizes, give the same as one."""
        one = self.convert_with(pieces(1 << 20, 1), command, data).result
        for size in sizes:
            self.assertEqual(self.convert_with(pieces(size), command, data).result, one, f"{command} in pieces of {size} bytes")
        return one

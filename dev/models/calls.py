"""Calls of the program by their arguments, and how each has to end: status, standard output and standard error, to the
byte. dev/models/calls.txt has them.

The tests of the program make them, in a directory with their files. Each look-up, list and comparison that the pages
show has to be one of these calls (dev/tests/test_pages.py).
"""
import pathlib
import re
from typing import NamedTuple

from dev.crates import TOP

TEXT = pathlib.Path(__file__).with_suffix(".txt")
TUTORIAL = {name: (TOP / "examples" / name).read_text()
            for name in ("north.feed", "south.feed", "east.feed", "packets.txt")}
# Files that each test of the program has, and those that no line of calls.txt can have.
ROWS = {"row.feed": "add 10.0.0.0/8 100 192.0.2.1\n", "empty.feed": "", "faulty.feed": "frob\n"}
CR_FILES = {"cr.txt": "10.0.0.1\r\n", "a-version-with-a-carriage-return.feed": "version 2\r\npurge\n"}
NO_LINE_END = "\n\\ no line end\n"


class Call(NamedTuple):
    """The arguments without the program's name; the status, standard output and standard error."""

    words: list
    ending: tuple


def help_texts():
    """Returns each help text by its subcommand, and that of the program by `yarib`: the sections of docs/CLI.md."""
    section = re.compile(r"^## `(?:yarib )?(\w+)`\n\n```text\n(.*?)^```$", re.M | re.S)
    return dict(section.findall((TOP / "docs/CLI.md").read_text()))


def call_of(text):
    """Returns the call that calls.txt has after `$ `."""
    words, *lines = text.splitlines()
    status = int(lines.pop()[2:]) if lines and lines[-1].startswith("= ") else 0
    output = "".join(f"{line}\n" for line in lines if not line.startswith("!"))
    errors = "".join(f"{line.removeprefix('!').removeprefix(' ')}\n" for line in lines if line.startswith("!"))
    return Call(words.split(), (status, output, errors))


def listed(name):
    """Returns the files and the calls of a list."""
    lines = re.sub("^// .*\n", "", TEXT.read_text(), flags=re.M)
    of_list = re.search(rf"^== {name}\n(.*?)(?=^== |\Z)", lines, re.M | re.S)[1]
    parts = [(part[0], part[2:]) for part in re.split(r"^(?=[+$] )", of_list, flags=re.M) if part]
    files = dict(part.replace(NO_LINE_END, "").split("\n", 1) for mark, part in parts if mark == "+")
    return TUTORIAL | ROWS | CR_FILES | files, [call_of(part) for mark, part in parts if mark == "$"]


RUN_FILES, RUNS = listed("RUNS")
SHOWN_FILES, SHOWN = listed("SHOWN")
COMPARED_FILES, COMPARED = listed("COMPARED")
WORKED_FILES, WORKED = listed("WORKED")
CUT_FILES, CUT = listed("CUT")
_, REPLAYED = listed("REPLAYED")
_, UNKNOWN = listed("UNKNOWN")

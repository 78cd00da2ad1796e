"""Writes a map as one HTML page, and prints an error as one line."""
import argparse
import array
import base64
import datetime
import errno
import gc
import html
import itertools
import json
import operator
import os
import pathlib
import re
import sys
import zlib

from . import chart
from .reading import ROUTE_TEXT, Refused

NAME = os.path.basename(sys.argv[0])
TEMPLATE = pathlib.Path(__file__).resolve().parent / "page.html"
# the dots of a map have 2^ORDER in a row: for a table finer ones than its cells, for a comparison the same as its
# cells, so that the smallest change is visible
TABLE_ORDER, COMPARISON_ORDER = 10, 8
# the compression level of zlib: the next one takes twice the time and saves a twentieth
LEVEL = 5


def steps(firsts):
    """The distance of each range's beginning from the one before: these numbers repeat more often than addresses."""
    return array.array("I", map(operator.sub, firsts, itertools.chain((0,), firsts)))


def columns(made, colourings):
    """The page's data, by name: the columns of four bytes first, as their places have to be multiples of four."""
    four, one = {"step": steps(made.firsts), "address": made.hops.addresses}, {}
    for side, answers in made.sides.items():
        four |= {f"{side}hop": answers.hops}
        if made.are_routes:
            four |= {f"{side}{name}": numbers for name, numbers in answers.numbers.items()}
            one |= {f"{side}length": answers.lengths, f"{side}feed": answers.feeds}
    for colouring in colourings:
        one[f"class by {colouring.name}"] = colouring.classes
    return four | one


def bytes_of(column):
    if sys.byteorder == "big":
        column = column[:]
        column.byteswap()
    return column.tobytes()


def for_script(value):
    """JSON that may be in an element of HTML."""
    return json.dumps(value, separators=(",", ":")).replace("<", "\\u003c")


def page(title, origin, kind, order, feeds, held, colourings):
    """The page's text; `origin` has its time and its source."""
    about = {
        "kind": kind,
        "order": order,
        "feeds": feeds.texts,
        "route": ROUTE_TEXT,
        "ways": chart.WAYS,
        "columns": [[name, column.itemsize, len(column)] for name, column in held.items()],
        "colourings": [vars(colouring) | {"classes": f"class by {colouring.name}"} for colouring in colourings],
    }
    packed = zlib.compress(b"".join(map(bytes_of, held.values())), LEVEL)
    parts = {
        "title": html.escape(title),
        "made": html.escape(printable(origin)),
        "style": chart.style(),
        "about": for_script(about),
        "data": base64.b64encode(packed).decode(),
    }
    return re.sub(r"\{\{(\w+)\}\}", lambda found: parts[found[1]], TEMPLATE.read_text(encoding="utf-8"))


def of_table(table, title, origin):
    colourings = chart.of_table(table)
    title = title or f"Prefixes of the table: {table.rows:,}"
    return page(title, origin, "table", TABLE_ORDER, table.feeds, columns(table, colourings), colourings)


def of_comparison(made, title, origin):
    changes = chart.changes_of(made)
    colourings = chart.of_comparison(made, changes)
    held = columns(made, colourings) | {"change": changes}
    title = title or f"Ranges answered otherwise: {made.rows:,}"
    return page(title, origin, "comparison", COMPARISON_ORDER, made.feeds, held, colourings)


class Parser(argparse.ArgumentParser):
    """A parser whose messages repeat arguments as `printable` writes them."""

    def error(self, message):
        super().error(printable(message))


def run(documentation, read, write, empty):
    """Runs a script; an error is one line on standard error and status 1. `empty` is the meaning of an empty input."""
    parser = Parser(
        description=documentation, formatter_class=argparse.RawDescriptionHelpFormatter, allow_abbrev=False)
    parser.add_argument("file", nargs="?", help="the file to read (default: standard input)")
    parser.add_argument("--title", help="the heading of the map")
    parser.add_argument("--command", metavar="TEXT", help="the command that printed the input, to be shown on the page")
    arguments = parser.parse_args()
    name = arguments.file or "standard input"
    # objects that are kept don't refer to themselves, so the cycle collector has nothing to find
    gc.disable()
    try:
        made = read_from(arguments.file, read)
        if not made.rows:
            say(f"{NAME}: {name}: no row: {empty}")
        write_out(write(made, arguments.title, origin_of(arguments)))
        return
    except Refused as refused:
        said = f"{NAME}: {name}: {refused}"
    except OSError as error:
        said = f"{NAME}: standard output: {error.strerror}"
    except MemoryError:
        said = f"{NAME}: out of memory for this input"
    except KeyboardInterrupt:
        sys.exit(130)
    # nobody reads what is left to be flushed
    sys.stdout = None
    say(said)
    sys.exit(1)


def origin_of(arguments):
    """The line of the page with its time, its script and its source."""
    time = time_of(os.environ.get("SOURCE_DATE_EPOCH"))
    return f"Made on {time:%Y-%m-%d at %H:%M UTC} by {NAME} from {arguments.command or arguments.file or 'standard input'}."


def time_of(seconds):
    """The time that reproducible builds set, or else the present time."""
    if seconds is None:
        return datetime.datetime.now(datetime.UTC)
    try:
        return datetime.datetime.fromtimestamp(int(seconds), datetime.UTC)
    except (ValueError, OverflowError, OSError):
        raise Refused(f"SOURCE_DATE_EPOCH is {seconds!r} instead of a number of seconds") from None


def read_from(file, read):
    try:
        with open(file or 0, "rb") as stream:
            return read(stream)
    except OSError as error:
        raise Refused(error.strerror) from None


def write_out(text):
    """Writes on standard output. Python's own may be without a buffer (PYTHONUNBUFFERED), and then drops what the system
    doesn't accept at once."""
    if sys.stdout is None:
        raise OSError(errno.EBADF, "it is closed")
    with open(1, "wb", closefd=False) as output:
        # arguments may contain bytes that aren't UTF-8
        output.write(text.encode("utf-8", errors="replace"))


def printable(text):
    """Returns a message's line with each character that a terminal could obey, or that it wouldn't show, as `repr` writes
    it: names of files may be chosen by others."""
    return text if text.isprintable() else "".join(one if one.isprintable() else repr(one)[1:-1] for one in text)


def say(text):
    """A line on standard error, if that is open: else `print` would write it to standard output."""
    if sys.stderr is not None:
        print(printable(text), file=sys.stderr)

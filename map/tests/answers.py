"""Tables and comparisons of `yarib` with the answer and the colours that a page has to have for each address, by other
code.

An answer can change only at the beginning of a prefix of the tables, or after its end: between two such addresses each
look-up has the same answer. So the look-ups at these addresses determine the answers of all addresses."""
import functools
import itertools
import pathlib
import random
import tempfile

from dev.crates import TOP
from dev.testing import call, program
from map.tests.pages import END, Page, PageCase, number_of, script, text_of

EXAMPLES = TOP / "examples"
RANDOM_ADDRESSES, RANDOM_ROUTES, FEEDS = 2000, 20000, 9
# the base of a /16, and the number of routes in it
DENSE, DENSE_ROUTES = 10 << 24 | 7 << 16, 100
COLOURS = 6
LENGTHS = ((0, 8), (9, 15), (16, 19), (20, 22), (23, 24), (25, 32))
TABLES = {
    "three files": ("north", "south", "east"),
    "one file": ("north",),
    "the first example": ("first",),
    "faulty lines": ("fault",),
    "the same file twice": ("north", "north"),
    "random routes": ("old",),
}
COMPARISONS = {
    "a file more": (("north", "east"), ("north", "south", "east")),
    "two files less": (("north", "south", "east"), ("east",)),
    "other files": (("fault",), ("first",)),
    "the same table": (("north",), ("north",)),
    "random routes": (("old",), ("new",)),
}


@functools.cache
def random_folder():
    """Returns a directory with random feeds, which lasts as long as the tests."""
    return tempfile.TemporaryDirectory(prefix="yarib-test-")


@functools.cache
def random_files():
    """Returns the paths of the random feeds by the names of their tables."""
    return dict(zip(("old", "new"), random_feeds(pathlib.Path(random_folder().name))))


def files_of(names):
    """Returns the files of a table: examples, or random feeds."""
    found = [random_files()[name] if name in ("old", "new") else [EXAMPLES / f"{name}.feed"] for name in names]
    return tuple(itertools.chain.from_iterable(found))


def yarib(*words, **settings):
    """Returns the program's output; faulty lines and differences don't count as failures."""
    ended = call([program(), *words], **settings)
    if ended.returncode not in (0, 1, 2):
        raise AssertionError(f"yarib {' '.join(map(str, words))} ends with status {ended.returncode}: {ended.stderr}")
    return ended.stdout


def look_ups(addresses, files):
    """Returns the answer for each address: `no route`, or the route."""
    asked = "".join(f"{text_of(address)}\n" for address in addresses)
    lines = yarib("lookup", "--addresses", "/dev/stdin", *files, input=asked).splitlines()
    pairs = [line.partition(" ")[::2] for line in lines]
    if [name for name, _ in pairs] != asked.splitlines():
        raise AssertionError("yarib lookup doesn't answer each address in turn")
    return [answer.removeprefix("route ") for _, answer in pairs]


def bounds(files):
    """Returns the addresses at which the table's answers can change."""
    found = {0}
    for row in yarib("table", "--best", *files).splitlines():
        address, _, length = row.split()[0].partition("/")
        base = number_of(address)
        found |= {base, base + 2 ** (32 - int(length))}
    return found - {END}


@functools.cache
def answers_of(*tables):
    """Returns the addresses at which an answer of the tables can change, and what each table answers to these and to random
    ones."""
    draw = random.Random(61)
    begin = set().union(*map(bounds, tables))
    asked = sorted(begin | {draw.getrandbits(32) for _ in range(RANDOM_ADDRESSES)} | {END - 1})
    return begin, dict(zip(asked, zip(*(look_ups(asked, files) for files in tables)), strict=True))


@functools.cache
def hop_of(answer):
    """Returns the next hop of a look-up's answer, as `yarib diff` prints it."""
    hop = answer.rpartition(" ")[2]
    return answer if answer == "no route" else "discard" if hop == "discard" else f"via {hop}"


@functools.cache
def parts_of(answer):
    """Returns for each colouring its values: the next hop, the feed and the length."""
    if not answer[0].isdigit():
        return {name: answer.removeprefix("via ") for name in ("next hop", "feed", "length")}
    prefix, _, feed, *_, hop = answer.split()
    length = int(prefix.partition("/")[2])
    least, greatest = next(pair for pair in LENGTHS if pair[0] <= length <= pair[1])
    return {"next hop": hop, "feed": f"feed {feed}", "length": f"/{least} to /{greatest}"}


def change_of(old, new):
    """Returns the change of an address with these answers, as the legend names it."""
    if old == new:
        return "unchanged"
    old, new = hop_of(old), hop_of(new)
    if old == new:
        return "the same next hop by another route"
    if new == "discard":
        return "is discarded"
    if new == "no route":
        return "loses its route"
    return {"no route": "gets a route", "discard": "isn't discarded any more"}.get(old, "another next hop")


def of_table(answer):
    """Returns the answer for an address on a table's page, and for each colouring the text of its colour."""
    return answer, parts_of(answer)


def of_comparison(old, new, by):
    """Returns the answer for an address on a comparison's page, and for each colouring the text of its colour."""
    both = (old, new) if by == "route" else (hop_of(old), hop_of(new))
    if both[0] == both[1]:
        names = ("next hop", "feed", "length")
        colours = {f"{side} {name}": "unchanged" for side in ("old", "new") for name in names}
        return "unchanged", colours | {"change": "unchanged"}
    colours = {f"{side} {name}": text for side, answer in (("old", old), ("new", new))
               for name, text in parts_of(answer).items()}
    return " -> ".join(both), colours | {"change": change_of(old, new)}


def random_prefix(draw):
    length = draw.choice((32, 32, 30, 25, *range(12, 25), *[24] * 10, 8))
    base = draw.getrandbits(32) >> 32 - length << 32 - length
    return f"{text_of(base)}/{length}"


def random_line(draw, prefix):
    hop = "discard" if draw.randrange(20) == 0 else f"192.0.2.{min(int(draw.expovariate(0.2)), 255)}"
    return f"add {prefix} {draw.choice((0, 10, 4294967295))} {hop}\n"


def random_feeds(folder):
    """Writes files of random routes with a default route, and of a table with some of them changed or removed; returns the
    paths of both."""
    draw = random.Random(61)
    prefixes = {random_prefix(draw) for _ in range(RANDOM_ROUTES)} | {"0.0.0.0/0", "0.0.0.0/32", "255.255.255.255/32"}
    prefixes |= {f"{text_of(DENSE + draw.randrange(256) * 256)}/24" for _ in range(DENSE_ROUTES)}
    lines = {prefix: random_line(draw, prefix) for prefix in sorted(prefixes)}
    numbers = {prefix: draw.randrange(FEEDS) for prefix in lines}
    changed = {prefix: random_line(draw, prefix) if draw.randrange(30) == 0 else line for prefix, line in lines.items()
               if prefix != "0.0.0.0/0" and draw.randrange(50)}
    files = []
    for name, rows in (("old", lines), ("new", changed)):
        files.append(tuple(folder / f"{name}{number}.feed" for number in range(FEEDS)))
        for number, file in enumerate(files[-1]):
            file.write_text("version 2\n" + "".join(line for prefix, line in rows.items() if numbers[prefix] == number))
    return files


class AnswerCase(PageCase):
    """A test of pages of what the program prints."""

    def page_of_output(self, name, text):
        """Returns the page for an output of `yarib`; an output without a row is reported."""
        ended = script(name, input=text)
        self.assert_ended(ended, stdout=None, stderr=None, message=name)
        self.assertEqual(ended.stderr.startswith(f"{name}: standard input: no row: "), text in ("", "total 0\n"))
        return Page(ended.stdout)

    def table(self, files):
        """Returns the page of a table, the addresses at which an answer can change, and the answer and the colours of each
        address."""
        page = self.page_of_output("table-to-map", yarib("table", "--best", "--total", *files))
        begin, answers = answers_of(files)
        return page, begin, {address: of_table(*answer) for address, answer in answers.items()}

    def comparison(self, old, new, by):
        """Returns the same of a comparison."""
        page = self.page_of_output("diff-to-map", yarib("diff", "--by", by, *old, "--", *new))
        begin, answers = answers_of(old, new)
        return page, begin, {address: of_comparison(*pair, by) for address, pair in answers.items()}

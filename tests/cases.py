"""What the tests of the program share: a call with how it has to end, a refused command line, and random tables."""
import shlex

from dev.models.calls import ROWS
from dev.models.table_model import TOO_MANY_FILES, Table, dotted, row
from dev.testing import TestCase

TOO_MANY = {"stderr": TOO_MANY_FILES, "returncode": 3}
TRY_HELP = "\n\nFor more information, try '--help'.\n"


def words_of(words):
    """Returns the words of a call; a text is words between blanks."""
    return words.split() if isinstance(words, str) else list(words)


def printable(text):
    """Returns the text, in which characters are escaped if some aren't printable or aren't ASCII."""
    return text if text.isascii() and text.isprintable() else text.encode("unicode_escape", "surrogatepass").decode()


class ProgramCase(TestCase):
    """Calls of the program in a directory with `row.feed`, `empty.feed` and `faulty.feed`. Each comparison of a call is
    a subTest, which has the call's words as its name if it is given none."""

    def setUp(self):
        self.names = {}
        self.write(ROWS)

    def named(self, name):
        """Begins a subTest; a name that comes again has a number."""
        name = printable(name)
        self.names[name] = self.names.get(name, 0) + 1
        return self.subTest(name if self.names[name] == 1 else f"{name} ({self.names[name]})")

    def assert_prints(self, words, stdout="", stderr="", returncode=0, *, name=None, **settings):
        """Calls the program with these words, and compares how the call ends."""
        words = words_of(words)
        with self.named(name or shlex.join(map(str, words))):
            self.assert_ended(self.yarib(*words, **settings), stdout, stderr, returncode)

    def assert_refused(self, words, message, returncode=3, **settings):
        """Fails unless the call prints nothing but this message of the program."""
        self.assert_prints(words, "", f"yarib: {message}\n", returncode, **settings)

    def assert_unreadable(self, words, file, **settings):
        self.assert_refused(words, f"cannot read {file}", 4, **settings)

    def assert_misused(self, words, *parts, name=None):
        """Fails unless the library that parses the command line refuses it by a message with these parts."""
        words = words_of(words)
        with self.named(name or shlex.join(words)):
            ended = self.yarib(*words)
            self.assert_ended(ended, "", None, 3)
            self.assertTrue(ended.stderr.startswith("error: ") and ended.stderr.endswith(TRY_HELP), ended.stderr)
            for part in parts:
                self.assertIn(part, ended.stderr)

    def assert_cannot_write(self, words):
        """Fails unless a call whose output is a full device ends with status 6 and prints only that it can't write."""
        words = words_of(words)
        with self.named(shlex.join(words)), open("/dev/full", "w") as full:
            self.assert_ended(self.yarib(*words, stdout=full), "", "yarib: cannot write\n", 6)

    def assert_calls(self, texts, listed):
        """Writes these files, and makes calls of dev/models/calls.py."""
        self.write(texts)
        for words, (returncode, stdout, stderr) in listed:
            self.assert_prints(words, stdout, stderr, returncode)

    def assert_run(self, name, texts, stdout, returncode=0, words=()):
        """Runs these texts, each a file, and compares how the run ends."""
        files = {f"{feed}.feed": text for feed, text in enumerate(texts, 1)}
        self.write(files)
        self.assert_prints(["run", *words, *files], stdout, "", returncode, name=name)

    def stdout(self, *words):
        """Returns what a call prints that rejects nothing of its input."""
        ended = self.yarib(*words)
        self.assertEqual(ended.stderr, "")
        return ended.stdout

    def random_feeds(self, choice, paths, draw, count):
        """Writes random feeds to these paths, each with at most `count` of the routes that `draw` returns, and returns
        their table. No feed adds a route that exists."""
        model = Table(1_000_000)
        for feed, path in enumerate(paths, 1):
            lines = [f"add {draw(choice)}" for _ in range(count)]
            self.write({path: "".join(f"{line}\n" for line in lines if model.apply(feed, line.split()) == "added")})
        return model

    def random_table(self, choice, side, count):
        """Writes two random feeds of at most `count` routes, and returns their table and the names of their files."""
        paths = [f"{side}{feed}.feed" for feed in (1, 2)]
        return self.random_feeds(choice, paths, random_route, count), paths


def random_route(choice):
    """Returns one of few prefixes near the ends of ranges, with a preference and a next hop."""
    length = choice.choice((0, 1, 8, 9, 24, 31, 32))
    base = choice.choice((0, 10 << 24, 255 << 24)) + choice.choice((0, 1, 255, 256, (1 << 24) - 1))
    return f"{prefix_of(base, length)} {choice.randrange(2)} 192.0.2.{choice.randrange(3)}"


def prefix_of(number, length):
    """Returns the prefix of this length with the address of this number."""
    return f"{dotted(number >> 32 - length << 32 - length)}/{length}"


def route(feed, prefix="10.0.0.0/8", preference=100, hop="192.0.2.1"):
    """Returns the row of a route, by default of row.feed's."""
    return row(prefix, feed, preference, hop)


def table(*routes):
    """Returns what a run prints of the table that has these rows."""
    return f"table {len(routes)}\n" + "".join(routes)

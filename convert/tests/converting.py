"""What the tests of converters share: how one is called, what it leaves, and the table and answers of its feeds."""
import functools
import ipaddress
import os
import pathlib
import signal
from typing import NamedTuple

from convert.tests import commands
from dev import testing
from dev.models.table_model import route_text

SAMPLES = commands.CONVERT / "samples"
# how the converters end
DONE, REFUSED, COMMAND_LINE, OTHERWISE = range(4)
# set by convert/tests/compare: it is given each call once more
COMPARED = None


class Conversion(NamedTuple):
    """How a converter ended, and the directory that it was given for its feeds."""
    returncode: int
    stdout: str
    stderr: str
    folder: pathlib.Path

    @property
    def files(self):
        """The feed files, by name."""
        return files_of(self.folder)

    @property
    def feeds(self):
        """The text of each feed, by the file's name."""
        return {file.name: file.read_text() for file in self.files}

    @property
    def text(self):
        """The feeds as one text."""
        return text_of(self.files)

    @property
    def result(self):
        """What has to be the same of two conversions: status, notes and feeds, None without a directory."""
        return self.returncode, self.stderr, self.text if self.folder.exists() else None


def files_of(folder):
    """Returns the feed files of a directory, by name."""
    return sorted(folder.glob("*.feed"))


def text_of(files):
    """Returns the texts of feed files as one, each with its file's name."""
    return "".join(f"== {file.name}\n{file.read_text()}" for file in files)


def is_for_feeds(command):
    """Returns true if the converter makes feeds, and not the commands of another program."""
    return command.split()[0].endswith("-to-feeds")


def words_of(command, table=None):
    """Returns the words of a call. Its options name samples by their path below samples/."""
    converter, *options = command.split()
    return (table or commands.TESTED).words(converter, options)


def call(command, data, *more, table=None, **settings):
    """Calls a converter among the samples, with `more` words behind its options, and returns how it ended."""
    settings = {"cwd": SAMPLES, "env": commands.environment()} | settings
    return testing.call([*words_of(command, table), *more], input=data, **settings)


def heed_signals():
    """Undoes that whoever started the tests by `&` or nohup had them ignore signals, which a converter heeds then."""
    for number in (signal.SIGTERM, signal.SIGHUP, signal.SIGINT):
        signal.signal(number, signal.SIG_DFL)


def sample(name):
    """Returns the bytes of a sample."""
    return (SAMPLES / name).read_bytes()


def table_text(rows):
    """Returns the output of `yarib table --total` with these rows, as bytes."""
    return "".join(f"{row}\n" for row in [*rows, f"total {len(rows)}"]).encode()


def table_of(name):
    """Returns the table with the routes of a sample, which has a prefix and a next hop on each line."""
    return table_text([route_text(prefix, hop=hop) for prefix, hop in map(str.split, sample(name).decode().splitlines())])


def routes_after(text, name):
    """Returns the preference and the next hop of each prefix after the commands of a feed. Raises ValueError if a command
    adds a route that is there, or replaces one that isn't."""
    routes = {}
    for word, *fields in map(str.split, text.splitlines()[1:]):
        if word in ("add", "replace"):
            if (fields[0] in routes) != (word == "replace"):
                raise ValueError(f"{name} has a wrong {word} of {fields[0]}")
            routes[fields[0]] = int(fields[1]), fields[2]
        elif word == "withdraw":
            del routes[fields[0]]
        else:
            routes.clear()
    return routes


def rows_of(files):
    """Returns the rows of the table that these feeds leave, each run by itself, ordered by base, length, preference and
    feed."""
    rows = []
    for number, file in enumerate(files, 1):
        routes = routes_after(file.read_text(), file.name).items()
        rows += [(ipaddress.ip_network(prefix), preference, number, hop) for prefix, (preference, hop) in routes]
    rows.sort(key=lambda row: (row[0].network_address, row[0].prefixlen, row[1], row[2]))
    return [route_text(prefix, number, preference, hop) for prefix, preference, number, hop in rows]


def best_of(rows):
    """Returns the next hop of each prefix's first row."""
    best = {}
    for row in rows:
        best.setdefault(ipaddress.ip_network(row.split()[0]), row.split()[-1])
    return best


def longest(best, address):
    """Returns the next hop of the longest prefix that covers the address."""
    covering = [prefix for prefix in best if ipaddress.ip_address(address) in prefix]
    return best.get(max(covering, key=lambda prefix: prefix.prefixlen, default=None), "no route")


def answers_of(name):
    """Returns the daemon's answer to each address of a sample; of several next hops any one will do."""
    return dict(line.split(" ", 1) for line in sample(name).decode().splitlines())


class ConverterCase(testing.TestCase):
    """A test case that calls converters."""

    @functools.cached_property
    def folders(self):
        """The names of the directories of feeds, a new one for each call."""
        self.addCleanup(vars(self).pop, "folders", None)
        return (f"feeds-{number}" for number in range(1, 1 << 30))

    def convert(self, command, data, *more, folder=None, **settings):
        """Calls a converter with this input. Its feeds go into a new directory, or into the named one."""
        folder = self.folder / (folder or next(self.folders))
        words = [*more, folder] if is_for_feeds(command) else more
        before = COMPARED and COMPARED.before(folder)
        ended = Conversion(*call(command, data, *words, **settings), folder)
        if COMPARED:
            COMPARED.compare(self, ended, before, command, data, more, settings)
        return ended

    def convert_sample(self, command, name, *more, **settings):
        """Calls a converter with this sample."""
        return self.convert(command, sample(name), *more, **settings)

    def converted(self, command, data, *more, returncode=DONE, **settings):
        """Calls a converter that has to succeed, or to end with this status."""
        ended = self.convert(command, data, *more, **settings)
        self.assertEqual(ended.returncode, returncode, f"{command}: {ended.stderr}")
        return ended

    def assert_refused(self, ended, part, returncode=REFUSED):
        """Fails unless a converter ended with this status, without output, and with one line that has this part."""
        self.assertEqual((ended.returncode, ended.stdout, ended.stderr.count("\n")), (returncode, "", 1), ended.stderr)
        self.assertIn(part, ended.stderr)

    def assert_unchanged(self, command, data, part):
        """Fails unless a converter refuses the input in one line that has this part, and leaves the directory as it is,
        with nothing beside it."""
        folder = self.folder / "refused" / next(self.folders)
        folder.mkdir(parents=True)
        (folder / "before.feed").write_text("version 2\n")
        self.assert_refused(self.convert(command, data, folder=folder), part)
        left = sorted(str(path.relative_to(folder.parent)) for path in folder.parent.rglob("*") if folder.name in str(path))
        self.assertEqual(left, [folder.name, f"{folder.name}/before.feed"])

    def assert_kept(self, name, text):
        """Fails unless a sample has this text. With the variable YARIB_KEEP it is written instead."""
        if "YARIB_KEEP" in os.environ:
            (SAMPLES / name).write_text(text)
        self.assertEqual(text, sample(name).decode(), f"samples/{name} has another text")

    def assert_table(self, files, rows):
        """Fails unless the program prints these rows for the feeds."""
        ended = self.yarib("run", "--batch", "256", *files)
        self.assertEqual((ended.returncode, ended.stderr), (0, ""))
        printed = ended.stdout.splitlines()
        self.assertIn(f"table {len(rows)}", printed)
        self.assertEqual(printed[printed.index(f"table {len(rows)}") + 1 :], rows)

    def assert_answers(self, rows, name, known=None):
        """Fails unless each address of a sample is answered as the daemon answered it. A sample with the `known`
        differences has an address, our answer and the daemon's on each line."""
        best, asked = best_of(rows), answers_of(name)
        if not name.startswith("by-hand/"):
            self.assertGreaterEqual(len(asked), 100, f"samples/{name} has fewer addresses")
        found = {address: (longest(best, address), answer) for address, answer in asked.items()}
        differing = {address: pair for address, pair in found.items() if pair[0] != pair[1] and pair[0] not in pair[1].split()}
        self.count(len(found))
        self.assertEqual(differing, differences_of(known) if known else {}, f"(ours, the daemon's) of samples/{name}")


def differences_of(name):
    """Returns our answer and the daemon's for each address of a sample with known differences."""
    rows = [line.split("\t") for line in sample(name).decode().splitlines()]
    return {address: (ours, answer) for address, ours, answer in rows}


def many(form, number=5000):
    """Returns this number of texts of the form, each with another prefix."""
    return "".join(form.format(f"10.{i >> 16}.{i >> 8 & 255}.{i & 255}/32") for i in range(number))


def prefixes(number):
    """Returns this number of prefixes."""
    return [f"{10 + (i >> 16)}.{i >> 8 & 255}.{i & 255}.0/24" for i in range(number)]


def method_name(*parts):
    """Returns the name of a test method: the letters and digits of the parts."""
    text = " ".join(map(str, parts))
    return "test_" + "_".join("".join(sign if sign.isalnum() else " " for sign in text).split())


def add_tests(case, prefix, check, named):
    """Adds a test method to the class for each name: `check(self, *values)` of its values. Raises ValueError if two have
    the same name."""
    for name, values in named.items():
        method = method_name(prefix, name)
        if hasattr(case, method):
            raise ValueError(f"{case.__name__} has two tests {method}")

        def test(self, values=values):
            check(self, *values)
        test.__name__, test.__qualname__, test.__doc__ = method, f"{case.__qualname__}.{method}", check.__doc__
        setattr(case, method, test)


def add_refusals(case, converter, rows):
    """Adds a test method for each input that is refused: the options, the sample, and a part of the message."""
    def check(test, options, name, part):
        """The sample is refused in one line, and nothing is changed."""
        test.assert_unchanged(f"{converter} {options}", sample(name), part)
    add_tests(case, "sample", check, {f"{name} {options}": (options, name, part) for options, name, part in rows})

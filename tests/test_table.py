"""`yarib table`: parts, counts and totals of tables."""
import collections
import ipaddress
import json
import random
import re

from dev.models import calls
from dev.models.table_model import MAX_FEEDS
from tests.cases import ProgramCase, prefix_of

NEEDS = {"program"}

LIES_IN = ipaddress.IPv4Network.subnet_of
# The options that select prefixes, and whether a row's prefix meets the option's.
PARTS = {"--within": LIES_IN, "--covering": lambda prefix, given: LIES_IN(given, prefix),
         "--exact": lambda prefix, given: prefix == given}
ENDS = [ipaddress.IPv4Network(prefix) for prefix in ("0.0.0.0/0", "10.0.0.0/8", "255.0.0.0/8", "255.255.255.255/32")]
# Options that select rows.
SELECTIONS = ([], ["--within", "10.0.0.0/8"], ["--covering", "10.0.0.1/32"], ["--exact", "10.0.0.0/24"])
NO_PREFIXES = ("10.0.0", "10.0.0.0/33", "10.0.0.1/33", "10.0.0.0/08", "10.0.0.0/", "256.0.0.0/8", "256.0.0.0", "", "x")
# Prefixes with a bit past their length, and what is meant.
HOST_BITS = [("10.1.2.3/24", "10.1.2.0/24"), ("10.0.0.1/8", "10.0.0.0/8"), ("255.255.255.255/31", "255.255.255.254/31"),
             ("0.0.0.1/0", "0.0.0.0/0"), ("128.0.0.0/0", "0.0.0.0/0")]


class Lists(ProgramCase):
    def test_calls(self):
        self.assert_calls(calls.SHOWN_FILES, [call for call in calls.SHOWN if call.words[0] == "table"])


# Catches `--within` without the prefix itself, with a neighbouring or a shorter prefix or a neighbouring branch, or
# without the last block of all addresses: `--within`.
# Catches a filter by feed that is applied before `--best`: `--best --feed`.
class Parts(ProgramCase):
    """The rows of each part of random tables, with any batch: those of the whole list, in its order, whose prefix meets
    the option's words."""

    def assert_parts(self, count):
        choice = random.Random(f"parts of {count}")
        model, names = self.random_table(choice, "part", count)
        stored = [ipaddress.IPv4Network(prefix) for prefix in model.offered]
        given = choice.sample(stored, min(8, len(stored)))
        given += [prefix.supernet() for prefix in given if prefix.prefixlen > 0] + ENDS
        for more in ([], ["--best"], ["--feed", "2"], ["--best", "--feed", "2"]):
            rows = [row for row in model.listed("--best" in more) if "--feed" not in more or row.split()[2] == "2"]
            self.assert_prints(["table", *more, *names], "".join(row + "\n" for row in rows))
            networks = [ipaddress.IPv4Network(row.split()[0]) for row in rows]
            for option, meets in PARTS.items():
                with self.subTest(" ".join([option, *more])):
                    for prefix in given:
                        part = "".join(row + "\n" for row, network in zip(rows, networks) if meets(network, prefix))
                        for word in sorted({str(prefix), str(prefix).removesuffix("/32")}):
                            batch = choice.choice(("1", "256"))
                            ended = self.yarib("table", option, word, *more, "--batch", batch, *names)
                            self.assert_ended(ended, part, message=word)

    def test_invalid_prefixes(self):
        for option in PARTS:
            for word in NO_PREFIXES:
                self.assert_refused(["table", f"{option}={word}", "missing"], f"not a prefix: {word}")
            for word, meant in HOST_BITS:
                self.assert_refused(["table", f"{option}={word}", "missing"],
                                    f"not a prefix: {word}: host bits are set; did you mean {meant}?")

    def test_several_options(self):
        for option in PARTS:
            one = f"{option} 10.0.0.0/8"
            self.assert_misused(f"table {one} {one} row.feed", option)
            self.assert_misused(f"lookup {one} --address 10.0.0.1 row.feed", option)
            others = [f"{other} 10.0.0.0/8" for other in PARTS if other != option]
            for words in (*others, " ".join(others)):
                for both in (f"{one} {words}", f"{words} {one}"):
                    self.assert_refused(f"table {both} row.feed",
                                        "only one of --within, --covering and --exact may be given")


def counts_text(rows):
    """What `--count` prints for these rows of a table, whose feeds are given by number or by name."""
    words = [row.split() for row in rows]
    lines = [f"routes {len(words)} prefixes {len({word[0] for word in words})}"]
    of_feeds = collections.Counter(word[2] for word in words)
    lines += [f"feed {feed} routes {of_feeds[feed]}" for feed in sorted(of_feeds)]
    of_lengths = collections.Counter(int(word[0].split("/")[1]) for word in words)
    lines += [f"length {length} routes {of_lengths[length]}" for length in sorted(of_lengths)]
    return "".join(line + "\n" for line in lines)


def counted(line, names):
    """The object that `--count --json` prints for a line of `--count` of the files with these names."""
    words = line.split()
    members = {key: int(value) for key, value in zip(words[::2], words[1::2])}
    if "feed" in members:
        members = {"feed": members["feed"], "file": names[members["feed"] - 1], "routes": members["routes"]}
    return members


# Catches a count without some length or feed, or without the last of either, or with routes for prefixes.
class Counts(ProgramCase):
    """The number of routes in each part of random tables, compared with the rows that the same command prints without
    `--count`; and counts of all feeds and lengths."""

    def assert_counts(self, count):
        _, names = self.random_table(random.Random(f"counts of {count}"), "counted", count)
        for part in SELECTIONS:
            for more in ([], ["--best"], ["--feed", "2"], ["--best", "--feed", "1"]):
                for named in ([], ["--names"]):
                    words = [*part, *more, *named, *names]
                    rows = self.stdout("table", *words)
                    self.assert_prints(["table", "--count", *words], counts_text(rows.splitlines()))
                words = [*part, *more, *names]
                lines = self.stdout("table", "--count", *words)
                with self.subTest(" ".join(["--count", "--json", *part, *more])):
                    found = map(json.loads, self.stdout("table", "--count", "--json", *words).splitlines())
                    self.assertEqual(list(found), [counted(line, names) for line in lines.splitlines()])

    def test_max_feeds(self):
        prefixes = [prefix_of(10 << 24, length) for length in range(33)]
        wanted = counts_text([f"{prefix} feed {feed:03}" for feed in range(1, MAX_FEEDS + 1) for prefix in prefixes])
        self.write({"lengths.feed": "".join(f"add {prefix} 1 192.0.2.1\n" for prefix in prefixes)})
        self.assert_prints(["table", "--count", *["lengths.feed"] * MAX_FEEDS], re.sub("feed 0+", "feed ", wanted),
                           name="MAX_FEEDS feeds and 33 lengths")
        ended = self.yarib("table", "--count", "--json", "--names", "--best", "a folder/lengths.feed", "lengths.feed")
        self.assertEqual(ended.returncode, 3, "two files of one name")

    def test_options(self):
        self.assert_misused("lookup --count --address 10.0.0.1 row.feed", "--count")
        self.assert_misused("table --count --count row.feed", "--count")


# Catches a total that counts prefixes, or the routes of the whole table: `Totals.test_300_routes`.
# Catches a table without the line if no route is selected: `Totals.test_0_routes`.
class Totals(ProgramCase):
    """Random tables and parts of them with `--total`: what the same command prints without it, and then the number of
    these lines."""

    def assert_totals(self, count):
        _, names = self.random_table(random.Random(f"totals of {count}"), "totalled", count)
        for part in SELECTIONS:
            for more in ([], ["--best"], ["--feed", "2"], ["--best", "--without", "1"], ["--names"], ["--json"]):
                rows = self.stdout("table", *part, *more, *names)
                number = len(rows.splitlines())
                last = f'{{"total":{number}}}\n' if "--json" in more else f"total {number}\n"
                self.assert_prints(["table", "--total", *part, *more, *names], rows + last)

    def test_options(self):
        for both in ("--count --total", "--total --json --count"):
            self.assert_refused(f"table {both} missing.feed", "only one of --count and --total may be given")
        self.assert_misused("lookup --total --address 10.0.0.1 row.feed", "--total")
        self.assert_misused("table --total --total row.feed", "--total")


for count in (0, 1, 12, 300):
    setattr(Parts, f"test_{count}_routes", lambda self, count=count: self.assert_parts(count))
    setattr(Counts, f"test_{count}_routes", lambda self, count=count: self.assert_counts(count))
    setattr(Totals, f"test_{count}_routes", lambda self, count=count: self.assert_totals(count))

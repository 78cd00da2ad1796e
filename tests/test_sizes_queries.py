"""Look-ups, lists and some runs of sizes at which a needless refusal would show: the whole output of each is compared
with a plain model.

They have up to 1,300,000 routes, of one feed or of several, up to 2,500,000 addresses, and just fewer and just more
of both than a forwarding table needs to answer. No option is given here; tests/test_sizes_options.py gives most."""
import os
import subprocess

from dev.models.table_model import dotted, row
from dev.testing import environment, launched, program
from tests.launching import LaunchedCase, apart, single_routes
from tests.texts import FORWARDED, many_routes

NEEDS, PROVED = {"program"}, True
MOST = 1_000_000
ANSWER = "10.0.0.1 route " + row("10.0.0.0/8")


def counts_text(*sizes):
    """Returns what `table --count` prints of feeds with these numbers of single addresses, all different."""
    count = sum(sizes)
    feeds = "".join(f"feed {feed} routes {size}\n" for feed, size in enumerate(sizes, 1))
    return f"routes {count} prefixes {count}\n{feeds}length 32 routes {count}\n"


class ThreeFeeds(LaunchedCase):
    """300,000 routes, the same prefixes of three feeds, and 100,000 addresses."""
    WORDS = ["--limit", "100000", "1.feed", "2.feed", "3.feed"]

    def setUp(self):
        self.bases = [dotted(0x0100_0000 + (at * 40_503 % 100_000 << 8)) for at in range(100_000)]
        self.sorted_bases = [dotted(0x0100_0000 + (at << 8)) for at in range(100_000)]
        self.write({f"{feed}.feed": "".join(f"add {base}/24 {9 - feed} 192.0.2.{feed}\n" for base in self.bases)
                    for feed in range(1, 4)})
        self.write({"addresses.txt": "".join(f"{base}\n" for base in self.bases)})

    @staticmethod
    def row(base, feed):
        return row(f"{base}/24", feed, 9 - feed, f"192.0.2.{feed}")

    # Catches F3 above 200,000 routes, a refusal of a limit over 65,536, or a journal of 200,000 entries or more that
    # never grows: `300,000 routes of three feeds`.
    def test_a_run(self):
        report = "".join(f"{feed}:{line} added\n" for feed in range(1, 4) for line in range(1, 100_001))
        rows = "".join(self.row(base, feed) for base in self.sorted_bases for feed in (3, 2, 1))
        self.assert_prints_twice("300,000 routes of three feeds", ["run", "--batch", "256", *self.WORDS],
                                 report + "table 300000\n" + rows)

    # Catches F3 of `table` above 65,536 routes: `the table of 300,000 routes`.
    def test_tables(self):
        self.assert_prints("the table of 300,000 routes", ["table", *self.WORDS],
                           "".join(self.row(base, feed) for base in self.sorted_bases for feed in (3, 2, 1)))
        self.assert_prints("the best of 300,000 routes", ["table", "--best", *self.WORDS],
                           "".join(self.row(base, 3) for base in self.sorted_bases))

    # Catches F3 of `lookup` above 65,536 routes: `100,000 addresses`.
    def test_look_ups(self):
        lines = [f"{base} route {self.row(base, 3)}" for base in self.bases]
        self.assert_prints("100,000 addresses", ["lookup", "--addresses", "addresses.txt", *self.WORDS], "".join(lines))
        also = ["".join(f"{base} also {self.row(base, feed).strip()} preference\n" for feed in (2, 1))
                for base in self.bases]
        self.assert_prints("all that covers 100,000 addresses",
                           ["lookup", "--all", "--addresses", "addresses.txt", *self.WORDS],
                           "".join(line + more for line, more in zip(lines, also)))


# Catches a default limit of 65,536 or 999,999 for a feed of `lookup`, `table` or `diff`: each test of this class.
class GreatestLimit(LaunchedCase):
    """A million routes of a feed, as many as `lookup`, `table` and `diff` accept without --limit, and one more, which
    each of them reports."""
    OVER = f"yarib: over.feed: adds over the limit: 1, the first is line {MOST + 1}\n"

    def setUp(self):
        self.places = apart(MOST + 1, 64)
        self.write({"none.feed": "", "full.feed": single_routes(self.places[:MOST]),
                    "over.feed": single_routes(self.places)})

    def test_tables(self):
        listed = "".join(row(f"{place}/32") for place in self.places[:MOST])
        self.assert_prints("of 1000000 routes", ["table", "full.feed"], listed)
        self.assert_prints("of 1000001 routes", ["table", "over.feed"], listed, self.OVER, 2)

    def test_a_look_up(self):
        last, over = self.places[MOST - 1 :]
        self.assert_prints("in 1000001 routes", ["lookup", "--address", last, "--address", over, "over.feed"],
                           f"{last} route {row(last + '/32')}{over} no route\n", self.OVER, 2)

    def test_a_comparison(self):
        ranges = "".join(f"{place}-{place} no route -> via 192.0.2.1\n" for place in self.places[:MOST])
        self.assert_prints("1000001 routes compared with none", ["diff", "none.feed", "--", "over.feed"], ranges,
                           self.OVER, 2)


class Addresses(LaunchedCase):
    # Catches F3 for more than 100,000 or 1,000,000 addresses: `100001 addresses`, `1000001 addresses`.
    def test_many_addresses(self):
        self.write({"row.feed": "add 10.0.0.0/8 1 192.0.2.1\n"})
        for count in (100_001, MOST + 1):
            self.write({"addresses.txt": "10.0.0.1\n" * count})
            for options in ([], ["--all"]):
                self.assert_prints(" ".join([f"{count} addresses", *options]),
                                   ["lookup", *options, "--addresses", "addresses.txt", "row.feed"], ANSWER * count)

    # Catches F3 for a number of addresses that a forwarding table answers.
    def test_forwarding_tables(self):
        """Look-ups with the minimum numbers of addresses and routes for a forwarding table, with one less and one more,
        and with far more."""
        addresses, routes, a_route = FORWARDED
        cases = [(addresses - 1, routes), (addresses, routes), (addresses + 1, routes), (addresses, routes - 1)]
        cases += [(2_500_000, routes), (addresses, 65_001)]
        cases += [(addresses, addresses // a_route + more) for more in (-1, 0, 1)]
        for count, size in cases:
            text, asked, answers = many_routes(size)
            times, rest = divmod(count, len(asked))
            self.write({"many.feed": text, "many.txt": "".join(asked) * times + "".join(asked[:rest])})
            self.assert_prints(f"{count} addresses in {size} routes",
                               ["lookup", "--limit", MOST, "--addresses", "many.txt", "many.feed"],
                               "".join(answers) * times + "".join(answers[:rest]))


class RoutesInAll(LaunchedCase):
    """More routes than one feed may have: a few more in every command, and far more if little is printed."""

    def setUp(self):
        self.prefixes = [f"10.{at >> 8}.{at & 255}.0/24" for at in range(65_536)]
        self.left = MOST + 1 - 15 * 65_536  # what the sixteenth feed has
        adds = [f"add {prefix} 1 192.0.2.1\n" for prefix in self.prefixes]
        self.write({"whole.feed": "".join(adds), "rest.feed": "".join(adds[: self.left])})
        self.names = ["whole.feed"] * 15 + ["rest.feed"]

    # Catches F3 for more than 1,000,000 routes in all: `the table of 1000001 routes in all`.
    def test_tables(self):
        rests = [row("", feed) for feed in range(1, 17)]
        listed = "".join(prefix + rest for at, prefix in enumerate(self.prefixes)
                         for rest in rests[: 16 if at < self.left else 15])
        self.assert_prints("the table of 1000001 routes in all", ["table", *self.names], listed)
        report = "".join(f"{feed}:{line} added\n" for feed in range(1, 17)
                         for line in range(1, 65_537 if feed < 16 else self.left + 1))
        self.assert_prints_twice("a run of 1000001 routes in all", ["run", "--batch", "256", *self.names],
                                 report + "table 1000001\n" + listed)
        best = "".join(row(prefix, 1) for prefix in self.prefixes)
        for count, names in ((16, self.names), (64, ["whole.feed"] * 64)):
            self.assert_prints(f"the best routes of {count} feeds", ["table", "--best", *names], best)

    def test_a_look_up_and_a_comparison(self):
        self.assert_prints("a look-up in 16 feeds", ["lookup", "--address", "10.255.255.1", *self.names],
                           "10.255.255.1 route " + row(self.prefixes[-1], 1))
        self.assert_prints("16 feeds compared with 16", ["diff", *self.names, "--", *self.names], "")

    # Catches a table that refuses a new prefix beyond 2,000,000 nodes.
    def test_different_prefixes(self):
        """Single addresses of two feeds, none of them twice: more prefixes than one feed may have routes."""
        sizes = (MOST, 300_000)
        places = apart(sum(sizes), 1)
        self.write({"1.feed": single_routes(places[:MOST]), "2.feed": single_routes(places[MOST:])})
        self.assert_prints("1300000 different prefixes", ["table", "--count", "1.feed", "2.feed"], counts_text(*sizes))
        self.assert_prints("a look-up of the last", ["lookup", "--address", places[-1], "1.feed", "2.feed"],
                           f"{places[-1]} route {row(f'{places[-1]}/32', 2)}")


class PartOfAMillion(LaunchedCase):
    # Catches a filter that copies the whole table: `--within a /16 needs no copy`.
    def test_memory(self):
        """The routes of a million that are in a /16, and their number: after loading, only the rows allocate memory."""
        places = apart(MOST, 64)
        self.write({"million.feed": single_routes(places)})
        rows = "".join(row(f"{place}/32") for place in places[1024:2048])
        calls = {"a look-up": (["lookup", "--address", "10.255.0.0"], "10.255.0.0 route " + row("10.255.0.0/32")),
                 "--within a /16": (["table", "--within", "10.1.0.0/16"], rows),
                 "--count within a /16": (["table", "--count", "--within", "10.1.0.0/16"], counts_text(1024)),
                 "--count of all": (["table", "--count"], counts_text(MOST))}
        peaks = {name: self.peak_of(name, [*words, "--limit", str(MOST), "million.feed"], stdout)
                 for name, (words, stdout) in calls.items()}
        # A copy of the whole table is 24 MB and more.
        for name in ("--within a /16", "--count within a /16"):
            with self.subTest(f"{name} needs no copy"):
                self.assertLess(peaks[name] - peaks["a look-up"], 4_000_000)

    def peak_of(self, name, words, stdout):
        """Compares the output of a call, and returns its peak of memory in bytes."""
        with self.subTest(name), open(self.folder / "stdout", "w+") as output:
            process = subprocess.Popen([program(), *words], stdout=output, cwd=self.folder,
                                       env=environment() | launched(words[0]))
            _, status, used = os.wait4(process.pid, 0)
            process.returncode = os.waitstatus_to_exitcode(status)
            output.seek(0)
            self.assertEqual((process.returncode, output.read()), (0, stdout))
            return used.ru_maxrss * 1024

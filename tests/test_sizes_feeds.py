"""Each number of feeds from 1 to MAX_FEEDS, all routes that can cover an address, and names of files up to the longest:
the whole output of each call is compared with a plain model."""
import contextlib
import ipaddress
import os
import pathlib

from dev.models.table_model import MAX_FEEDS, dotted, json_text, members, ran, row, run_text, told_text
from tests.launching import LaunchedCase

NEEDS, PROVED = {"program"}, True
# What each fourth feed has as its last line: each is rejected for another reason, with a limit of 3 routes.
REJECTED = ("frob", "add 10.0.0.0/8 1 192.0.2.1", "withdraw 9.0.0.0/8", "add 99.0.0.0/8 1 192.0.2.1")
LIMIT = 3


def text_of(feed):
    """Returns the text of a feed with a route to the same prefix as all others, one to the last address, and other
    routes."""
    return f"""version 2
add 10.0.0.0/8 {(MAX_FEEDS + 1 - feed) // 2} 192.0.2.{feed}
add 255.255.255.255/32 4294967295 discard
add {feed + 10}.0.0.0/8 {feed} 192.0.2.1
lookup {feed + 10}.1.2.3
replace 255.255.255.255/32 4294967294 192.0.2.{feed}
withdraw {feed + 10}.0.0.0/8
add {feed + 10}.128.0.0/9 0 discard
"""


def lines_of(rows):
    return "".join(line + "\n" for line in rows)


# Catches F3 for 40 texts, or a refusal of the ninth or the last route to a prefix: `test_40_feeds`, `test_09_feeds`,
# `test_most_feeds`.
# Catches a refusal of an `add` of preference 2^32 - 1 or of 255.255.255.255/32: `test_01_feeds`, `1:3 refused`.
# Catches F3 for `--exact` of a prefix that more than 8 feeds have: `test_09_feeds`, `--exact 10.0.0.0/8`.
class Feeds(LaunchedCase):
    def assert_all_commands(self, count):
        """Calls each command on this number of feeds."""
        texts = [text_of(feed) for feed in range(1, count + 1)]
        names = [f"{feed}.feed" for feed in range(1, count + 1)]
        self.write(dict(zip(names, texts)))
        for batch in ("1", "3", "1024") if count in (1, 2, 5, 9, 17, 40, MAX_FEEDS) else ("2",):
            self.assert_prints_twice(f"run in batches of {batch}", ["run", "--batch", batch, *names],
                                     run_text(texts, set()))
        self.assert_queries([text + REJECTED[feed % 4] + "\n" for feed, text in enumerate(texts)], names)

    def assert_queries(self, texts, names):
        """Compares what `lookup`, `table` and `diff` print and report."""
        self.write(dict(zip(names, texts)))
        report = told_text(texts, names, LIMIT)
        feeds = range(1, MAX_FEEDS + 1) if len(names) == MAX_FEEDS else (1, len(names))
        addresses = [addr for feed in feeds for addr in (f"{feed + 10}.129.0.1", f"{feed + 10}.1.2.3")]
        addresses += ["10.9.8.7", "255.255.255.255", "9.9.9.9"]
        words = [word for addr in addresses for word in ("--address", addr)]
        _, table = ran(texts, set(), LIMIT)
        listed = table.listed()
        exact = {prefix: lines_of(line for line in listed if line.startswith(prefix + " "))
                 for prefix in ("10.0.0.0/8", "255.255.255.255/32")}
        for name, call, stdout in (
            ("lookup", ["lookup", *words], lines_of(f"{addr} {table.best(addr)}" for addr in addresses)),
            ("lookup --all", ["lookup", "--all", *words], "".join(line for at in addresses for line in table.all(at))),
            ("table", ["table"], lines_of(listed)),
            *((f"--exact {prefix}", ["table", "--exact", prefix], rows) for prefix, rows in exact.items()),
        ):
            self.assert_prints(name, [call[0], "--limit", LIMIT, *call[1:], *names], stdout, report, 2)
        self.assert_prints("diff with themselves", ["diff", "--limit", LIMIT, *names, "--", *names], "",
                           report + report, 2)

    # Catches a refusal of a `dump` of the last feed if the journal has no room: its line 1.
    def test_only_the_last_feed_has_commands(self):
        feed = MAX_FEEDS
        text = text_of(feed).replace("version 2\n", "").replace("discard", "192.0.2.9")
        self.write({"empty.feed": "", "last.feed": f"dump\n{text}dump\n"})
        answers = ["dumped 0", "added", "added", "added", "route " + row(f"{feed + 10}.0.0.0/8", feed, feed).strip(),
                   "replaced", "withdrawn", "added", "dumped 3"]
        report = "".join(f"{feed}:{line} {answer}\n" for line, answer in enumerate(answers, 1))
        routes = [("10.0.0.0/8", feed, 0, f"192.0.2.{feed}"), (f"{feed + 10}.128.0.0/9", feed, 0, "192.0.2.9"),
                  ("255.255.255.255/32", feed, 4294967294, f"192.0.2.{feed}")]
        self.assert_prints_twice("the last feed alone", ["run", *["empty.feed"] * (MAX_FEEDS - 1), "last.feed"],
                                 report + "table 3\n" + "".join(row(*route) for route in routes))


for number in range(1, MAX_FEEDS + 1):
    method = "test_most_feeds" if number == MAX_FEEDS else f"test_{number:02}_feeds"
    setattr(Feeds, method, lambda self, number=number: self.assert_all_commands(number))


# Catches F3 if over 128 routes, or over 2,000, cover an address: `test_all_routes`.
class Covering(LaunchedCase):
    """Prefixes of an address from each feed, `feeds[length]` of each length."""
    BASE = 0b1010_1010_1010_1010_1010_1010_1010_1010

    def prefix(self, length):
        return f"{dotted(self.BASE >> 32 - length << 32 - length)}/{length}"

    def assert_covered(self, feeds, step):
        # Each address leaves the others' path after another bit.
        addresses = [dotted(self.BASE ^ (1 << 31 - length if length < 32 else 0)) for length in range(33)]
        texts = ["".join(f"add {self.prefix(length)} {feed} 192.0.2.{feed}\n" for length, count in enumerate(feeds)
                         if feed <= count) for feed in range(1, MAX_FEEDS + 1)]
        names = [f"{feed}.feed" for feed in range(1, MAX_FEEDS + 1)]
        self.write(dict(zip(names, texts)))
        _, table = ran(texts, set())
        self.assert_prints("lookup --all", ["lookup", "--all", *[f"--address={addr}" for addr in addresses], *names],
                           "".join(line for addr in addresses for line in table.all(addr)))
        listed = table.listed()
        networks = [ipaddress.IPv4Network(line.split()[0]) for line in listed]
        for addr in addresses[::step]:
            rows = [line for line, network in zip(listed, networks) if ipaddress.IPv4Address(addr) in network]
            self.assert_prints(f"{len(rows)} routes by --covering", ["table", "--covering", f"{addr}/32", *names],
                               lines_of(rows))

    def test_numbers_about_powers_of_two(self):
        """In all 64, 127, 128, 129, 193, 255, 256 and 257 routes, and then MAX_FEEDS more at each length."""
        self.assert_covered([64, 63, 1, 1, 64, 62, 1, 1] + [MAX_FEEDS] * 25, 8)

    def test_all_routes(self):
        """The maximum number of routes that can cover an address."""
        self.assert_covered([MAX_FEEDS] * 33, 1)


class Names(LaunchedCase):
    """Feeds by name and as JSON."""

    # Catches F3 for --names of over 40 files: `--names of 41 files`.
    def test_numbers_of_files(self):
        files = [f"file{feed}.feed" for feed in range(1, MAX_FEEDS + 1)]
        self.write({file: f"add 10.0.0.0/8 {feed} 192.0.2.1\n" for feed, file in enumerate(files, 1)})
        named = [row("10.0.0.0/8", f"file{feed}", feed) for feed in range(1, MAX_FEEDS + 1)]
        objects = [json_text(members(("10.0.0.0/8", feed, feed, "192.0.2.1"), name=f"file{feed}", file=file)) + "\n"
                   for feed, file in enumerate(files, 1)]
        for count in range(1, MAX_FEEDS + 1):
            some = files[:count]
            for name, words, stdout in (
                ("--names", ["table", "--names", *some], "".join(named[:count])),
                ("--names --json", ["table", "--names", "--json", *some], "".join(objects[:count])),
                ("diff --names", ["diff", "--by", "route", "--names", *some, "--", *reversed(some)], ""),
                ("lookup --names", ["lookup", "--names", "--address", "10.0.0.1", *some], "10.0.0.1 route " + named[0]),
            ):
                self.assert_prints(f"{name} of {count} files", words, stdout)

    # Catches F3 for a name of over 200 bytes: `a name of 201 bytes`.
    def test_long_names(self):
        self.write({"other.feed": "add 10.0.0.0/8 1 192.0.2.1\n"})
        for size in (1, 63, 64, 65, 199, 200, 201, 249, 250):
            for depth in (0, 1, 3):
                path = ("d" * 250 + "/") * depth + "n" * size + ".feed"
                self.write({path: "add 10.0.0.0/8 1 192.0.2.1\n"})
                self.assert_prints(f"a name of {size} bytes, in {depth} directories",
                                   ["table", "--names", "--feed", "1", path, "other.feed"],
                                   row("10.0.0.0/8", "n" * size))

    # Catches an output that accepts no text of over 4,096 bytes: `--json with a path of 4085 bytes`.
    def test_longest_paths(self):
        """Up to PATH_MAX with its end, plain and with characters that JSON writes as six."""
        for letter, kind in (("d", "plain"), ("\u0001", "escaped")):
            folder = (letter * 250 + "/") * 16
            for size in (4_080, 4_085, 4_086, 4_095):
                path = folder + letter * (size - len(folder) - 5) + ".feed"
                with contextlib.chdir(self.folder):  # the whole path would be too long for the system
                    os.makedirs(folder, exist_ok=True)
                    pathlib.Path(path).write_text("add 10.0.0.0/8 1 192.0.2.1\n")
                stdout = json_text(members(("10.0.0.0/8", 1, 1, "192.0.2.1"), file=path)) + "\n"
                self.assert_prints(f"--json with a path of {size} bytes, {kind}", ["table", "--json", path], stdout)

"""Counts the program's memory requests and writes, where the pages say that a call doesn't allocate, and where work
could be done twice, or on one thread, without a word in the output.

A list that grows doubles its capacity. So twice the number of commands of a kind that doesn't allocate may cost only a
few more requests; another one for each command would be noticed. The launchers' settings change no request, only the
place of the memory; so everything is run once."""
import os
import struct
import tempfile
import unittest
from typing import NamedTuple

from dev.models.table_model import dotted, row
from dev.testing import TestCase, environment, needs_command

NEEDS, PROVED = {"program"}, True
# The number of further requests that a text of twice the length may make: for its bytes, the reports, the batch and the
# journal.
DOUBLING = 6
# As in tests/count.c.
WRITES, THREADS = 1000, 256
COUNTS = struct.Struct(f"6Q{THREADS}Q{WRITES}Q")
# The output buffer has 65,536 bytes, and is written before a line that doesn't fit.
LEAST_WRITTEN = 65_000
BATCHES = ("1", "64", "1024")
# The rows that a thread renders at once (PIECE_ITEMS of rt_run/src/rendering.rt).
PIECE = 16_384
# A forwarding table has an entry of four bytes for each 256 addresses, and for each address of a block with longer
# prefixes.
FORWARDING_TABLE = 1 << 26


def prefix(at):
    return f"{dotted(0x0A00_0000 + (at << 8))}/24"


ADDS = "".join(f"add {prefix(at)} 1 192.0.2.1\n" for at in range(10_000))
OWN = "version 2\nadd 10.0.0.0/8 1 192.0.2.1\n"
# Lines that don't allocate, of each kind separately. The feed may have a single route, and has it.
KINDS = {
    "lookup": "lookup 10.1.2.3\n",
    "lookup of none": "lookup 11.1.2.3\n",
    "dump": "dump\n",
    "replace": "replace 10.0.0.0/8 2 discard\n",
    "replace of none": "replace 11.0.0.0/8 2 discard\n",
    "withdraw of none": "withdraw 11.0.0.0/8\n",
    "add of its own": "add 10.0.0.0/8 3 192.0.2.1\n",
    "add beyond the limit": "add 11.0.0.0/8 3 192.0.2.1\n",
    "purge": "purge\n",
    "skipped": "# note\n",
}


def use_processors(count):
    """Restricts this process to so many of its processors."""
    os.sched_setaffinity(0, sorted(os.sched_getaffinity(0))[:count])


class Counts(NamedTuple):
    """What a call requested: how often, the blocks and bytes held at the end, the largest request, and the number of
    each thread; and the requests before each write to standard output."""
    requests: int
    held: tuple
    largest: int
    by_thread: list
    at_writes: list


class CountedCase(TestCase):
    # Catches an output buffer that writes each line at once, or 256 bytes at a time: `writes`.
    def counted(self, *words, returncode=0, stdout=None, **settings):
        """Returns the counts of a call, and compares how it ends. Its writes to standard output are few and large."""
        with tempfile.TemporaryFile() as kept:
            kept.truncate(COUNTS.size)
            variables = self.preloaded("tests/count.c") | {"COUNT_IN": str(kept.fileno())}
            ended = self.yarib(*words, env=environment() | variables, pass_fds=[kept.fileno()], **settings)
            kept.seek(0)
            requests, blocks, size, writes, largest, threads, *rest = COUNTS.unpack(kept.read())
        self.assert_ended(ended, stdout, "", returncode)
        self.assertGreater(requests, 0)
        self.assertLessEqual(writes, len(ended.stdout) // LEAST_WRITTEN + 2, "writes")
        return Counts(requests, (blocks, size), largest, rest[:threads], rest[THREADS : THREADS + writes])

    def counted_quiet(self, *words):
        """The same of a call that makes no request while it writes."""
        counts = self.counted(*words)
        self.assertEqual(len(set(counts.at_writes)), 1, "requests while it writes")
        return counts

    def counted_run(self, text, batch, *words):
        self.write({"text.feed": text})
        return self.counted_quiet("run", "--batch", batch, *words, "text.feed")


@needs_command("gcc")
class Runs(CountedCase):
    # Catches a `run_feed` that makes a list for each line: `lookup, in batches of 1`.
    def test_commands_that_do_not_allocate(self):
        """Twice the number of lines that don't allocate cost no request each."""
        for name, line in KINDS.items():
            for batch in BATCHES:
                with self.subTest(f"{name}, in batches of {batch}"):
                    few, many = (self.counted_run(OWN + line * lines, batch, "--limit", "1").requests
                                 for lines in (20_000, 40_000))
                    self.assertLessEqual(many - few, DOUBLING)

    def test_routes(self):
        """A route costs two boxes at most, and all is given back."""
        withdraws = "".join(f"withdraw {prefix(at * 7919 % 10_000)}\n" for at in range(10_000))
        for batch in BATCHES:
            idle = self.counted_run("version 2\n" + "dump\n" * 20_000, batch)
            for name, last in (("withdrawn", withdraws), ("purged", "purge\n" * 10_000)):
                with self.subTest(f"{name}, in batches of {batch}"):
                    counts = self.counted_run("version 2\n" + ADDS + last, batch)
                    self.assertEqual(counts.held, idle.held)
                    self.assertLessEqual(counts.requests - idle.requests, 20_000 + DOUBLING)

    def test_a_route_that_comes_and_goes(self):
        """It costs a box."""
        lines = "add 10.0.0.0/8 1 192.0.2.1\nwithdraw 10.0.0.0/8\n"
        few, many = (self.counted_run(lines * times, "64").requests for times in (10_000, 20_000))
        self.assertIn(many - few - 10_000, range(DOUBLING + 1))


@needs_command("gcc")
class Queries(CountedCase):
    """Twice the number of answers and rows cost no request each, except one for `--all`, nor any for writing them."""

    def setUp(self):
        self.write({"none.feed": "", "text.feed": ADDS})

    def more_requests(self, *words):
        """Returns how many more requests the double number of addresses costs."""
        requests = []
        for count in (20_000, 40_000):
            self.write({"addresses.txt": "".join(f"10.0.{at & 255}.1\n" for at in range(count))})
            requests.append(self.counted_quiet("lookup", *words, "--addresses", "addresses.txt", "text.feed").requests)
        return requests[1] - requests[0]

    def beside(self, words, others):
        """Returns how many more requests the routes cost in a call with these words than in another one."""
        more = [self.counted(*words, file).requests - self.counted(*others, file).requests
                for file in ("none.feed", "text.feed")]
        return more[1] - more[0]

    def test_answers(self):
        self.assertLessEqual(self.more_requests(), DOUBLING)

    def test_all_that_covers(self):
        """The routes that cover an address are in a separate list."""
        self.assertIn(self.more_requests("--all") - 20_000, range(DOUBLING + 1))

    def test_a_table(self):
        self.counted_quiet("table", "text.feed")
        self.assertLessEqual(self.beside(["table"], ["run", "--batch", "256"]), DOUBLING)

    # Catches a `keep_best` that allocates.
    def test_best_routes(self):
        self.assertEqual(self.beside(["table", "--best"], ["table"]), 0)

    # Catches a program that frees the final table node by node, which takes a tenth of a run.
    def test_routes_are_left(self):
        """The routes of a table are still held at the end: the system takes their pages back at once."""
        for words, tables in ((["run"], 1), (["table"], 1), (["lookup", "--address", "10.0.0.1"], 1), (["diff"], 2)):
            with self.subTest(words[0]):
                none, routes = (self.counted(*words, *([file] if tables == 1 else [file, "--", file])).held[0]
                                for file in ("none.feed", "text.feed"))
                self.assertGreaterEqual(routes - none, tables * 10_000)


@needs_command("gcc")
class Work(CountedCase):
    """Bodies that do work twice, or on one thread, are proved, since the output is the same."""

    # Catches a forwarding table for each look-up, also of one address.
    def test_few_addresses_need_no_forwarding_table(self):
        """It would be the largest request by far."""
        self.write({"routes.feed": "".join(f"add {prefix(at)} 1 192.0.2.1\n" for at in range(20_000))})
        for count in (1, 1_000):
            with self.subTest(f"{count} addresses"):
                self.write({"addresses.txt": "".join(f"{dotted(0x0A00_0001 + (at << 8))}\n" for at in range(count))})
                counts = self.counted("lookup", "--addresses", "addresses.txt", "routes.feed")
                self.assertLess(counts.largest, FORWARDING_TABLE // 8)

    # Catches a forwarding table that is refused for over 700,000 routes, or for more than a feed may have: the answers
    # are the same.
    def test_many_addresses_have_a_forwarding_table(self):
        """Look-ups of three addresses for each of 1,050,000 routes, and of too few for a forwarding table. Both feeds
        are in one table, since the program has one processor."""
        places = [0x0A00_0000 + 64 * at for at in range(1_050_000)]
        adds = [f"add {dotted(place)}/28 1 192.0.2.{place >> 6 & 7}\n" for place in places]
        self.write({"1.feed": "".join(adds[:1_000_000]), "2.feed": "".join(adds[1_000_000:])})
        for name, count in (("enough addresses", len(places)), ("too few addresses", 150_000)):
            self.write({"addresses.txt": "".join(f"{dotted(place)}\n{dotted(place + 15)}\n{dotted(place + 16)}\n"
                                                 for place in places[:count])})
            rows = (row(f"{dotted(place)}/28", 1 + at // 1_000_000, 1, f"192.0.2.{place >> 6 & 7}")
                    for at, place in enumerate(places[:count]))
            stdout = "".join(f"{dotted(at)} route {line}{dotted(at + 15)} route {line}{dotted(at + 16)} no route\n"
                             for at, line in zip(places, rows))
            with self.subTest(name):
                counts = self.counted("lookup", "--addresses", "addresses.txt", "1.feed", "2.feed", stdout=stdout,
                                      preexec_fn=lambda: use_processors(1))
                # The routes are in a quarter as many blocks of 256 addresses, each of which needs entries of its own.
                self.assertEqual(counts.largest > len(places) // 4 * 256 * 4, count == len(places), counts.largest)

    # Catches rows that are rendered again while they are written: `lookup`, `table`, `diff`.
    @unittest.skipIf(len(os.sched_getaffinity(0)) < 2, "one processor renders nothing beforehand")
    def test_rendered_texts_are_written(self):
        """The text of each piece of a long list is longer than the output buffer, so it is a write of its own: with two
        processors there are few writes, and with one as many as the buffer needs."""
        places = [dotted(0x0A00_0000 + (at << 9)) for at in range(6 * PIECE)]
        # A query has a thread for each feed, if the feeds are several times as long as the file of addresses.
        comments = f"# {'-' * 100}\n" * 60_000
        self.write({"none.feed": "", "other.feed": comments, "addresses.txt": "\n".join([*places, ""]),
                    "long.feed": comments + "".join(f"add {place}/24 1 192.0.2.1\n" for place in places)})
        feeds = ["long.feed", "other.feed"]
        for words, returncode in ((["lookup", "--addresses", "addresses.txt", *feeds], 0), (["table", *feeds], 0),
                                  (["lookup", "--all", "--addresses", "addresses.txt", *feeds], 0),
                                  (["diff", "none.feed", "--", *feeds], 1)):
            with self.subTest(" ".join(words)):
                two, one = (len(self.counted(words[0], "--limit", "200000", *words[1:], returncode=returncode,
                                             preexec_fn=lambda: use_processors(count)).at_writes) for count in (2, 1))
                self.assertLess(two, one / 2)

    # Catches a program that deals all texts to one thread.
    @unittest.skipIf(len(os.sched_getaffinity(0)) < 2, "one processor has one thread")
    def test_feeds_are_dealt_to_all_threads(self):
        """Each `add` requests memory on the thread that executes it: of eight feeds, no thread executes three
        quarters."""
        names = [f"{feed}.feed" for feed in range(8)]
        for feed, name in enumerate(names):
            self.write({name: "".join(f"add {dotted(feed << 28 | at << 8)}/24 1 192.0.2.1\n" for at in range(4_000))})
        for words in (["table", "--count", *names], ["lookup", "--address", "10.0.0.1", *names]):
            with self.subTest(" ".join(words[:2])):
                counts = self.counted(*words, preexec_fn=lambda: use_processors(2))
                self.assertGreater(sum(counts.by_thread), 32_000)
                self.assertLess(max(counts.by_thread), sum(counts.by_thread) * 3 / 4)

"""Runs and replays of sizes at which a needless refusal would show: the whole output of each is compared with a plain
model.

No clause can say that an allocation succeeds if there is memory. So these are about a million lines and routes of one
feed and millions of several, batches about the sizes at which lists grow, purges, and long replays."""
import hashlib

from dev.models.table_model import dotted, row, run_text
from tests.launching import LaunchedCase

NEEDS, PROVED = {"program"}, True
MOST = 1_000_000
# The prefixes of a full feed of `run`.
WHOLE = [f"10.{at >> 8}.{at & 255}.0/24" for at in range(65_536)]
WHOLE_FEED = "".join(f"add {prefix} 1 192.0.2.1\n" for prefix in WHOLE)
ABOUT_POWERS = [power + more for power in (16, 32, 64, 128, 256, 512) for more in (-1, 0, 1)]


def commands(count):
    """Returns a text with this number of lines: nested routes, with both kinds of next hop, and commands that query
    them."""
    lines = ["version 2"]
    for at in range(count):
        base = dotted(0x0A00_0000 + (at * 40_503 % 65_536 << 8))
        lines.append((f"add {base}/24 {at} 192.0.2.1", f"add {base}/32 {2**32 - 1 - at} discard",
                      f"lookup {base}", "dump",
                      f"replace {base}/24 1 discard", f"withdraw {base}/28", f"# {at}",
                      f"add {base}/24 1 192.0.2.2")[at % 8])
    return "".join(line + "\n" for line in lines)


class Batches(LaunchedCase):
    # Catches a program that refuses 8, 257 or 513 commands at once, or the 8th of a batch: `in batches of 8`.
    def test_a_text_in_batches(self):
        text = commands(2_100)
        self.write({"batch.feed": text})
        stdout = run_text([text], set())
        for batch in [*range(1, 10), *ABOUT_POWERS, 700, 1023, 1024]:
            self.assert_prints(f"in batches of {batch}", ["run", "--batch", batch, "batch.feed"], stdout)

    def test_one_batch_more_or_less(self):
        """A batch of exactly this many commands, and batches of one command less and one more than the text has."""
        for count in [*range(1, 10), 255, 256, 257, 1023, 1024]:
            self.write({"count.feed": "dump\n" * count})
            stdout = "".join(f"1:{line} dumped 0\n" for line in range(1, count + 1)) + "table 0\n"
            for batch in sorted({max(count - 1, 1), count, min(count + 1, 1024)}):
                self.assert_prints(f"{count} commands in batches of {batch}", ["run", "--batch", batch, "count.feed"],
                                   stdout)

    # Catches a `purge` of more than 1,024 routes that is refused if the journal has no room: `a purge of 65536`.
    def test_purges(self):
        for count in (1, 1_023, 1_024, 1_025, 5_000, 65_536):
            adds = "".join(f"add {prefix} 1 192.0.2.1\n" for prefix in WHOLE[:count])
            self.write({"purge.feed": f"version 2\n{adds}purge\ndump\n"})
            report = "".join(f"1:{line} added\n" for line in range(2, count + 2))
            stdout = report + f"1:{count + 2} purged {count}\n1:{count + 3} dumped 0\ntable 0\n"
            self.assert_prints(f"a purge of {count}", ["run", "--batch", "64", "purge.feed"], stdout)


class MillionRoutes(LaunchedCase):
    """A feed that fills its limit with single addresses in no order, the last one among them, and goes on."""

    def setUp(self):
        self.bases = [0xFFFF_FFFF - at * 2_654_435_761 % 2**32 for at in range(MOST)]
        self.places = list(map(dotted, self.bases))
        rest = [
            ("add 0.0.0.0/0 1 192.0.2.1", "full"),
            ("lookup 255.255.255.255", "route " + self.row(0).strip()),
            (f"lookup {self.places[-1]}", "route " + self.row(MOST - 1).strip()),
            ("dump", f"dumped {MOST}"),
            ("withdraw 255.255.255.255/32", "withdrawn"),
            ("lookup 255.255.255.255", "no route"),
            ("add 255.255.255.255/32 4294967295 192.0.2.1", "added"),
            ("add 255.255.255.255/32 4294967295 192.0.2.1", "exists"),
            # Beyond 2^20 entries the journal has to grow once more.
            *[("dump", f"dumped {MOST}")] * 50_000,
        ]
        adds = [f"add {place}/32 {self.preference(at)} 192.0.2.1\n" for at, place in enumerate(self.places)]
        self.text = "version 2\n" + "".join(adds) + "".join(line + "\n" for line, _ in rest)
        answers = ["added"] * MOST + [answer for _, answer in rest]
        self.report = "".join(f"1:{at} {answer}\n" for at, answer in enumerate(answers, 2))
        self.next_line = len(answers) + 2

    @staticmethod
    def preference(at):
        return 0xFFFF_FFFF - at % 7

    def row(self, at):
        return row(f"{self.places[at]}/32", 1, self.preference(at))

    def assert_run(self, name, text, stdout):
        self.write({"million.feed": text})
        self.assert_prints_twice(name, ["run", "--limit", MOST, "--batch", "1024", "million.feed"], stdout)

    # Catches a journal of 1,000,000 entries or more that never grows: `1:1048578 refused`.
    def test_a_million_routes(self):
        order = sorted(range(MOST), key=self.bases.__getitem__)
        self.assert_run("a million routes", self.text, self.report + f"table {MOST}\n" + "".join(map(self.row, order)))

    def test_a_purge_of_a_million_routes(self):
        at = self.next_line
        left = f"1:{at} purged {MOST}\n1:{at + 1} purged 0\n1:{at + 2} dumped 0\n1:{at + 3} added\n"
        left += "table 1\n" + row("0.0.0.0/0", 1, 0, "discard")
        more = "purge\npurge\ndump\nadd 0.0.0.0/0 0 discard\n"
        self.assert_run("a purge of a million routes", self.text + more, self.report + left)


class Limits(LaunchedCase):
    # Catches another default limit for a feed of `run`, or a rejection of `--limit 1000000`.
    # Catches a default limit of 65,535: `a run of a full feed and 1 more`.
    def test_default_limit_of_a_feed(self):
        """The maximum number of routes of a feed of `run` by default, and one more, which the other commands accept."""
        listed = [row(prefix) for prefix in [*WHOLE, "11.0.0.0/24"]]
        self.write({"full.feed": WHOLE_FEED + "add 11.0.0.0/24 1 192.0.2.1\n"})
        self.assert_prints("the table of a full feed and 1 more", ["table", "full.feed"], "".join(listed))
        self.assert_prints("a look-up in a full feed and 1 more", ["lookup", "--address", "11.0.0.1", "full.feed"],
                           f"11.0.0.1 route {listed[-1]}")
        report = "".join(f"1:{line} added\n" for line in range(1, 65_537))
        batched = ["run", "--batch", "1024", "full.feed"]
        self.assert_prints("a run of a full feed and 1 more", batched,
                           report + "1:65537 full\ntable 65536\n" + "".join(listed[:-1]))
        self.assert_prints("a run of 65,537 routes", [*batched, "--limit", "1000000"],
                           report + "1:65537 added\ntable 65537\n" + "".join(listed))


class RoutesInAll(LaunchedCase):
    # Catches F3 of a run of over 3,000,000 routes: `test_three_million`.
    def test_three_million(self):
        """A run with more routes than three feeds may have: its output, as a digest."""
        feeds = range(1, 47)
        self.write({"whole.feed": WHOLE_FEED})
        with open(self.folder / "stdout", "w+b") as out:
            ended = self.launched("run", "--batch", "256", *["whole.feed"] * len(feeds), stdout=out)
            out.seek(0)
            found = hashlib.file_digest(out, "sha256").hexdigest()
        report = [f":{line} added\n" for line in range(1, 65_537)]
        rests, wanted = [row("", feed) for feed in feeds], hashlib.sha256()
        for feed in feeds:
            wanted.update(f"{feed}{str(feed).join(report)}".encode())
        wanted.update(f"table {65_536 * len(feeds)}\n".encode())
        for prefix in WHOLE:
            wanted.update((prefix + prefix.join(rests)).encode())
        self.assertEqual((ended.returncode, ended.stderr, found), (0, "", wanted.hexdigest()))


class Replays(LaunchedCase):
    # Catches P3 for a replay of over 20,000 picks: `60001 picks`.
    def test_long_replays(self):
        """Replays of a single place, which comes inside and leaves again every six steps."""
        steps = ("C1.0.0 := 1", "T1.0 := 1", "P1.0 := 0", "C1.0.1 = 0 inside", "C1.0.0 := 0", "T1.0 = 1 out")
        for count in (20_001, 60_001, 100_000):
            lines = "".join(f"{at + 1} p0 {steps[at % 6]}\n" for at in range(count))
            inside = "p0" if count % 6 >= 4 else "none"
            self.assert_prints(f"{count} picks", ["replay", "--levels", "1", *["0"] * count],
                               f"{lines}inside {inside}\n")

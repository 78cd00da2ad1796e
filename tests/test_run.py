"""`yarib run`: worked runs, files, limits and batches."""
import itertools
import math
import random

from dev.models import calls
from dev.models.table_model import MAX_FEEDS, dotted, report, route_text, run_text, table_text
from dev.testing import is_unproved
from tests.cases import TOO_MANY, ProgramCase, prefix_of, route, table
from tests.schedules import in_turns
from tests.texts import ROW, ROW_OUT

NEEDS = {"program"}

# First lines of texts, and the version that each is of.
FIRST_LINES = [
    (2, "version 2"), (1, ""), (1, "\nversion 2"), (1, "# x\nversion 2"), (1, "version 2\r"), (1, "version 2 "),
    (1, " version 2"), (1, "version  2"), (1, "version 1"), (1, "Version 2"), (1, "version 22"), (1, "version"),
]
# Texts with CR, without a last LF, and empty, and how a run of each ends. Each `frob` is a line that is seen.
TEXTS = [
    ("frob", 2, "1:1 fault E1\ntable 0\n"),
    ("frob\n", 2, "1:1 fault E1\ntable 0\n"),
    ("frob\n\n", 2, "1:1 fault E1\ntable 0\n"),
    ("\n\nadd", 2, "1:3 fault E2\ntable 0\n"),
    ("# note\nfrob\r\n", 2, "1:2 fault E1\ntable 0\n"),
    ("dump\rdump\nfrob", 2, "1:1 fault E1\n1:2 fault E1\ntable 0\n"),
    ("add 10.0.0.0/8 100 192.0.2.1\r\n", 2, "1:1 fault E7\ntable 0\n"),
    ("dump\r\n", 2, "1:1 fault E1\ntable 0\n"),
    ("\r\n", 2, "1:1 fault E1\ntable 0\n"),
    ("dump\rdump\n", 2, "1:1 fault E1\ntable 0\n"),
    (ROW[:-1], 0, ROW_OUT),
    (ROW + "dump", 0, "1:1 added\n1:2 dumped 1\n" + table(route(1))),
    (ROW + "\n", 0, ROW_OUT),
    ("", 0, "table 0\n"),
    ("\n", 0, "table 0\n"),
    ("# note", 0, "table 0\n"),
    ("\ufeffdump\n", 2, "1:1 fault E1\ntable 0\n"),
    ("dump\0\n", 2, "1:1 fault E1\ntable 0\n"),
]
# The number of places of the lock's tree at each height.
PLACES = [2**levels for levels in range(1, MAX_FEEDS.bit_length())]
# Numbers that no option accepts; the greater two would wrap to 1.
NO_NUMBERS = ("4294967297", "18446744073709551617", "-1", "x", "")


class Runs(ProgramCase):
    # Catches a program that reports out of memory, or a usage error, for every file.
    # Catches a program that reads a directory as an empty file: `run .`.
    # Catches a command line that rejects `--levels 255` itself, instead of P2: `replay --levels 255 0`.
    # Catches `run_feed` always returning M3, or `run_feeds` F3.
    # Catches F3 for two feeds in batches of 2.
    def test_calls(self):
        self.assert_calls(calls.RUN_FILES, calls.RUNS)

    # Catches `run_texts` always returning F3 or `Write`, or reporting every command as out of memory.
    # Catches F3 for one of the texts.
    # Catches `write_report` or `write_table` failing at once.
    def test_worked_runs(self):
        self.assert_calls(calls.WORKED_FILES, calls.WORKED)

    # Catches F3 for batches of 700.
    def test_every_batch_size(self):
        (_, name), (_, output, _) = calls.WORKED[0]
        self.write({name: calls.WORKED_FILES[name]})
        for batch in range(1, 1025):
            self.assert_ended(self.yarib("run", "--batch", str(batch), name), output, message=f"--batch {batch}")

    # Catches `write_report` or `write_table` failing beyond some number of lines.
    def test_200_000_routes(self):
        prefixes = [f"10.{at >> 16}.{at >> 8 & 255}.{at & 255}/32" for at in range(200_000)]
        rows = [route_text(prefix, 1, 7) for prefix in prefixes]
        self.assert_run("--limit 200000", ["".join(f"add {prefix} 7 192.0.2.1\n" for prefix in prefixes)],
                        report(1, ["added"] * 200_000) + table_text(rows), words=["--limit", "200000"])

    def test_versions(self):
        for version, first in FIRST_LINES:
            lines = [*first.split("\n"), "purge"]
            answers = [None if line[:1] in ("", "#") else "fault E1" for line in lines]
            if version == 2:
                answers = [None, "purged 0"]
            self.assert_run(f"first line {first!r}", ["\n".join(lines)], report(1, answers) + "table 0\n",
                            2 if version == 1 else 0)

    # Catches a reader that drops a last line without LF.
    def test_texts_are_cut_into_lines(self):
        for text, returncode, stdout in TEXTS:
            self.assert_run(repr(text), [text], stdout, returncode)
        self.assert_prints("run row.feed empty.feed row.feed", "1:1 added\n3:1 added\n" + table(route(1), route(3)))

    def changes_of(self, seed):
        """Runs thousands of random commands of one feed over nested prefixes, and compares the answers and the table
        with the model's."""
        choice, lines = random.Random(seed), ["version 2"]
        for _ in range(4_000):
            length = choice.choice((0, 1, 2, 8, 9, 15, 16, 17, 23, 24, 31, 32))
            base = choice.choice((0, 10 << 24, 127 << 24, 255 << 24)) + choice.randrange(1 << choice.choice((4, 24)))
            prefix = prefix_of(base, length)
            kinds = {f"add {prefix} {choice.randrange(3)} 192.0.2.1": 9, f"replace {prefix} 7 discard": 2,
                     f"withdraw {prefix}": 5, f"lookup {dotted(base)}": 5, "dump": 1, "purge": 0.02}
            lines += choice.choices(list(kinds), list(kinds.values()))
        text = "\n".join(lines) + "\n"
        self.write({"changes.feed": text})
        self.assert_ended(self.yarib("run", "changes.feed"), run_text([text], set()))

    def test_changes_of_one_feed(self):
        for seed in range(4):
            with self.subTest(f"seed {seed}"):
                self.changes_of(seed)


class Files(ProgramCase):
    # Catches a program that runs three files in another order: the files `one.feed two.feed three.feed`.
    def test_order_of_files(self):
        names = ("one.feed", "two.feed", "three.feed")
        self.write({name: f"add 10.{hop}.0.0/16 7 192.0.2.{hop}\n" for hop, name in enumerate(names, 1)})
        for order in ((1, 2, 3), (3, 1, 2), (2, 3, 1), (3, 2, 1)):
            routes = [route(order.index(hop) + 1, f"10.{hop}.0.0/16", 7, f"192.0.2.{hop}") for hop in (1, 2, 3)]
            self.assert_prints(["run", *(names[hop - 1] for hop in order)],
                               "1:1 added\n2:1 added\n3:1 added\n" + table(*routes))

    # Catches a program that rejects the maximum number of files: `MAX_FEEDS files`.
    # Catches a program that reads the files before it counts them: `too many files, the first missing`.
    def test_number_of_files(self):
        names = [f"{feed}.feed" for feed in range(1, MAX_FEEDS + 2)]
        self.write({name: f"add 10.0.0.0/8 {1000 - feed} 192.0.2.{feed}\n" for feed, name in enumerate(names, 1)})
        for count, name in ((MAX_FEEDS - 1, "MAX_FEEDS - 1 files"), (MAX_FEEDS, "MAX_FEEDS files")):
            added = "".join(f"{feed}:1 added\n" for feed in range(1, count + 1))
            routes = [route(feed, preference=1000 - feed, hop=f"192.0.2.{feed}") for feed in range(count, 0, -1)]
            self.assert_prints(["run", *names[:count]], added + table(*routes), name=name)
        self.assert_prints(["run", *names], name="too many files", **TOO_MANY)
        self.assert_prints(["run", "missing", *names[:-1]], name="too many files, the first missing", **TOO_MANY)

    # Catches F3 for 17 feeds.
    def test_place_for_each_feed(self):
        """The minimum and the maximum number of feeds for each height of the lock's tree."""
        for count in sorted({1, *PLACES, *(places + 1 for places in PLACES[:-1])}):
            feeds = range(1, count + 1)
            rows = [route_text("10.0.0.0/8", feed, 5, f"192.0.2.{feed}") for feed in feeds]
            self.assert_run(f"{count} feeds", [f"add 10.0.0.0/8 5 192.0.2.{feed}\n" for feed in feeds],
                            "".join(report(feed, ["added"]) for feed in feeds) + table_text(rows))

    # Catches `SharedRib::new` failing for a limit over 65,536, or for some number of levels, such as that of 16 feeds.
    def test_tables_of_each_size(self):
        for feeds, limit in zip(PLACES, itertools.cycle((1, 65_536, 65_537, 100_000, 999_999, 1_000_000))):
            self.assert_run(f"{feeds} feeds of {limit} routes", [""] * feeds, "table 0\n", 0, ["--limit", str(limit)])


class Options(ProgramCase):
    # Catches a program that uses 3 for `--limit 2`: the option and its number.
    def test_limits(self):
        self.write({"four.feed": "".join(f"add 10.{k}.0.0/16 1 192.0.2.1\n" for k in range(1, 5))})
        for limit in (1, 2, 3, 4, 5, 1_000_000, None):
            kept = min(limit or 4, 4)
            answers = ["added"] * kept + ["full"] * (4 - kept)
            routes = [route(feed, f"10.{k}.0.0/16", 1) for k in range(1, kept + 1) for feed in (1, 2)]
            output = report(1, answers) + report(2, answers) + table(*routes)
            words = ["--limit", str(limit)] if limit else []
            for more in ([], ["--batch", "3"], ["--batch", "1024"]):
                self.assert_prints(["run", *words, *more, "four.feed", "four.feed"], output)
                self.assert_prints(["run", "four.feed", *more, "four.feed", *words], output)

    # Catches a program that accepts `--limit 0` or `1000001`, `--batch 0` or `1025`.
    def test_no_limits(self):
        for option, numbers in (("--limit", ("0", "1000001", "1.0", "0x1", "1 ")), ("--batch", ("0", "1025"))):
            for number in (*numbers, *NO_NUMBERS):
                self.assert_misused(["run", f"{option}={number}", "row.feed"], f"'{number}'" if number else "", option)
        for words in ("--limit 0", "--limit 1000001", "--limit x", "--batch 0", "--batch 1025"):
            option, number = words.split()
            self.assert_misused(["run", option, number, "row.feed"], f"'{number}'", option)
        for words in ("run --limit", "run --limit --batch 1 row.feed", "--limit 1 run row.feed"):
            self.assert_misused(words, "--limit")

    # Catches a command line that accepts `--by` twice: `diff --by hop --by hop`.
    def test_options_twice(self):
        for first, second in (("1", "2"), ("2", "2")):
            for name in ("--limit", "--batch"):
                self.assert_misused(["run", name, first, name, second, "row.feed"], name)
                self.assert_misused(["run", name, first, "row.feed", name, second], name)
            self.assert_misused(["replay", "--levels", first, "--levels", second, "0"], "--levels")
        for second in ("hop", "route"):
            self.assert_misused(["diff", "--by", "hop", "--by", second, "row.feed", "--", "row.feed"], "--by")

    # Catches a run that executes 32 commands at once for `--batch 64`, or 512 for `--batch 1024`: `32 != 64`.
    def test_batches(self):
        """Each batch has one effect: the dumps of another feed change only at multiples of its size, and only to
        multiples."""
        if is_unproved():
            self.skipTest("AddressSanitizer replaces the memory allocator, which makes the schedule")
        for words, batch in (("", 1), *((f"--batch {batch}", batch) for batch in (1, 2, 64, 1000, 1024)),
                             ("--limit 1000000 --batch 5", 5), ("--batch 7 --limit 70000", 7)):
            with self.subTest(words or "no --batch"):
                self.assertEqual(self.batch_seen(words.split(), batch), batch)

    def batch_seen(self, words, batch):
        """Returns the largest number that divides the result of each dump and each position where the result changes;
        the feed of dumps takes turns with a feed that adds."""
        count = 16 * batch
        self.write({"dumps.feed": "dump\n" * count,
                    "adds.feed": "".join(f"add 10.{k >> 8}.{k & 255}.0/24 1 192.0.2.1\n" for k in range(count))})
        ended = in_turns(self, *words, "dumps.feed", "adds.feed")
        lines = ended.stdout.splitlines()
        self.assertEqual((ended.returncode, ended.stderr), (0, ""))
        self.assertEqual(lines[count : 2 * count], [f"2:{line} added" for line in range(1, count + 1)])
        dumped = [int(line.rpartition(" ")[2]) for line in lines[:count]]
        changes = [at for at in range(1, count) if dumped[at - 1] != dumped[at]]
        self.assertTrue(changes, "the feeds took no turns")
        return math.gcd(*dumped, *changes)

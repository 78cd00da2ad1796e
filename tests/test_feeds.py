"""Feeds that a query executes, leaves out or selects, by number or name: `--only`, `--without`, `--feed`."""
import random

from dev.models.table_model import MAX_FEEDS
from tests.cases import TOO_MANY, ProgramCase, prefix_of, route
from tests.test_table import counts_text

NEEDS = {"program"}

FEEDS = (1, 2, 3, 4)
ADDRESSES = [word for address in ("10.0.0.0", "10.0.1.0", "10.255.0.1", "11.0.0.1") for word in ("--address", address)]
QUERIES = [
    ["lookup", *ADDRESSES], ["lookup", "--all", *ADDRESSES], ["lookup", "--names", *ADDRESSES],
    ["lookup", "--json", "--names", *ADDRESSES], ["table"], ["table", "--best"], ["table", "--count"],
    ["table", "--json", "--within", "10.0.0.0/9"], ["table", "--csv"], ["lookup", "--csv", "--all", *ADDRESSES],
]


def placed(out, folder):
    """Returns the names of the files; those of these feeds are in the directory."""
    return [f"{folder}/left{feed}.feed" if feed in out else f"left{feed}.feed" for feed in FEEDS]


def others(feeds):
    return [feed for feed in FEEDS if feed not in feeds]


# Catches a program that opens the file of a feed that is left out, that renumbers the other feeds, or that leaves out
# another feed as well.
# Catches a program that ignores all but the first `--without`, or all but the last.
# Catches a program that ignores all but the first `--only`, or all but the last.
# Catches a `table` that executes the feeds that `--only` doesn't give.
# Catches an earlier spelling that is refused, or replaces `--only` instead of adding to it.
class LeftOut(ProgramCase):
    """Queries without some feeds, by number or name: they print, report and return the same as the query with empty
    files of these feeds."""

    def setUp(self):
        super().setUp()
        self.write({f"empty/left{feed}.feed": "" for feed in FEEDS})

    def begin(self, seed):
        """Writes random feeds for a round, each with a faulty line, and draws which of them are left out."""
        self.choice = random.Random(f"left out {seed}")
        for feed in FEEDS:
            lines = [self.drawn_line(length) for length in self.choice.sample(range(33), 12)]
            self.write({f"left{feed}.feed": "".join(lines) + "frob\n"})
        self.assertEqual(self.yarib("table", *placed([], "")).stdout.count("\n"), 12 * len(FEEDS))
        return self.choice.sample(FEEDS, self.choice.randrange(5))

    def drawn_line(self, length):
        base, draw = self.choice.choice((10 << 24, (10 << 24) + 256)), self.choice.randrange
        return f"add {prefix_of(base, length)} {draw(3)} 192.0.2.{draw(4)}\n"

    def options(self, word, feeds):
        """Returns the options that give these feeds, each by its number or its name."""
        return [part for feed in feeds for part in (word, str(feed) if self.choice.randrange(2) else f"left{feed}")]

    def only(self, feeds, side=""):
        """Returns the options that execute only these feeds: as the help spells them, as it did before, and as both."""
        place = self.choice.randrange(len(feeds) + 1)
        spelled, earlier = f"--{side}only", f"--{side}feed"
        return [self.options(spelled, feeds), self.options(earlier, feeds),
                self.options(earlier, feeds[:place]) + self.options(spelled, feeds[place:])]

    def assert_same(self, words, wanted, name):
        """Compares a call whose left-out files are missing with what it prints for empty files."""
        with self.named(name):
            self.assertEqual(self.yarib(*words), wanted, " ".join(words))

    def assert_queries(self, seed):
        out = self.begin(seed)
        kept = others(out)
        for query in QUERIES:
            name = " ".join(word for word in query if word != "--address" and word not in ADDRESSES)
            wanted = self.yarib(*query, *placed(out, "empty"))
            words = [*query, *self.options("--without", out), *placed(out, "missing")]
            self.assert_same(words, wanted, f"{name} --without")
            if not kept:
                continue
            for words in self.only(kept)[: 3 if query[0] == "lookup" else 1]:
                self.assert_same([*query, *words, *placed(out, "missing")], wanted, f"{name} --only")
            most = self.choice.sample(kept, min(2, len(kept)))
            words = [*self.options("--only", most), *self.options("--without", out), *placed(others(most), "missing")]
            wanted = self.yarib(*query, *placed(others(most), "empty"))
            self.assert_same([*query, *words], wanted, f"{name} --only --without")

    def assert_comparisons(self, seed):
        out, names = self.begin(seed), placed([], "")
        for more in ([], ["--by", "route"], ["--names", "--by", "route"], ["--json"], ["--csv"]):
            lost = self.choice.sample(FEEDS, self.choice.randrange(4))
            name = " ".join(["diff", *more])
            wanted = self.yarib("diff", *more, *placed(out, "empty"), "--", *placed(lost, "empty"))
            for new in (self.options("--new-without", lost), *self.only(others(lost), "new-")):
                sides = [*placed(out, "missing"), "--", *placed(lost, "missing")]
                words = ["diff", *more, *self.options("--old-without", out), *new, *sides]
                self.assert_same(words, wanted, f"{name}: both")
            wanted = self.yarib("diff", *more, *placed(lost, "empty"), "--", *names)
            for old in self.only(others(lost), "old-"):
                self.assert_same(["diff", *more, *old, *placed(lost, "missing"), "--", *names], wanted, f"{name}: old")


for number in range(1, 13):
    setattr(LeftOut, f"test_queries_{number:02}", lambda self, seed=number: self.assert_queries(seed))
    setattr(LeftOut, f"test_comparisons_{number:02}", lambda self, seed=number: self.assert_comparisons(seed))


# Catches a program that replaces the best route of a prefix by that of a selected feed: `--best --feed 1`.
# Catches a program that ignores all but the first `--feed`, or all but the last: `--feed 4 --feed 2`.
# Catches `--only` that isn't applied together with `--feed`.
class Selected(ProgramCase):
    """`table --feed` selects routes of the table of all executed feeds, with --best among the best of these."""

    def setUp(self):
        super().setUp()
        choice, self.files = random.Random(71), [f"of{feed}.feed" for feed in FEEDS]
        for name in self.files:
            places = choice.sample(range(20), 12)
            lines = [f"add 10.{place}.0.0/16 {choice.randrange(4)} 192.0.2.1\n" for place in places]
            self.write({name: "".join([*lines, "frob\n"])})

    def rows_of(self, ended, feeds):
        """Returns the rows of these feeds."""
        return [row for row in ended.stdout.splitlines(keepends=True) if int(row.split()[2]) in feeds]

    def test_executed_feeds(self):
        for best in ([], ["--best"]):
            for feeds, executed in (([1], [1, 3]), ([3, 1], [1, 2, 3]), ([4], [4])):
                table_of = ["table", *best, *(f"--only={feed}" for feed in executed)]
                files = [name if feed in executed else "missing" for feed, name in enumerate(self.files, 1)]
                whole = self.yarib(*table_of, *files)
                self.assertNotEqual(whole.stdout, "")
                self.assert_prints([*table_of, *(f"--feed={feed}" for feed in feeds), *files],
                                   "".join(self.rows_of(whole, feeds)), whole.stderr, whole.returncode)

    def test_rows_and_counts(self):
        for best in ([], ["--best"]):
            whole = self.yarib("table", *best, *self.files)
            for feeds in ([1], [4, 2], [3, 3], [1, 2, 3, 4]):
                rows = self.rows_of(whole, feeds)
                for name in ("", "of"):
                    words = [*best, *(word for feed in feeds for word in ("--feed", f"{name}{feed}")), *self.files]
                    self.assert_prints(["table", *words], "".join(rows), whole.stderr, whole.returncode)
                    self.assert_prints(["table", "--count", *words], counts_text(rows), whole.stderr, whole.returncode)


MISSING = "missing/same.feed missing/other.feed"
UNKNOWN = ("3", "0", str(MAX_FEEDS + 1), "-1", "4294967297", "sam", "same.feed", "missing/same", "SAME", "", " 1")
AMBIGUOUS = [("same", "a/same.feed b/same.feed"), ("same", "same other same.feed"), ("2", "2.feed other.feed"),
             ("1", "other.feed 1")]
# Which feed is selected by --only or --feed, and which of the two is left out.
BOTH = [("2", "other"), ("other", "2"), ("same", "1"), ("1", "same"), ("02", "2")]
# Selections by both options that leave out a feed, and which one is left out.
MIXED = [
    ("--only 1 --feed 2", "2"), ("--feed other --only same", "other"), ("--only same --feed 01 --feed 02", "02"),
    ("--feed 1 --only 1 --without same", "same"), ("--only 2 --feed 1 --without same", "same"),
]


# Catches a program that answers a number beyond the files by nothing: `table --feed=3`.
# Catches a program that takes the first of two feeds with the same name, or the number instead of the name.
class Unknown(ProgramCase):
    """A feed that is unknown or ambiguous is an error, and no file is read."""

    def assert_no_feed(self, words, word):
        self.assert_refused(words, f"no feed has this number or name: {word}")

    def test_unknown_feeds(self):
        for command in ("lookup --address 10.0.0.1", "table"):
            for option in ("--only", "--feed", "--without"):
                for word in UNKNOWN:
                    for first in ([], [f"{option}=other"]):
                        self.assert_no_feed([*command.split(), *first, f"{option}={word}", *MISSING.split()], word)

    def test_ambiguous_feeds(self):
        for command in ("lookup --address 10.0.0.1", "table"):
            for option in ("--only", "--feed", "--without"):
                for word, files in AMBIGUOUS:
                    message = f"more than one feed has this number or name: {word}"
                    self.assert_refused(f"{command} {option} {word} {files}", message)

    def test_unknown_feeds_of_a_side(self):
        both = "one.feed same.feed -- one.feed row.feed same.feed"
        for side, files, name in (("old", 2, "row"), ("new", 3, "two")):
            for option in ("only", "feed", "without"):
                for word in (str(files + 1), name):
                    self.assert_no_feed(f"diff --{side}-{option} {word} {both}", word)

    def test_known_feeds(self):
        for words in ("--feed 1 row.feed", "--feed 01 row.feed", "--feed row row.feed",
                      "--without 2 row.feed missing/2.feed", "--without 65001 row.feed missing/65001.feed"):
            self.assert_prints(f"table {words}", route(1))
        self.assert_prints(f"table --without 1 --without 2 {MISSING}")

    def assert_contradiction(self, words, out):
        self.assert_refused(words, f"the same feed is selected and left out: {out}")

    def test_feeds_selected_and_left_out(self):
        for select in ("--only", "--feed"):
            for only, out in BOTH:
                selected, gone = f"{select} {only}", f"--without {out}"
                for given in (f"{selected} {gone}", f"{gone} {selected}", f"{select} 1 {select} 2 {gone}"):
                    self.assert_contradiction(f"table {given} {MISSING}", out)
                    self.assert_contradiction(f"lookup --address 10.0.0.1 {given} {MISSING}", out)
                    for side in ("old", "new"):
                        of_side = given.replace("--", f"--{side}-")
                        self.assert_contradiction(f"diff {of_side} {MISSING} -- {MISSING}", out)
        for given, out in MIXED:
            self.assert_contradiction(f"table {given} {MISSING}", out)

    def test_options(self):
        for option in ("--only", "--feed", "--without"):
            self.assert_misused(f"run {option} 1 row.feed", option)
        self.assert_prints("table --without 1" + " missing" * (MAX_FEEDS + 1), name="too many files", **TOO_MANY)

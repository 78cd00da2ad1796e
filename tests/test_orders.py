"""Several feeds at the same time: some order of their batches explains each run (tests/linearizability.py)."""
import os
import random
import re
import sys
import time
from typing import NamedTuple

from dev.models.table_model import report, route_text, table_text
from dev.testing import is_unproved
from tests import linearizability
from tests.cases import ProgramCase
from tests.schedules import in_turns

NEEDS = {"program"}


class Meetings(ProgramCase):
    def test_thousand_routes_of_two_feeds(self):
        """Two feeds add 500 routes each at the same time; each finds its own, and the table has all."""
        base = lambda feed, at: f"{feed}.{at >> 8}.{at & 255}.0"
        lines = lambda feed: (f"add {base(feed, at)}/24 {at} 192.0.2.1\nlookup {base(feed, at)}\n" for at in range(500))
        rows = {feed: [route_text(f"{base(feed, at)}/24", feed, at) for at in range(500)] for feed in (1, 2)}
        reports = [report(feed, [answer for row in rows[feed] for answer in ("added", f"route {row}")])
                   for feed in (1, 2)]
        for batch in ("1", "3", "7", "256"):
            self.assert_run(f"--batch {batch}", ["".join(lines(1)), "".join(lines(2))],
                            "".join(reports) + table_text(rows[1] + rows[2]), 0, ["--limit", "500", "--batch", batch])

    # Catches a `run_texts` that runs one feed after another: ` dumped 2` isn't found.
    def test_with_a_schedule(self):
        """A second route is added and withdrawn; during each add, a dump of the other feed waits for the lock."""
        if is_unproved():
            self.skipTest("AddressSanitizer replaces the memory allocator, which makes the schedule")
        self.write({"1.feed": "dump\n" * 20,
                    "2.feed": "add 11.0.0.0/8 1 192.0.2.1\n" + COMES_AND_GOES[0] * 10 + "withdraw 11.0.0.0/8\n"})
        ended = in_turns(self, "--limit", "2", "--batch", "1", "1.feed", "2.feed")
        self.assertEqual((ended.returncode, ended.stdout.splitlines()[-1:]), (0, ["table 0"]))
        self.assertIn(" dumped 2\n", ended.stdout)

    # Catches a runner that ends one feed, whichever, before it starts the other: no dump meets a route.
    def test_without_a_schedule(self):
        """Runs two long texts until a dump of the second meets the route of the first, at most 100 times."""
        self.varies()
        self.write({"1.feed": COMES_AND_GOES[0] * 10_000, "2.feed": "dump\n" * 20_000})
        for _ in range(100):
            ended = self.yarib("run", "--limit", "1", "--batch", "1", "1.feed", "2.feed")
            self.assertEqual((ended.returncode, ended.stdout.splitlines()[-1:], ended.stderr), (0, ["table 0"], ""))
            if re.search(r"^2:\d+ dumped 1$", ended.stdout, re.MULTILINE):
                return
        self.fail("no dump met the route in 100 runs")


# Few prefixes, so that feeds meet, and addresses that they cover.
PREFIXES = ["0.0.0.0/0", "10.0.0.0/8", "10.1.0.0/16", "10.1.2.0/24", "10.1.2.3/32"]
LOOKED_UP = ["10.1.2.3", "10.1.2.4", "10.9.9.9", "192.0.2.1"]
HOPS = ["192.0.2.1", "192.0.2.2"]
# The approximate number of comments of a text: enough that a feed isn't done before the others have begun.
PAUSES = 200_000


def random_line(choice):
    prefix, offer = choice.choice(PREFIXES), f"{choice.randrange(3)} {choice.choice(HOPS)}"
    kinds = {
        f"add {prefix} {offer}": 5, f"replace {prefix} {offer}": 2, f"withdraw {prefix}": 3,
        f"lookup {choice.choice(LOOKED_UP)}": 3, "dump": 1, "purge": 1, "# nothing\n\nfrob": 1,
    }
    return choice.choices(list(kinds), list(kinds.values()))[0] + "\n"


class Drawn(NamedTuple):
    """Random texts, and how a run of them is to be made."""

    texts: list
    limit: int
    batch: int

    def run(self, case):
        """The output of a test's run of the texts."""
        files = {f"{feed}.feed": text for feed, text in enumerate(self.texts, 1)}
        case.write(files)
        ended = case.yarib("run", "--limit", str(self.limit), "--batch", str(self.batch), *files)
        case.assertIn(ended.returncode, (0, 2))
        return ended.stdout

    def explains(self, output, batch):
        """Returns True if some order of the texts' batches explains the output, with this many commands in each
        batch."""
        return linearizability.explains([linearizability.read(text) for text in self.texts], self.limit, batch, output)


def draw(seed, feeds, lines, pauses=PAUSES):
    """Random texts with this many lines, and about this many comments between them."""
    choice = random.Random(seed)
    pause = lambda: "#\n" * choice.randrange(2 * pauses // lines)
    text = lambda: choice.choice(("", "version 2\n")) + "".join(pause() + random_line(choice) for _ in range(lines))
    return Drawn([text() for _ in range(feeds)], choice.choice((2, 65_536, 65_536)), choice.randrange(1, 5))


class RandomRuns(ProgramCase):
    # On a single processor the feeds may run one after another.
    # Catches a look-up that answers the last route stored for the longest prefix instead of the best.
    def test_some_order_explains_each_run(self):
        """Judges up to 100 runs for each number of feeds (on a busy machine, as many as begin in four seconds), and
        counts those that no order of whole feeds explains."""
        self.varies()
        runs, interleaved = 0, 0
        for feeds, lines in ((2, 100), (3, 60), (4, 20), (5, 10), (6, 7)):
            start = time.monotonic()
            for seed in range(1, 101):
                if time.monotonic() - start > 4:
                    break
                drawn = draw(seed, feeds, lines)
                output = drawn.run(self)
                self.assertTrue(drawn.explains(output, drawn.batch), f"{feeds} feeds of seed {seed}")
                runs, interleaved = runs + 1, interleaved + (not drawn.explains(output, sys.maxsize))
        self.assertGreaterEqual(runs, 5)
        if len(os.sched_getaffinity(0)) > 1:
            self.assertGreaterEqual(interleaved, runs // 10)

    def assert_no_order(self, change, least):
        """Fails unless no order explains at least so many outputs that were changed."""
        self.varies()
        changed = 0
        for seed in range(1, 101):
            drawn = draw(seed, 3, 9, pauses=9_000)
            if (output := change(self, drawn)) is not None:
                changed += 1
                self.assertFalse(drawn.explains(output, drawn.batch), f"seed {seed}")
        self.assertGreaterEqual(changed, least)

    # Catches a judge that finds an order for every output.
    def test_no_order_explains_a_lost_withdrawal(self):
        self.assert_no_order(losing_a_withdrawal, 20)

    def test_no_order_explains_swapped_replies(self):
        self.assert_no_order(swapping_replies, 50)


def with_answers(output, answers):
    """The output with these answers on the lines that begin so."""
    lines = [line.split(" ", 1) for line in output.splitlines()]
    return "".join(f"{heading} {answers.get(heading, rest)}\n" for heading, rest in lines)


def losing_a_withdrawal(case, drawn):
    """An output of the texts without the effect of a withdrawal, if they have one: it is answered, but the route
    remains."""
    lost = re.search(r"^((\d+):(\d+)) withdrawn$", drawn.run(case), re.M)
    if lost is None:
        return None
    lines = drawn.texts[int(lost[2]) - 1].split("\n")
    lines[int(lost[3]) - 1] = "dump"
    texts = [*drawn.texts]
    texts[int(lost[2]) - 1] = "\n".join(lines)
    return with_answers(drawn._replace(texts=texts).run(case), {lost[1]: "withdrawn"})


def swapping_replies(case, drawn):
    """An output of the texts with two replies to the same feed swapped, if two of them differ. Both replies
    concern only the feed's own routes."""
    output = drawn.run(case)
    own = re.findall(r"^((\d+):\d+) (added|exists|full|replaced|withdrawn|missing)$", output, re.M)
    for heading, feed, answer in own:
        for other, its_feed, other_answer in own:
            if feed == its_feed and answer != other_answer:
                return with_answers(output, {heading: other_answer, other: answer})
    return None


COMES_AND_GOES = ["add 10.0.0.0/8 1 192.0.2.1\nwithdraw 10.0.0.0/8\n", "dump\n"]
ASKED_TWICE = ["add 10.0.0.0/8 1 192.0.2.1\n", "lookup 10.1.2.3\nlookup 10.1.2.3\n"]
EACH_OTHER = ["lookup 10.0.0.1\nadd 11.0.0.0/8 1 192.0.2.1\n", "lookup 11.0.0.1\nadd 10.0.0.0/8 2 192.0.2.2\n"]
TEN, ELEVEN, OTHER_TEN = route_text("10.0.0.0/8"), route_text("11.0.0.0/8"), route_text("10.0.0.0/8", 2, 2, "192.0.2.2")
FOUND_TEN = f"2:2 route {TEN}"
BOTH, FOUND_OTHER = ["1:1 added", "1:2 withdrawn"], [f"1:1 route {OTHER_TEN}", "1:2 added"]
NONE_FOUND = [*FOUND_OTHER, "2:1 no route", "2:2 added", "table 2"]
# Outputs: their name, the texts, how many commands are executed at once, the lines, and whether some order of batches
# explains them.
JUDGED = [
    ("a dump behind both", COMES_AND_GOES, 1, [*BOTH, "2:1 dumped 0", "table 0"], True),
    ("a dump between both", COMES_AND_GOES, 1, [*BOTH, "2:1 dumped 1", "table 0"], True),
    ("a dump that cuts a batch", COMES_AND_GOES, 2, [*BOTH, "2:1 dumped 1", "table 0"], False),
    ("a lost withdrawal", COMES_AND_GOES, 1, [*BOTH, "2:1 dumped 1", "table 1", TEN], False),
    ("swapped replies", COMES_AND_GOES, 1, ["1:1 withdrawn", "1:2 added", "2:1 dumped 0", "table 0"], False),
    ("more routes than there ever were", COMES_AND_GOES, 1, [*BOTH, "2:1 dumped 2", "table 0"], False),
    ("a missing line", COMES_AND_GOES, 1, ["1:1 added", "2:1 dumped 0", "table 0"], False),
    ("a line of another feed", COMES_AND_GOES, 1, ["1:1 added", "2:2 withdrawn", "2:1 dumped 0", "table 0"], False),
    ("another count of the table", COMES_AND_GOES, 1, [*BOTH, "2:1 dumped 0", "table 1"], False),
    ("a line after the table", COMES_AND_GOES, 1, [*BOTH, "2:1 dumped 0", "table 0", "table 0"], False),
    ("an add between look-ups", ASKED_TWICE, 1, ["1:1 added", "2:1 no route", FOUND_TEN, "table 1", TEN], True),
    ("an add that cuts a batch", ASKED_TWICE, 2, ["1:1 added", "2:1 no route", FOUND_TEN, "table 1", TEN], False),
    ("swapped look-ups", ASKED_TWICE, 1, ["1:1 added", f"2:1 route {TEN}", "2:2 no route", "table 1", TEN], False),
    ("one finds the other's route", EACH_OTHER, 1, [*NONE_FOUND, OTHER_TEN, ELEVEN], True),
    ("each finds what the other adds later", EACH_OTHER, 1,
     [*FOUND_OTHER, f"2:1 route {ELEVEN}", "2:2 added", "table 2", OTHER_TEN, ELEVEN], False),
    ("a table out of order", EACH_OTHER, 1, [*NONE_FOUND, ELEVEN, OTHER_TEN], False),
]


class Judge(ProgramCase):
    # Catches a judge that finds an order for every output.
    def test_outputs(self):
        for name, texts, batch, lines, explained in JUDGED:
            with self.subTest(name):
                output = "".join(line + "\n" for line in lines)
                self.assertEqual(Drawn(texts, 65_536, batch).explains(output, batch), explained)

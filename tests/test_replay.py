"""`yarib replay`: worked replays, random ones beside a model of the tree, and what is refused."""
import random

from dev.models import calls
from dev.models.table_model import MAX_FEEDS
from tests.cases import ProgramCase
from tests.lock_tree import Tree

NEEDS = {"program"}

# The maximum number of levels of a tree: crates/rt_shared proves that it has a place for each feed, and no more.
MAX_LEVELS = MAX_FEEDS.bit_length() - 1
# Levels and picks that are refused, and with which fault. Invalid levels are reported before an invalid pick.
REFUSED = [(1, "0 1 2", "P1"), (0, "200", "P2"), (7, "200", "P2")]
NO_LEVELS = ("0", str(MAX_LEVELS + 1), str(MAX_LEVELS + 2), "64", "255")


class Replays(ProgramCase):
    def assert_replay(self, name, levels, picks, *shown):
        words = list(shown or map(str, picks))
        self.assert_prints(["replay", "--levels", str(levels), *words], Tree(levels).text(picks), name=name)

    # Catches `replay` always running out of memory, or `replay_text` always returning P3 or `Write`, or doing so only
    # if nothing is picked.
    def test_worked_replays(self):
        self.assert_calls({}, calls.REPLAYED)

    # Catches a replay without the last of 13 picks, or P3 for 1,000 picks or for the maximum number of levels.
    def test_each_number_of_levels(self):
        for levels in range(1, MAX_LEVELS + 1):
            last, choice = 2**levels - 1, random.Random(levels)
            for name, picks in (
                ("the last place alone", [last] * (7 * levels)), ("first and last", [0] * 3 + [last] * 3 + [0]),
                ("no pick", []), ("place 7 alone", [7 % 2**levels] * 13),
                ("300 picks", [choice.randrange(2**levels) for _ in range(300)]),
                ("300 picks of two", [choice.choice((0, last)) for _ in range(300)]),
            ):
                self.assert_replay(f"{levels} levels: {name}", levels, picks)
            self.assert_refused(f"replay --levels {levels} 0 {last + 1}", "fault P1")

    def test_long_replays(self):
        last, choice = MAX_FEEDS - 1, random.Random(1000)
        self.assert_replay("picks as words", MAX_LEVELS, [0, 9, 10, last, 7], "0", "9", "10", str(last), "7")
        self.assert_replay("picks behind --", 1, [1, 0, 1], "--", "1", "0", "1")
        self.assert_replay("1,000 picks of all places", MAX_LEVELS, [choice.randrange(MAX_FEEDS) for _ in range(1000)])
        self.assert_replay("1,000 picks of four places", 2, [choice.randrange(4) for _ in range(1000)])

    def test_invalid_picks(self):
        for levels, picks, fault in REFUSED:
            self.assert_refused(f"replay --levels {levels} {picks}", f"fault {fault}")
        for pick in (str(MAX_FEEDS), "200", "255"):
            self.assert_refused(f"replay --levels {MAX_LEVELS} {MAX_FEEDS - 1} {pick}", "fault P1")
        for pick in ("256", "1000", "-1", "x", "", "1.5", "18446744073709551616"):
            self.assert_misused(["replay", "--levels", str(MAX_LEVELS), "--", str(MAX_FEEDS - 1), pick], f"'{pick}'")
        self.assert_misused("replay --levels 1 -1", "'-1'")

    def test_invalid_levels(self):
        for levels in NO_LEVELS:
            for picks in ("", "0", "200"):
                self.assert_refused(f"replay --levels {levels} {picks}", "fault P2")
        for levels in ("256", "-1", "x", "", "4294967297"):
            self.assert_misused(["replay", f"--levels={levels}", "0"], f"'{levels}'" if levels else "", "--levels")
        for words in ("replay 0", "replay"):
            self.assert_misused(words, "--levels")

"""Comparisons of sizes at which a needless refusal would show: the whole output of each is compared with a plain model.

They have up to 1,050,000 ranges, in one of the blocks of addresses that a thread lists and in all of them, and 1,480
pairs of next hops."""
import collections

from dev.models.table_model import number
from tests.launching import LaunchedCase, apart, single_routes

NEEDS, PROVED = {"program"}, True


def hop_count(ranges):
    return f"ranges {ranges} addresses {ranges}"


class SingleAddresses(LaunchedCase):
    """Single addresses, no two of them adjacent. All of them differ, or none, or only the last."""

    # Catches F3 for a comparison of more than 8,192 or 262,144 nodes, or after 1,000 ranges: `8193 routes that differ`,
    # `300000 routes that differ`, `1001 routes that differ`.
    def test_routes_that_differ(self):
        for count in (1, 999, 1_000, 1_001, 8_192, 8_193, 65_536, 300_000):
            places = apart(count)
            self.write({"old.feed": single_routes(places), "new.feed": single_routes(places, "192.0.2.2"),
                        "last.feed": single_routes(places[:-1])})
            words = ["diff", "--limit", "1000000"]
            ranges = "".join(f"{place}-{place} via 192.0.2.1 -> via 192.0.2.2\n" for place in places)
            self.assert_prints(f"{count} routes that differ", [*words, "old.feed", "--", "new.feed"], ranges,
                               returncode=1)
            self.assert_prints(f"{count} routes of which none differs", [*words, "old.feed", "--", "old.feed"], "")
            self.assert_prints(f"{count} routes of which one differs", [*words, "last.feed", "--", "old.feed"],
                               f"{places[-1]}-{places[-1]} no route -> via 192.0.2.1\n", returncode=1)

    def assert_all_differ(self, places):
        """Compares a full table of two feeds with an empty one, in both directions."""
        self.write({"1.feed": single_routes(places[:1_000_000]), "2.feed": single_routes(places[1_000_000:]),
                    "empty.feed": ""})
        ranges = [f"{place}-{place} via 192.0.2.1 -> no route\n" for place in places]
        self.assert_prints("full -- empty", ["diff", "1.feed", "2.feed", "--", "empty.feed"], "".join(ranges),
                           returncode=1)
        counts = "".join(f"{what} {hop_count(len(places))}\n" for what in (
            "change gets a route", "hops no route -> via 192.0.2.1"))
        self.assert_prints("--count empty -- full", ["diff", "--count", "empty.feed", "--", "1.feed", "2.feed"],
                           f"{hop_count(len(places))}\n{counts}", returncode=1)

    def test_a_block_of_400000_differences(self):
        """Catches a comparison that refuses over 300,000 ranges within a block of 2^26 addresses, which a thread
        lists."""
        self.assert_all_differ(apart(400_000))

    def test_over_a_million_differences(self):
        """Catches a comparison that refuses over 1,000,000 ranges in all: each block has a sixtieth of them."""
        self.assert_all_differ(apart(1_050_000, 3_900))


class Counts(LaunchedCase):
    def test_over_a_thousand_pairs_of_next_hops(self):
        """Catches a count that refuses over 1,000 pairs of next hops, or over 300,000 ranges: 400,000 ranges have 1,480
        pairs."""
        old, new = [f"192.0.2.{at}" for at in range(40)], [f"198.51.100.{at}" for at in range(37)]
        places = apart(400_000)
        pairs = [(old[at % 40], new[at % 37]) for at in range(len(places))]
        for side, name in enumerate(("old.feed", "new.feed")):
            self.write({name: "".join(f"add {place}/32 1 {pair[side]}\n" for place, pair in zip(places, pairs))})
        counted = collections.Counter(pairs)
        self.assertEqual(len(counted), 1_480)
        lines = [hop_count(len(places)), f"change another next hop {hop_count(len(places))}"]
        lines += [f"hops via {before} -> via {after} {hop_count(counted[before, after])}" for before, after in
                  sorted(counted, key=lambda pair: [number(hop) for hop in pair])]
        self.assert_prints("diff --count", ["diff", "--count", "--limit", "1000000", "old.feed", "--", "new.feed"],
                           "".join(line + "\n" for line in lines), returncode=1)

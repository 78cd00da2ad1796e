"""Tests of a source with more routes than a feed may have: it is dealt to several feeds, and the answers stay the same."""
import re

from convert.tests.conversions import CONVERSIONS
from convert.tests.converting import DONE, OTHERWISE, add_tests, rows_of, sample
from convert.tests.inside.constants import InsideCase
from convert.tests.test_merge import MANY, MERGE, assert_merged, many_peers

LIMITS = (1, 3, 5)
DEALT = re.compile(r"(.*)-([0-9]+)of([0-9]+)")


def routes_of(files):
    """Returns the table's rows without the numbers of feeds."""
    return sorted(re.sub(" feed [0-9]+", "", row) for row in rows_of(files))


def prefixes_of(file):
    """Returns the prefixes of a feed."""
    return {line.split()[1] for line in file.read_text().splitlines()[1:] if line != "purge"}


def most_at_once(file):
    """Returns how many routes a feed has at most at a time."""
    routes, most = set(), 0
    for word, *fields in map(str.split, file.read_text().splitlines()[1:]):
        if word == "purge":
            routes.clear()
        elif word == "withdraw":
            routes.discard(fields[0])
        else:
            routes.add(fields[0])
        most = max(most, len(routes))
    return most


class Dealt(InsideCase):
    """Sources that are dealt to several feeds."""

    def converted_with(self, limit, command, data):
        """Converts with this greatest limit of routes."""
        ended = self.convert_with(f"GREATEST_LIMIT = {limit}", command, data)
        self.assertIn(ended.returncode, (DONE, OTHERWISE), ended.stderr)
        return ended

    def assert_dealt(self, ended, limit):
        """Fails unless no feed has too many routes, and the parts of a source have no prefix in common and are reported.
        Returns the number of sources that were dealt."""
        self.assertEqual([file.name for file in ended.files if most_at_once(file) > limit], [])
        parts = {}
        for file in ended.files:
            if match := DEALT.fullmatch(file.stem):
                parts.setdefault((match[1], int(match[3])), []).append(file)
        for (_, number), dealt in parts.items():
            found = [prefixes_of(file) for file in dealt]
            self.assertEqual((len(dealt), len(set().union(*found))), (number, sum(map(len, found))), "prefixes in common")
            self.assertEqual([file.name for file in dealt if file.name not in ended.stderr], [])
        return len(parts)

    def test_prefixes_that_change(self):
        """A peer that has had far more prefixes than routes at a time is divided by its prefixes."""
        line = "BGP4MP|1|{}|127.0.0.1|1|10.{}.0.0/16|1|IGP|192.0.2.1|0|0||NAG||\n"
        changes = [("A", second) for second in range(4)]
        changes += [change for second in range(4, 12) for change in (("W", second - 4), ("A", second))]
        data = "".join(line.format(*change) for change in changes)
        whole, dealt = self.converted("bgpdump-to-feeds", data), self.converted_with(3, "bgpdump-to-feeds", data)
        self.assert_dealt(dealt, 3)
        self.assertEqual((routes_of(dealt.files), len(dealt.files)), (routes_of(whole.files), 4))

    def test_merged(self):
        """Too many sources are merged, and those that are too large are dealt; then the answers are the same."""
        whole = self.converted("bgpdump-to-feeds", many_peers(), returncode=OTHERWISE)
        self.assertEqual(len(whole.files), MANY)
        assert_merged(self, self.converted_with(10, f"bgpdump-to-feeds {MERGE}", many_peers()), whole)

    def test_merged_into_too_few(self):
        ended = self.convert_with("GREATEST_LIMIT = 10", "bgpdump-to-feeds --merge 3", many_peers())
        self.assertEqual((ended.returncode, ended.folder.exists()), (1, False))
        self.assertIn("the routes need more than 3 feeds, of 10 routes each", ended.stderr)


def check_deal(test, case):
    """With a lower limit of routes for each feed, a sample gives the same table, from more feeds."""
    whole = routes_of(test.convert_sample(case.command, case.sample).files)
    for limit in LIMITS:
        ended = test.converted_with(limit, case.command, sample(case.sample))
        test.count(test.assert_dealt(ended, limit))
        test.assertEqual(routes_of(ended.files), whole, f"{limit} routes a feed")


add_tests(Dealt, "sample", check_deal, {f"{case.command.split()[0]} {case.name}": (case,) for case in CONVERSIONS})

"""Tests of more sources than a run accepts: with --merge the answers stay those of the whole table."""
import re

from convert.tests.conversions import CONVERSIONS
from convert.tests.converting import DONE, OTHERWISE, ConverterCase, add_tests, rows_of
from dev.models.table_model import MAX_FEEDS

LINE = "TABLE_DUMP2|1|B|127.0.{}.{}|1|{}|1|IGP|192.0.2.{}|0|0||NAG||\n"
# more sources than a run accepts
MANY = MAX_FEEDS + 6
MERGE = f"--merge {MAX_FEEDS}"


def best_of(files):
    """Returns the preference and the next hop of the best route to each prefix."""
    best = {}
    for row in rows_of(files):
        prefix, _, _, _, preference, _, hop = row.split()
        best.setdefault(prefix, (preference, hop))
    return best


def many_peers():
    """Returns a dump of MANY peers; some have a route to each prefix, and the shortest path isn't the first peer's."""
    lines = []
    for second in range(40):
        for peer in range(MANY):
            if (second * 7 + peer) % 3 == 0:
                line = LINE.format(peer // 8, peer % 8, f"10.{second}.0.0/16", peer)
                path = " ".join(["1"] * (1 + (second * 31 + peer * 17) % 5))
                lines.append(line.replace("/16|1|", f"/16|{path}|"))
    return "".join(lines)


def assert_merged(test, ended, whole):
    """Fails unless these feeds have the best routes of the whole table, and others than the sources with the fewest routes
    have feeds of their own."""
    test.assertLessEqual(len(ended.files), MAX_FEEDS)
    test.assertEqual(best_of(ended.files), best_of(whole.files))
    test.assertIn("routes into merged.feed", ended.stderr)
    own = {re.sub("-[0-9]+of[0-9]+$", "", file.stem) for file in ended.files}
    sizes = {name.removesuffix(".feed"): text.count("\n") for name, text in whole.feeds.items()}
    merged = [size for name, size in sizes.items() if name not in own]
    test.assertLessEqual(max(merged), min(sizes[name] for name in own if name in sizes))


class Merge(ConverterCase):
    """Samples and a dump of many peers, merged into fewer feeds."""

    def test_too_many_sources(self):
        """They end with status 3, or are merged; then the answers are the same."""
        whole = self.converted("bgpdump-to-feeds", many_peers(), returncode=OTHERWISE)
        self.assertEqual(len(whole.files), MANY)
        self.assertIn(f"{MANY} feeds are in the directory, and `yarib` accepts at most {MAX_FEEDS} files (status 3): use {MERGE}", whole.stderr)
        assert_merged(self, self.converted(f"bgpdump-to-feeds {MERGE}", many_peers()), whole)


def check_merge(test, case):
    """With few feeds the best route of each prefix is the same."""
    whole = test.convert_sample(case.command, case.sample)
    for most in range(1, len(whole.files) + 2):
        ended = test.convert_sample(f"{case.command} --merge {most}", case.sample)
        test.assertIn(ended.returncode, (DONE, OTHERWISE), ended.stderr)
        found = len(ended.files), "merged the" in ended.stderr
        test.assertEqual(found, (min(most, len(whole.files)), most < len(whole.files)), f"--merge {most}: {ended.stderr}")
        test.assertEqual(best_of(ended.files), best_of(whole.files), f"--merge {most}")


def check_refused(test, case):
    """What has the daemon's preferences can't be merged by ranks."""
    whole = test.convert_sample(case.command, case.sample)
    for most in range(1, len(whole.files) + 2):
        test.assert_refused(test.convert_sample(f"{case.command} --merge {most}", case.sample), "--merge compares ranks")


CASES = {f"{case.command.split()[0]} {case.name}": (case,) for case in CONVERSIONS}
add_tests(Merge, "merged", check_merge, {name: values for name, values in CASES.items() if "--by" not in name})
add_tests(Merge, "refused", check_refused, {name: values for name, values in CASES.items() if "--by" in name})

"""`yarib diff`: ranges, prefixes and counts of random tables, feeds by name, and what is refused."""
import ipaddress
import json
import random
import re

from dev.models import calls
from dev.models.table_model import E1, MAX_FEEDS, differences_text, json_text, members, shown
from tests.cases import TOO_MANY, ProgramCase, prefix_of
from tests.texts import ROW

NEEDS = {"program"}

BY_ROUTE = ["--by", "route"]
BY_NAME = ["--by", "route", "--names"]
KINDS = ("another next hop", "gets a route", "loses its route", "is discarded", "isn't discarded any more",
         "the same next hop by another route")


def of_both(old, new):
    return [*old, "--", *new]


def named_route(choice):
    """Returns one of few prefixes, with a preference and a next hop."""
    return f"{prefix_of(10 << 24, choice.choice((0, 8, 24, 32)))} {choice.randrange(2)} 192.0.2.{choice.randrange(2)}"


class DiffCase(ProgramCase):
    def random_sides(self, choice, count, discards=()):
        """Writes two random tables, and returns both with the names of their files. In the first file of these sides
        some routes discard."""
        sides = {side: self.random_table(choice, side, count) for side in ("old", "new")}
        for side in discards:
            path = self.folder / sides[side][1][0]
            path.write_text("version 2\n" + path.read_text().replace("192.0.2.1", "discard"))
        return sides.values()


class Ranges(DiffCase):
    # Catches `diff_texts` always returning F3 or `Write`.
    # Catches a program that doesn't report rejected input of the new files: `diff ends.feed -- faulty.feed`.
    # Catches a number of addresses that is cut to 32 bits: `diff --count unlike-halves.feed -- discards.feed`.
    def test_calls(self):
        self.assert_calls(calls.COMPARED_FILES, calls.COMPARED)

    # Catches a comparison that misses a boundary at the last address of a prefix, splits or merges ranges wrongly, or
    # compares routes instead of next hops: `by hop, 0 routes`.
    def test_random_tables(self):
        """Ranges of random feeds, compared with look-ups at every boundary."""
        choice = random.Random(40)
        for number in range(20):
            (old, old_names), (new, new_names) = self.random_sides(choice, number)
            for by in ("hop", "route"):
                wanted = differences_text(old, new, by)
                self.assert_prints(["diff", "--by", by, *of_both(old_names, new_names)], wanted, "", 1 if wanted else 0,
                                   name=f"by {by}, {number} routes")
            self.assert_prints(["diff", *BY_ROUTE, *of_both(old_names, old_names)], name=f"itself, {number} routes")

    def test_reports_and_refusals(self):
        self.write({"odd.feed": "frob\n" + ROW})
        report = f"yarib: odd.feed: faulty lines: 1, the first is line 1: {E1}\n"
        self.assert_prints("diff odd.feed -- row.feed odd.feed", "", report * 2, 2)
        for option in ("", "--json "):
            words = f"diff {option}row.feed --" + " row.feed" * (MAX_FEEDS + 1)
            self.assert_prints(words, name=f"{option}too many files", **TOO_MANY)
        self.assert_unreadable("diff missing -- row.feed", "missing")
        for words, part in (("row.feed", "<NEW>"), ("row.feed --", "<NEW>"), ("-- row.feed", "<OLD>"),
                            ("--by feed row.feed -- row.feed", "'feed'")):
            self.assert_misused(f"diff {words}", part)


def answer_object(text, files):
    """The JSON value of an answer with this text; the routes are of these files."""
    words = text.split()
    if text == "no route":
        return None
    if len(words) < 7:
        return {"via": None, "discard": True} if words[-1] == "discard" else {"via": words[-1]}
    return members(words[::2], file=files[int(words[2]) - 1])


class Json(DiffCase):
    # Catches a comparison that swaps old and new, or prints another last address of a range: `by hop`.
    def test_random_tables(self):
        """Each range is one object with what the same command's line has, and for a feed its file on that side."""
        choice = random.Random(63)
        for number in (1, 4, 9):
            (_, old), (_, new) = self.random_sides(choice, number, discards=("new",))
            for by in ("hop", "route"):
                plain = self.yarib("diff", "--by", by, *of_both(old, new))
                self.assertEqual(plain.returncode, 1)
                wanted = []
                for line in plain.stdout.splitlines():
                    first, last, was, now = re.fullmatch(r"(\S+)-(\S+) (.*) -> (.*)", line).groups()
                    answers = {"old": answer_object(was, old), "new": answer_object(now, new)}
                    wanted.append({"first": first, "last": last} | answers)
                with self.subTest(f"by {by}, {number} routes"):
                    ended = self.yarib("diff", "--json", "--by", by, *of_both(old, new))
                    self.assertEqual((ended.returncode, ended.stderr), (plain.returncode, ""))
                    self.assertEqual([json.loads(line) for line in ended.stdout.splitlines()], wanted)


class Prefixes(DiffCase):
    # Catches a comparison that ignores `--prefixes`, or prints halves of a prefix, prefixes beyond the range, or too
    # few: `--by hop`.
    def test_random_tables(self):
        """Each range of the same command without --prefixes is the prefixes that Python's ipaddress makes of it."""
        choice = random.Random(88)
        for number in range(12):
            (_, old), (_, new) = self.random_sides(choice, number)
            for more in (["--by", "hop"], BY_ROUTE, BY_NAME, [*BY_ROUTE, "--json"], ["--json"]):
                ranges = self.yarib("diff", *more, *of_both(old, new))
                self.assertEqual(ranges.returncode, 1 if number else 0)
                wanted = "".join(map(as_prefixes, ranges.stdout.splitlines(keepends=True)))
                self.assert_prints(["diff", "--prefixes", *more, *of_both(old, new)], wanted, "", ranges.returncode,
                                   name=f"{' '.join(more)}, {number} routes")

    def test_options(self):
        self.assert_misused("diff --prefixes --prefixes row.feed -- row.feed", "--prefixes")
        self.assert_misused("table --prefixes row.feed", "--prefixes")


def as_prefixes(line):
    """The lines of the prefixes of a range, from the line of the range."""
    first, last = re.findall(r"\d+\.\d+\.\d+\.\d+", line)[:2]
    head = f'"first":"{first}","last":"{last}"' if line[0] == "{" else f"{first}-{last}"
    form = '"prefix":"{}"' if line[0] == "{" else "{}"
    made = ipaddress.summarize_address_range(ipaddress.ip_address(first), ipaddress.ip_address(last))
    return "".join(line.replace(head, form.format(prefix), 1) for prefix in made)


class Counts(DiffCase):
    # Catches a range that is counted twice or not at all, the number of ranges in place of that of addresses, a pair of
    # next hops with two lines, another order of these, and another kind of change.
    def test_random_tables(self):
        """What Python counts in the lines of the same command without --count: all ranges, each kind of change and each
        pair of next hops."""
        choice = random.Random(89)
        for number in range(12):
            (_, old), (_, new) = self.random_sides(choice, number, discards=("old", "new"))
            for more in ([], BY_ROUTE, BY_NAME):
                ranges = self.yarib("diff", *more, *of_both(old, new))
                for form in ([], ["--json"]):
                    wanted = counts_of_changes(ranges.stdout, bool(form))
                    words = ["diff", "--count", *more, *form, *of_both(old, new)]
                    name = f"{' '.join(words[1:-5])}, {number} routes"
                    self.assert_prints(words, wanted, "", ranges.returncode, name=name)

    def test_options(self):
        for both in ("--count --prefixes", "--prefixes --json --count"):
            self.assert_refused(f"diff {both} missing -- missing", "only one of --prefixes and --count may be given")
        self.assert_misused("diff --count --count row.feed -- row.feed", "--count")


def counts_of_changes(lines, as_json):
    """The counts of the ranges in the lines of a comparison, as lines or as JSON objects."""
    kinds, pairs = {}, {}
    for line in lines.splitlines():
        addresses, answers = line.split(" ", 1)
        first, last = (int(ipaddress.ip_address(word)) for word in addresses.split("-"))
        pair = tuple(map(hop_in, answers.split(" -> ")))
        for counts, key in ((kinds, change_of(*pair)), (pairs, pair)):
            number, size = counts.get(key, (0, 0))
            counts[key] = number + 1, size + last + 1 - first
    rows = [("", {}, tuple(map(sum, zip(*pairs.values()))) or (0, 0))]
    rows += [(f"change {kind} ", {"change": kind}, kinds[kind]) for kind in KINDS if kind in kinds]
    for pair in sorted(pairs, key=lambda pair: tuple(map(place_of, pair))):
        old, new = pair
        answers = {"old": answer_object(old, None), "new": answer_object(new, None)}
        rows.append((f"hops {old} -> {new} ", answers, pairs[pair]))
    if as_json:
        return "".join(json_text(start | {"ranges": number, "addresses": size}) + "\n"
                       for _, start, (number, size) in rows)
    return "".join(f"{start}ranges {number} addresses {size}\n" for start, _, (number, size) in rows)


def hop_in(answer):
    """The next hop of an answer, as `diff` prints it without `--by route`."""
    return "discard" if answer.endswith("discard") else " ".join(answer.split()[-2:])


def place_of(hop):
    """The place of a next hop in the order of the counts."""
    return -2 if hop == "no route" else -1 if hop == "discard" else int(ipaddress.ip_address(hop.split()[1]))


def change_of(old, new):
    """The kind of change from one next hop to another one."""
    if old == new:
        return KINDS[5]
    if new == "discard":
        return KINDS[3]
    if "no route" in (old, new):
        return KINDS[1 if old == "no route" else 2]
    return KINDS[4 if old == "discard" else 0]


# Catches a comparison that pairs feeds by number instead of name: `a file that one side lacks`.
class Names(DiffCase):
    """Feeds whose files have another order on the other side, or are missing there: feeds with the same name are the
    same feed."""

    def test_random_feeds(self):
        choice = random.Random(64)
        for number in range(12):
            sides = []
            for side in ("older", "newer"):
                names = choice.sample(("a", "b", "c", "d"), choice.randint(1, 4))
                paths = [f"{side}/{name}.feed" for name in names]
                sides.append((self.random_feeds(choice, paths, named_route, number), paths, dict(enumerate(names, 1))))
            (old, old_paths, old_names), (new, new_paths, new_names) = sides
            for by in ("hop", "route"):
                wanted = differences_text(old, new, by, (old_names, new_names))
                words = ["diff", "--names", "--by", by, *of_both(old_paths, new_paths)]
                self.assert_prints(words, wanted, "", 1 if wanted else 0, name=f"by {by}, {number} routes")

    def write_three(self):
        for side in ("older", "newer"):
            for hop, name in enumerate(("one", "two", "three"), 1):
                self.write({f"{side}/{name}.feed": f"add 1{hop - 1}.0.0.0/8 5 192.0.2.{hop}\n"})

    def test_file_that_one_side_lacks(self):
        self.write_three()
        both = "older/one.feed older/two.feed older/three.feed -- newer/two.feed newer/three.feed"
        gone = f"10.0.0.0-10.255.255.255 {shown(('10.0.0.0/8', 'one', 5, '192.0.2.1'))} -> no route\n"
        self.assert_prints(f"diff --by route --names {both}", gone, "", 1)
        self.assertEqual(self.yarib(*f"diff --by route {both}".split()).stdout.count("\n"), 3, "by its number")
        one = members(("10.0.0.0/8", 1, 5, "192.0.2.1"), name="one", file="older/one.feed")
        self.assert_prints(f"diff --by route --names --json {both}", json_text(
            {"first": "10.0.0.0", "last": "10.255.255.255", "old": one, "new": None}) + "\n", "", 1)

    def test_own_number_and_file_of_each_side(self):
        self.write_three()
        moved = "diff --by route --names --json older/one.feed older/two.feed -- newer/three.feed newer/two.feed"
        found = [json.loads(line) for line in self.stdout(*moved.split()).splitlines()]
        one = members(("10.0.0.0/8", 1, 5, "192.0.2.1"), name="one", file="older/one.feed")
        three = members(("12.0.0.0/8", 1, 5, "192.0.2.3"), name="three", file="newer/three.feed")
        self.assertEqual([(each["old"], each["new"]) for each in found], [(one, None), (None, three)])

    def test_refused_names(self):
        self.write({"older/one.feed": ROW, "newer/one.feed": ROW, "a b.feed": ROW})
        for side in ("older/one.feed newer/one.feed -- row.feed", "row.feed -- older/one.feed newer/one.feed"):
            self.assert_refused(f"diff --names {side}", "two feeds with the same name (rename a file, or leave out "
                                "--names): older/one.feed, newer/one.feed")
        self.assert_refused(["diff", "--names", "row.feed", "--", "a b.feed"],
                            "no valid feed name (rename the file, or leave out --names): a b.feed")

"""Tests what is read of the output of `yarib`: each faulty line is refused by its number and its fault, ranges go up to the
last address, and a line is read whole wherever the pieces of the input end."""
import io
import json
from unittest import mock

from dev.testing import TestCase
from map.tests.pages import BY_ROUTE, END, JSON_RANGE, JSON_ROW, NAMED_ROW, PIECES, RANGE, ROW, row
from map.yarib_map import reading

# what no name may have: a control character, one of C1, and those that change the direction of the text around them
REFUSED_MARKS = ("\x01", "\x7f", "\x85", "\x9b", "\u061c", "\u200e", "\u200f", "\u202a", "\u202e", "\u2066", "\u2069")
# values of JSON that aren't an answer of a comparison
NO_ANSWERS = ("7", "[]", "{}", "true", '"x"', '"no route"', '{"via":7}')
NO_ROW, NO_RANGE = "line {} is not output of `yarib table --best`", "line {} is not output of `yarib diff`"
IN_ORDER = "is not in the order of a table"
MIXED = "line 2: some answers are next hops and some are routes"
VIA = '"via":"192.0.2.1"'
# The maximum number of feeds of a table, and of bytes of a path that the system accepts.
FEEDS_OF_A_SIDE, LONGEST_PATH = 64, 4096
# Input that is refused, with a part of the message.
REFUSED_TABLES = {
    "the table's line of run": ("table 0\n", "line 1: 'table' is not a prefix"),
    "a reply of run": ("1:1 added\n", "line 1: '1:1' is not a prefix"),
    "an empty line": (ROW + "\n", "line 2: '' is not a prefix"),
    "a prefix without a route": (ROW + "11.0.0.0/8\n", NO_ROW.format(2)),
    "a space after a row": (ROW + row("11.0.0.0/8", via="192.0.2.1 "), NO_ROW.format(2)),
    "a carriage return after a row": (ROW + row("11.0.0.0/8", via="192.0.2.1\r"), NO_ROW.format(2)),
    "a number with a leading zero": (ROW + row("11.0.0.0/8", number="01"), NO_ROW.format(2)),
    "a negative number": (ROW + row("11.0.0.0/8", number="-1"), NO_ROW.format(2)),
    "no feed": (ROW + row("11.0.0.0/8", feed=""), NO_ROW.format(2)),
    "a feed with a space": (ROW + row("11.0.0.0/8", feed="a b"), NO_ROW.format(2)),
    "a feed with a control character": (ROW + row("11.0.0.0/8", feed="a\x01b"), NO_ROW.format(2)),
    "a feed with the replacement character": (ROW + row("11.0.0.0/8", feed="a\ufffdb"), NO_ROW.format(2)),
    "too many feeds": ("".join(row(f"10.0.0.{host}/32", feed=host) for host in range(reading.MAX_FEEDS + 1)),
                       f"line {reading.MAX_FEEDS + 1}: '{reading.MAX_FEEDS}' exceeds the maximum of {reading.MAX_FEEDS} feeds"),
    "an object twice": (JSON_ROW + JSON_ROW, "line 2: 10.0.0.0/8 occurs again"),
    "an object whose feed is text": (JSON_ROW.replace('"feed":1,', '"feed":"1",'), NO_ROW.format(1)),
    "an object whose feed is true": (JSON_ROW.replace('"feed":1,', '"feed":true,'), NO_ROW.format(1)),
    "an object with a fraction": (JSON_ROW.replace(":0,", ":0.5,"), NO_ROW.format(1)),
    "an object without a next hop": (JSON_ROW.replace(VIA, '"via":null'), NO_ROW.format(1)),
    "an object with a next hop and discard": (JSON_ROW.replace(VIA, f'{VIA},"discard":true'), NO_ROW.format(1)),
    "an object with another member": (JSON_ROW.replace('"file"', '"place"'), NO_ROW.format(1)),
    "an object that isn't closed": (JSON_ROW.replace("}", ""), NO_ROW.format(1)),
    "an object whose next hop is a number": (JSON_ROW.replace(VIA, '"via":7'), NO_ROW.format(1)),
    "5000 nested objects": ('{"prefix":' * 5000 + "\n", NO_ROW.format(1)),
    **{f"a feed with {mark!a}": (ROW + row("11.0.0.0/8", feed=f"a{mark}b"), NO_ROW.format(2)) for mark in REFUSED_MARKS},
    **{f"an object whose name has {mark!a}": (JSON_ROW + NAMED_ROW.replace('"a"', json.dumps(f"a{mark}")), NO_ROW.format(2))
       for mark in REFUSED_MARKS},
    "an object of summaries": ('{"routes":1,"prefixes":1}\n', NO_ROW.format(1)),
    "a number that is too high": (ROW + row("11.0.0.0/8", number=4294967296), "has a number that is too high"),
    "a next hop with 256": (ROW + row("11.0.0.0/8", via="192.0.2.256"), "line 2: '192.0.2.256' is not an address"),
    "a next hop with a leading zero": (ROW + row("11.0.0.0/8", via="192.0.2.01"), "line 2: '192.0.2.01' is not an address"),
    "a bit past the length": (ROW + row("11.0.0.1/8"), "line 2: '11.0.0.1/8' is not a prefix: a bit is set past its length"),
    "a length of 33": (ROW + row("11.0.0.0/33"), "line 2: '11.0.0.0/33' is not a prefix"),
    "a length with a leading zero": (ROW + row("11.0.0.0/08"), "line 2: '11.0.0.0/08' is not a prefix"),
    "a prefix of three bytes": (ROW + row("11.0.0/8"), "line 2: '11.0.0/8' is not a prefix"),
    "a row twice": (ROW + ROW, "line 2: 10.0.0.0/8 occurs again"),
    "a lower prefix after a higher one": (ROW + row("9.0.0.0/8"), f"line 2: 9.0.0.0/8 {IN_ORDER}"),
    "a shorter prefix after a longer one": (ROW + row("10.0.0.0/7"), f"line 2: 10.0.0.0/7 {IN_ORDER}"),
    "no line end": (ROW + ROW.strip(), "line 2 has no line end (LF), so the input is truncated"),
    "compressed input": (ROW + "\x1f\x8b\x08\n", "line 2: '\\x1f"),
    "a long line, which is shown cut": (ROW + "x" * 1000 + "\n", f"line 2: '{'x' * 100}' is not a prefix"),
    "a line that is too long": (ROW + "x" * 100000, "line 2 is too long"),
    "a range": (RANGE, "line 1: '10.0.0.0-10.0.0.9' is not a prefix"),
    "a total that is too high": (ROW + "total 2\n", "line 2: the table should have 2 rows and has 1"),
    "an object's total that is too low": (JSON_ROW + '{"total":0}\n', "line 2: the table should have 0 rows and has 1"),
    "a row after the total": (ROW + "total 1\n" + row("11.0.0.0/8"),
                              "line 3: there is more after the table's last line: '11.0.0.0/8 feed 1"),
    "a total after the total": (ROW + "total 1\ntotal 1\n", "line 3: there is more after the table's last line: 'total 1'"),
    "a space after the total": (ROW + "total 1 \n", "line 2: 'total' is not a prefix"),
    "a total with another member": (JSON_ROW + '{"total":1,"prefixes":1}\n', NO_ROW.format(2)),
}
REFUSED_COMPARISONS = {
    "a row of a table": (ROW, NO_RANGE.format(1)),
    "an empty line": (RANGE + "\n", NO_RANGE.format(2)),
    "a range with one answer": (RANGE + "10.0.1.0-10.0.1.9 via 192.0.2.1\n", NO_RANGE.format(2)),
    "a single address": (RANGE + "10.0.1.0 via 192.0.2.1 -> no route\n", NO_RANGE.format(2)),
    "a prefix": (RANGE + "10.0.1.0/24 via 192.0.2.1 -> no route\n", "line 2: this is a prefix and not a range"),
    "an object of a prefix": (JSON_RANGE + '{"prefix":"10.0.1.0/24","old":null,"new":{"via":"192.0.2.1"}}\n',
                              "line 2: this is a prefix and not a range"),
    "an unknown answer": (RANGE + "10.0.1.0-10.0.1.9 via 192.0.2.1 -> nowhere\n", "line 2: 'nowhere' is not a prefix"),
    "discard as a next hop": (RANGE + "10.0.1.0-10.0.1.9 via discard -> no route\n", "line 2: 'via discard' is not an answer"),
    "an address with 256": (RANGE + "10.0.1.0-10.0.1.256 via 192.0.2.1 -> no route\n", "line 2: '10.0.1.256' is not an address"),
    "a range that ends before it begins": (RANGE + "10.0.1.9-10.0.1.0 discard -> no route\n",
                                           "line 2: the range ends at 10.0.1.0, before it begins"),
    "a range twice": (RANGE + RANGE, "line 2: the range begins at 10.0.0.0, before the end of the previous range"),
    "a range that begins in the previous one": (RANGE + "10.0.0.9-10.0.0.9 discard -> no route\n",
                                                "line 2: the range begins at 10.0.0.9"),
    "discard twice": (RANGE + "10.0.1.0-10.0.1.9 discard -> discard\n", "line 2: both answers are the same"),
    "a route after a next hop": (RANGE + "10.0.1.0-10.0.1.9 no route -> " + row("10.0.1.0/24", via="discard"), MIXED),
    "discard after a route": (BY_ROUTE + "10.0.1.0-10.0.1.9 no route -> discard\n", MIXED),
    "a range that its prefix doesn't cover": (BY_ROUTE + "10.0.1.0-10.0.2.9 no route -> " + row("10.0.1.0/24", via="discard"),
                                              "line 2: the range isn't within the prefix of its answer"),
    "a route with a letter for a number": (
        BY_ROUTE + "10.0.1.0-10.0.1.9 no route -> " + row("10.0.1.0/24", number="x", via="discard"), NO_RANGE.format(2)),
    "no line end": (RANGE.strip(), "line 1 has no line end (LF), so the input is truncated"),
    "an object's range twice": (JSON_RANGE + JSON_RANGE,
                                "line 2: the range begins at 10.0.0.0, before the end of the previous range"),
    "an object with the same answers": (JSON_RANGE.replace("null", '{"via":"192.0.2.1"}'), "line 1: both answers are the same"),
    "an object whose next hop is null": (JSON_RANGE.replace("null", '{"via":null}'), NO_RANGE.format(1)),
    "an object whose discard is false": (JSON_RANGE.replace("null", '{"via":null,"discard":false}'), NO_RANGE.format(1)),
    "an object with another member": (JSON_RANGE.replace('"last"', '"end"'), NO_RANGE.format(1)),
    **{f"an object whose answer is {value}": (JSON_RANGE.replace("null", value), NO_RANGE.format(1)) for value in NO_ANSWERS},
    "an object of an answer": ('{"old":"x"}\n', NO_RANGE.format(1)),
    "an object of a next hop and a route": (JSON_RANGE.replace("null", JSON_ROW.strip()), MIXED.replace("2", "1")),
}
# Inputs with the first address of each range that is read.
FIRSTS = {
    "a row that ends shortly before the last address": (reading.read_table, row("255.255.255.0/25"), [0, END - 256, END - 128]),
    "a row of the last address but one": (reading.read_table, row("255.255.255.254/32"), [0, END - 2, END - 1]),
    "a row of all addresses": (reading.read_table, row("0.0.0.0/0"), [0]),
    "a row of all addresses, and the total": (reading.read_table, row("0.0.0.0/0") + "total 1\n", [0]),
    "an object, and the total as an object": (reading.read_table, JSON_ROW + '{"total":1}\n', [0, 10 << 24, 11 << 24]),
    "a total of 0": (reading.read_table, "total 0\n", [0]),
    "a range that ends shortly before the last address": (
        reading.read_diff, "255.255.255.0-255.255.255.9 no route -> discard\n", [0, END - 256, END - 246]),
    "a range of the last address but one": (
        reading.read_diff, "255.255.255.254-255.255.255.254 no route -> discard\n", [0, END - 2, END - 1]),
    "a range of all addresses": (reading.read_diff, "0.0.0.0-255.255.255.255 no route -> discard\n", [0]),
}
SIZES = (1, 2, 3, 7, 64, 65, len(PIECES.encode()) - 1, len(PIECES.encode()))


def read_table(text):
    """Returns what is read of a table."""
    return reading.read_table(io.BytesIO(text.encode()))


class Reading(TestCase):
    """What is read, and what is refused."""

    def assert_refused(self, read, text, part):
        """Fails unless the text is refused by the number of a line, with this part of the message."""
        with self.assertRaises(reading.Refused) as raised:
            read(io.BytesIO(text.encode()))
        self.assertRegex(str(raised.exception), "^line ")
        self.assertIn(part, str(raised.exception))

    def test_refused_tables(self):
        for name, (text, part) in REFUSED_TABLES.items():
            with self.subTest(name):
                self.assert_refused(reading.read_table, text, part)

    def test_refused_comparisons(self):
        for name, (text, part) in REFUSED_COMPARISONS.items():
            with self.subTest(name):
                self.assert_refused(reading.read_diff, text, part)

    def test_first_addresses(self):
        """The ranges go up to the last address, wherever the last row ends."""
        for name, (read, text, firsts) in FIRSTS.items():
            with self.subTest(name):
                self.assertEqual(list(read(io.BytesIO(text.encode())).firsts), firsts)

    def test_most_feeds_and_highest_numbers(self):
        rows = [row(f"10.0.{number}.0/24", feed=number + 1, number=END - 1) for number in range(2 * FEEDS_OF_A_SIDE)]
        found = read_table("".join(rows))
        self.assertEqual(len(found.feeds.texts), 2 * FEEDS_OF_A_SIDE + 1)
        self.assertEqual(set(found.sides[""].numbers["pref"]), {0, END - 1})

    def test_longest_path(self):
        """The longest path of a file is read, each of whose bytes takes six in JSON."""
        with mock.patch.object(reading, "BLOCK", 4096):
            found = read_table(JSON_ROW.replace('"a.feed"', json.dumps("\x01" * LONGEST_PATH)))
        self.assertEqual(found.rows, 1)

    def test_pieces(self):
        """A line is read whole wherever the pieces of the input end."""
        whole = read_table(PIECES)
        for size in SIZES:
            with self.subTest(f"pieces of {size} bytes"), mock.patch.object(reading, "BLOCK", size):
                found = read_table(PIECES)
                self.assertEqual([found.firsts, found.feeds.texts, found.sides[""].feeds, found.rows],
                                 [whole.firsts, whole.feeds.texts, whole.sides[""].feeds, whole.rows])
        self.assertEqual(whole.feeds.texts, ["no route", *(f"p\N{SNOWMAN}{number}" for number in range(5))])

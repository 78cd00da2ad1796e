"""Tests of tables as text and CSV: the routes of a daemon's table give the same feeds as that table; and cases by hand."""
import csv
import io
import json

from convert.tests.converting import COMMAND_LINE, ConverterCase, sample

TABLE = "ranks/openbgpd.json"
NAMED = "--separator ; --header --prefix dst --next-hop gw"


def routes():
    """Yields the routes of a table of OpenBGPD, which lists them in the order of its choice."""
    for path in json.loads(sample(TABLE))["rib"]:
        yield path["prefix"], path["exit_nexthop"], path["neighbor"]["remote_addr"]


class SameTable(ConverterCase):
    """The routes of a daemon's table as text give the same feeds as the daemon's table."""

    def setUp(self):
        self.expected = self.convert_sample("openbgpd-to-feeds", TABLE).text

    def test_columns(self):
        text = "# a comment\n\n" + "".join(f"{prefix}\t{hop}  {peer}\n" for prefix, hop, peer in routes())
        self.assertEqual(self.converted("text-to-feeds", text).text, self.expected)

    def test_names_of_columns(self):
        text = io.StringIO()
        writer = csv.writer(text, delimiter=";", lineterminator="\n")
        writer.writerow(("peer", "about", "gw", "dst"))
        writer.writerows((peer, 'a "quoted; text"', hop, prefix) for prefix, hop, peer in routes())
        self.assertEqual(self.converted(f"text-to-feeds {NAMED} --source peer", text.getvalue()).text, self.expected)

    def test_metrics(self):
        """In another order, metrics give the ranks."""
        lines = [f"{number} {' '.join(route)}\n" for number, route in enumerate(routes())]
        ended = self.convert("text-to-feeds --prefix 2 --next-hop 3 --source 4 --metric 1", "".join(reversed(lines)))
        self.assertEqual(sorted(ended.text.splitlines()), sorted(self.expected.splitlines()))


class ByHand(ConverterCase):
    """Tables that were written by hand."""

    def test_no_column_of_sources(self):
        """Without a column of sources the source is `table`, however columns are separated and named."""
        for name, options, text in (
            ("blanks", "", "10.0.0.0/8 192.0.2.1\n10.1.0.0/16 192.0.2.2\n"),
            ("separator", "--separator ,", "10.0.0.0/8,192.0.2.1\n10.1.0.0/16,192.0.2.2\n"),
            ("header", "--separator , --header", "dst,gw\n10.0.0.0/8,192.0.2.1\n10.1.0.0/16,192.0.2.2\n"),
            ("names", NAMED, "gw;peer;dst\n192.0.2.1;a;10.0.0.0/8\n192.0.2.2;b;10.1.0.0/16\n"),
            ("numbers", "--prefix 2 --next-hop 1", "192.0.2.1 10.0.0.0/8 a\n192.0.2.2 10.1.0.0/16 b\n"),
            ("names and a metric", f"{NAMED} --metric peer", "gw;peer;dst\n192.0.2.1;4;10.0.0.0/8\n192.0.2.2;5;10.1.0.0/16\n"),
        ):
            with self.subTest(name):
                ended = self.converted(f"text-to-feeds {options}", text)
                self.assertEqual(ended.stderr, "accepted 2 routes; omitted nothing\n")
                self.assertEqual(ended.feeds, {"table.feed": "version 2\nadd 10.0.0.0/8 1 192.0.2.1\nadd 10.1.0.0/16 1 192.0.2.2\n"})

    def test_discard(self):
        """The next hop `discard` is one, in any column, beside others."""
        feeds = {"a.feed": "version 2\nadd 10.0.0.0/8 1 discard\nadd 10.1.0.0/16 2 discard\n",
                 "b.feed": "version 2\nadd 10.1.0.0/16 1 192.0.2.2\n"}
        for name, options, text in (
            ("blanks", "", "10.0.0.0/8 discard a\n10.1.0.0/16 192.0.2.2 b\n10.1.0.0/16 discard a\n"),
            ("names", f"{NAMED} --source peer", "peer;gw;dst\na;discard;10.0.0.0/8\nb;192.0.2.2;10.1.0.0/16\na;discard;10.1.0.0/16\n"),
        ):
            with self.subTest(name):
                self.assertEqual(self.converted(f"text-to-feeds {options}", text).feeds, feeds)
        self.assert_refused(self.convert("text-to-feeds", "10.0.0.0/8 Discard\n"), "line 1: 'Discard' is not an address")


class Refusals(ConverterCase):
    """Input and options that are refused in one line."""

    def test_by_hand(self):
        for name, options, text, part in (
            ("one column", "", "10.0.0.0/8\n", "line 1: it has 1 columns"),
            ("no address", "", "10.0.0.0/8 192.0.2\n", "line 1: '192.0.2' is not an address"),
            ("no prefix", "", "# a\n10.0.0.1/8 192.0.2.1\n", "line 2: '10.0.0.1/8' is not a prefix"),
            ("no metric", "--metric 3", "10.0.0.0/8 192.0.2.1 x\n", "line 1: 'x' is not a metric"),
            ("no such column", "--separator , --header --prefix to", "dst,gw\n10.0.0.0/8,192.0.2.1\n",
             "line 1: there is no column 'to'; there are: dst, gw"),
            ("IPv6 next hop", "", "10.0.0.0/8 fe80::1\n", "has an IPv6 next hop (fe80::1)"),
            ("no routes", "", "# nothing\n", "accepted 0 routes"),
        ):
            with self.subTest(name):
                self.assert_refused(self.convert(f"text-to-feeds {options}", text), part)

    def test_options(self):
        for options in ("--separator ,,", "--prefix dst"):
            with self.subTest(options):
                ended = self.convert(f"text-to-feeds {options}", b"")
                self.assertEqual(ended.returncode, COMMAND_LINE)
                self.assertIn("text-to-feeds: error: ", ended.stderr)

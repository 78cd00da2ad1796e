"""Tests of GoBGP's tables: samples, ranks, and cases by hand."""
import json

from convert.tests.conversions import GOBGP, GOBGP_RANKS, add_conversions
from convert.tests.converting import OTHERWISE, ConverterCase, add_refusals, sample

NEEDS = {"program"}
REFUSALS = (
    ("", "gobgp/empty.json", "use `gobgp neighbor X local -j` for the table of its client X"),
    ("", "gobgp/error.json", "gobgp reports an error instead of a table: context deadline exceeded"),
    ("", "kernel/routes.json", "not JSON of `gobgp global rib -j`: an object was expected"),
    ("", "frr/bgp.json", "a list of the paths"),
)
OTHER_CHOICE = "in {} of {} prefixes the daemon's choice isn't what these rules give: the next ranks may differ"


def path(peer, is_best):
    """Returns a path of a peer, as `gobgp global rib -j` shows it."""
    shown = {"neighbor-ip": f"127.0.0.{peer}", "attrs": [{"type": 3, "nexthop": f"192.0.2.{peer}"}]}
    return shown | {"best": True} if is_best else shown


class Samples(ConverterCase):
    """What GoBGP printed gives the kept feeds, and GoBGP's answers."""


class ByHand(ConverterCase):
    """Tables that were written or changed by hand."""

    def test_paths_without_peers(self):
        """A path with an AS path and without a peer is refused, as if a later GoBGP named peers in another way."""
        data = sample("debian-sid/ranks/gobgp.json").replace(b'"peer-address"', b'"peer"')
        self.assert_refused(self.convert("gobgp-to-feeds", data), "a path to 10.0.0.0/16 has an AS path and no peer "
                            "('neighbor-ip' or 'peer-address'): if GoBGP made it itself")
        own = self.converted("gobgp-to-feeds --own-paths", data)
        self.assertEqual(own.text[:14], "== local.feed\n")

    def test_choice_that_is_not_listed_first(self):
        """The prefixes whose choice isn't listed first are counted, since the order of the others may be another, too."""
        for name, bests, told in (("all first", (1, 1), None), ("one second", (1, 2), (1, 2)), ("both second", (2, 2), (2, 2))):
            with self.subTest(name):
                table = {f"10.{second}.0.0/16": [path(peer, peer == best) for peer in (1, 2)] for second, best in enumerate(bests)}
                ended = self.converted("gobgp-to-feeds", json.dumps(table).encode(), returncode=OTHERWISE if told else 0)
                self.assertEqual("prefixes the daemon's choice" in ended.stderr, told is not None)
                self.assertIn(OTHER_CHOICE.format(*told) if told else "accepted 4 routes; omitted nothing\n", ended.stderr)
                first = {prefix: f"add {prefix} 1 192.0.2.{best}\n" for prefix, best in zip(table, bests)}
                self.assertEqual([line in ended.text for line in first.values()], [True, True])


class Refusals(ConverterCase):
    """Input that is refused in one line; nothing is changed."""

    def test_second_table(self):
        """A second table behind the first, or GoBGP's error, is refused."""
        table = json.dumps({"10.0.0.0/8": [path(1, True)]}).encode()
        for name, more in (("table", table), ("empty table", b"{}"), ("error", b"context deadline exceeded")):
            with self.subTest(name):
                self.assert_unchanged("gobgp-to-feeds", table + b"\n" + more, "line 2")


add_conversions(Samples, GOBGP, GOBGP_RANKS)
add_refusals(Refusals, "gobgp-to-feeds", REFUSALS)

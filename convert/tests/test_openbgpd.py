"""Tests of OpenBGPD's tables: samples, ranks, and cases by hand."""
import json

from convert.tests.conversions import MARKS, OPENBGPD, OPENBGPD_RANKS, add_conversions
from convert.tests.converting import OTHERWISE, ConverterCase, add_refusals, sample

NEEDS = {"program"}
REFUSALS = (
    ("--discard-community 65000:666", "openbgpd/blackhole-detail.json", "no route has a community of"),
    (MARKS, "openbgpd/blackhole.json", "`bgpctl -j show rib detail` shows communities"),
    ("", "openbgpd/empty.json", "the table is empty: OpenBGPD has no routes"),
    ("", "frr/bgp.json", "'rib' is missing"),
)
OTHER_CHOICE = "in {} of {} prefixes the daemon's choice isn't what these rules give: the next ranks may differ"
SAME_SOURCE = b"""{"rib":[
{"prefix":"10.0.0.0/8","neighbor":{"remote_addr":"192.0.2.1"},"exit_nexthop":"192.0.2.8","valid":true,"best":true,"localpref":9},
{"prefix":"10.0.0.0/8","neighbor":{"remote_addr":"192.0.2.1"},"exit_nexthop":"192.0.2.7","valid":true,"localpref":9}]}
"""
# a community that is a list, and not a text
LISTED = (b'{"rib":[{"prefix":"10.0.0.0/8","valid":true,"best":true,"neighbor":{},"exit_nexthop":"192.0.2.1","localpref":1,'
          b'"communities":[["1:1"]]}]}')


def path(prefix, peer, is_best):
    """Returns a path of a peer, as `bgpctl -j show rib` shows it."""
    shown = {"prefix": prefix, "neighbor": {"remote_addr": f"127.0.0.{peer}"}, "exit_nexthop": f"192.0.2.{peer}", "valid": True,
             "localpref": 100}
    return shown | {"best": True} if is_best else shown


class Samples(ConverterCase):
    """What OpenBGPD printed gives the kept feeds, and OpenBGPD's answers."""

    def test_next_hops_found_by_routes_of_others(self):
        """A next hop that OpenBGPD finds by another peer's route is reported. OpenBGPD 7 shows its own address for each next
        hop on a network of its own, which isn't reported."""
        told = "1 next hops (10.0.0.9) of 127.0.0.25 are found by routes of 127.0.0.21: without 127.0.0.21 the daemon finds others"
        for release in ("debian-13", "debian-sid"):
            with self.subTest(release):
                self.assertIn(told, self.converted("openbgpd-to-feeds", sample(f"{release}/ranks/openbgpd-found.json")).stderr)
        self.assertNotIn("found by", self.converted("openbgpd-to-feeds", sample("openbgpd/rib.json")).stderr)

    def test_chain_of_next_hops(self):
        """A next hop that is found by a route whose own next hop is found by another is reported with both sources. When
        the second had ended, OpenBGPD found another way to each of these next hops."""
        told = self.convert_sample("openbgpd-to-feeds", "debian-13/ranks/openbgpd-chain.json").stderr
        self.assertEqual([line.partition(": ")[0] for line in told.splitlines()[1:]], [
            "2 next hops (10.0.0.9, 10.1.0.9) of 127.0.0.22, 127.0.0.25 are found by routes of 127.0.0.21",
            "1 next hops (10.1.0.9) of 127.0.0.25 are found by routes of 127.0.0.22"])
        found = [{path["exit_nexthop"]: path["true_nexthop"] for path in json.loads(sample(f"debian-13/ranks/{name}.json"))["rib"]}
                 for name in ("openbgpd-chain", "openbgpd-chain-1")]
        self.assertEqual([(one["10.0.0.9"], one["10.1.0.9"]) for one in found], [("192.0.2.21",) * 2, ("192.0.2.23",) * 2])


class ByHand(ConverterCase):
    """Tables that were written by hand."""

    def test_first_route_of_a_source(self):
        ended = self.convert("openbgpd-to-feeds", SAME_SOURCE)
        self.assertEqual(ended.text, "== 192.0.2.1.feed\nversion 2\nadd 10.0.0.0/8 1 192.0.2.8\n")

    def test_choice_that_is_not_listed_first(self):
        """The prefixes whose choice isn't listed first are counted, since the order of the others may be another, too."""
        for name, bests, told in (("all first", (1, 1), None), ("one second", (1, 2), (1, 2)), ("both second", (2, 2), (2, 2))):
            with self.subTest(name):
                paths = [path(f"10.{second}.0.0/16", peer, peer == best) for second, best in enumerate(bests) for peer in (1, 2)]
                ended = self.converted("openbgpd-to-feeds", json.dumps({"rib": paths}).encode(), returncode=OTHERWISE if told else 0)
                self.assertEqual("prefixes the daemon's choice" in ended.stderr, told is not None)
                self.assertIn(OTHER_CHOICE.format(*told) if told else "accepted 4 routes; omitted nothing\n", ended.stderr)
                for second, best in enumerate(bests):
                    self.assertIn(f"add 10.{second}.0.0/16 1 192.0.2.{best}\n", ended.text)


class Refusals(ConverterCase):
    """Input that is refused in one line; nothing is changed."""

    def test_community_that_is_a_list(self):
        self.assert_unchanged("openbgpd-to-feeds --discard-community 1:1", LISTED, "no route has a community of")

    def test_second_table(self):
        """A second table behind the first is refused."""
        for name, more in (("table", SAME_SOURCE), ("empty table", b"{}"), ("error", b"bgpctl: connect\n")):
            with self.subTest(name):
                self.assert_unchanged("openbgpd-to-feeds", SAME_SOURCE + more, "line 4")


add_conversions(Samples, OPENBGPD, OPENBGPD_RANKS)
add_refusals(Refusals, "openbgpd-to-feeds", REFUSALS)

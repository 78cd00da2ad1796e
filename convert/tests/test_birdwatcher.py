"""Tests of birdwatcher's listings of BIRD's tables: they give the feeds that BIRD's own listing gives.

No birdwatcher was at hand. What it would show is made of BIRD's real listings here, with the names that its documentation
has and values in the form that it takes from the listing (local preference and MED as text)."""
import json
import re

from convert.tests.conversions import BIRDWATCHER_RANKS, add_conversions
from convert.tests.converting import ConverterCase, add_tests, sample

NEEDS = {"program"}
LISTING = "debian-13/ranks/bird.txt"
FIRST = re.compile(r"(\S*) +unicast \[(\S+) (\S+)(?: from (\S+))?\](?: (\*))? \((\d+)[^)]*\).*")
VIA, DEVICE = re.compile(r"\tvia (\S+) on (\S+)"), re.compile(r"\tdev (\S+)")
BGP, TYPE = re.compile(r"\tBGP\.(\w+): ?(.*)"), re.compile(r"\tType: (.*)")
# the listings of BIRD, each with the options of both converters
LISTINGS = (
    (LISTING, ""), ("debian-13/ranks/bird-turn.txt", ""), ("debian-13/ranks/bird-path-all.txt", ""),
    ("debian-13/ranks/bird-turn.txt", "--deterministic-med"), (LISTING, "--always-compare-med"),
    ("debian-13/bird/unnumbered-all.txt", "--ipv6-hop 192.0.2.7"),
)
ROUTE = {"network": "10.0.0.0/8", "gateway": "192.0.2.1", "from_protocol": "a", "primary": True, "metric": 100}


def shown(listing):
    """Returns what birdwatcher shows of the output of `birdc show route all`."""
    routes = []
    for line in listing.splitlines():
        if match := FIRST.fullmatch(line):
            prefix, protocol, age, peer, primary, metric = match.groups()
            routes.append({"network": prefix or routes[-1]["network"], "gateway": "", "interface": "", "from_protocol": protocol,
                           "age": age, "learnt_from": peer or "", "primary": primary is not None, "metric": int(metric)})
        elif match := VIA.fullmatch(line):
            routes[-1] |= {"gateway": match[1], "interface": match[2]}
        elif match := DEVICE.fullmatch(line):
            routes[-1] |= {"interface": match[1]}
        elif match := TYPE.fullmatch(line):
            routes[-1]["type"] = match[1].split()
        elif match := BGP.fullmatch(line):
            value = match[2].split() if match[1] == "as_path" else match[2]
            routes[-1].setdefault("bgp", {})[match[1]] = value
    return {"api": {"Version": "2.2.6", "result_from_cache": False}, "ttl": "2026-11-29T09:20:39Z", "routes": routes}


class Samples(ConverterCase):
    """What birdwatcher shows of BIRD's listings gives BIRD's answers."""

    def test_sample_is_made_of_a_listing(self):
        self.assert_kept("by-hand/birdwatcher.json", json.dumps(shown(sample(LISTING).decode()), indent=0) + "\n")


def check_beside_bird(test, listing, options):
    """The same feeds, messages and status as those of BIRD's own listing, except for parts that only that shows."""
    found = test.convert(f"birdwatcher-to-feeds {options}", json.dumps(shown(sample(listing).decode())))
    returncode, notes, feeds = test.convert_sample(f"bird-to-feeds {options}", listing).result
    # --protocols is bird-to-feeds's
    notes = notes.replace("; --protocols FILE shows identifiers and internal sessions", "")
    test.assertEqual(found.result, (returncode, notes, feeds))


class ByHand(ConverterCase):
    """Listings that were written by hand."""

    def converted_routes(self, *routes, returncode=0):
        return self.converted("birdwatcher-to-feeds", json.dumps({"routes": routes}), returncode=returncode)

    def test_order_of_backups(self):
        """Behind BIRD's choice, routes that aren't BGP's are backups in the order of their preferences, the highest
        first."""
        for name, preferences, order in (("rising", (200, 90, 120, 150), "adcb"), ("falling", (200, 150, 120, 90), "abcd"),
                                         ("mixed", (200, 120, 150, 90), "acbd"), ("choice of the lowest", (80, 90, 150, 120), "acdb")):
            with self.subTest(name):
                routes = [ROUTE | {"from_protocol": protocol, "metric": metric, "primary": protocol == "a"}
                          for protocol, metric in zip("abcd", preferences)]
                ended = self.converted_routes(*routes)
                wanted = {f"{protocol}.feed": f"version 2\nadd 10.0.0.0/8 {rank} 192.0.2.1\n" for rank, protocol in enumerate(order, 1)}
                self.assertEqual((ended.stderr, ended.feeds), ("accepted 4 routes; omitted nothing\n", wanted))

    def test_prefix_of_ipv6(self):
        self.assertIn("omitted 1 of IPv6", self.converted_routes(ROUTE, ROUTE | {"network": "2001:db8::/32"}).stderr)

    def test_routes_of_one_preference(self):
        others = [ROUTE | {"primary": False, "from_protocol": name} for name in "bc"]
        self.assertIn("1 prefixes have routes that aren't BGP's with the same preference", self.converted_routes(ROUTE, *others).stderr)

    def test_refused(self):
        for name, document, told in (
            ("error", {"error": "bird unreachable"}, "birdwatcher reports an error instead of a table: bird unreachable"),
            ("no routes", {"api": {}}, "the member 'routes' is missing"),
            ("no primary route", {"routes": [ROUTE | {"primary": False}]}, "1 of prefixes without a primary route"),
            ("prefix twice", {"routes": [ROUTE, ROUTE | {"network": "10.0.0.0/9"}, ROUTE]}, "10.0.0.0/8 occurs twice"),
            ("metric", {"routes": [ROUTE | {"metric": "x"}]}, "metric is 'x', which is not a number"),
            ("origin", {"routes": [ROUTE | {"bgp": {"origin": "x"}}, ROUTE | {"primary": False, "bgp": {"origin": "IGP"}}]},
             "'x' is not an origin"),
        ):
            with self.subTest(name):
                ended = self.converted("birdwatcher-to-feeds", json.dumps(document), returncode=1)
                self.assertIn(told, ended.stderr)

    def test_second_listing(self):
        """A second listing behind the first is refused."""
        listing = json.dumps({"routes": [ROUTE]})
        for name, more in (("listing", listing), ("empty listing", "{}"), ("error", "bird unreachable\n")):
            with self.subTest(name):
                self.assert_unchanged("birdwatcher-to-feeds", f"{listing}\n{more}", "line 2")


add_conversions(Samples, (), BIRDWATCHER_RANKS)
add_tests(Samples, "beside BIRD", check_beside_bird, {f"{listing} {options}": (listing, options) for listing, options in LISTINGS})

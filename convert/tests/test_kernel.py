"""Tests of the kernel's routes (`ip -j route`): samples, and cases by hand."""
import json

from convert.tests.conversions import KERNEL, RULES, add_conversions
from convert.tests.converting import OTHERWISE, ConverterCase, add_refusals, sample

NEEDS = {"program"}
REFUSALS = (
    ("", "kernel/routes.txt", "not JSON"),
    ("", "kernel/all-tables.json", "several tables: 100, local, main"),
    ("", "kernel/throw.json", "type throw"),
    ("", "kernel/ipv6-hop.json", "--ipv6-hop"),
    ("", "frr/bgp.json", "a list was expected"),
    ("", "kernel/nexthop-numbers.json", "nexthop object 1 instead of a next hop, as with the sysctl "
     "net.ipv4.nexthop_compat_mode=0: use `ip -j nexthop > FILE` and --nexthops FILE"),
    ("--nexthops kernel/routes.json", "kernel/nexthop-numbers.json", "'id' is missing"),
    ("--nexthops kernel/routes.txt", "kernel/nexthop-numbers.json", "not JSON of `ip -j nexthop`"),
    ("--nexthops none.json", "kernel/nexthop-numbers.json", "none.json: No such file"),
    ("", "kernel/via.json", "10.0.0.0/9 and all other routes have neither a gateway nor the scope of connected"),
    ("--rules kernel/rules.json", "kernel/routes.json", "policy routing: the rule 10 leads to the table 100"),
    (f"{RULES} --table main", "by-hand/default-table.json", "the table `default` has routes (10.9.0.0/16)"),
    ("--rules kernel/own-routes.json", "kernel/routes.json", "leads to the table main"),
    ("--rules debian-13/kernel/rules-order.json", "kernel/routes.json",
     "policy routing: the rules lead to the tables local, default, main in this order"),
    ("--rules debian-13/kernel/rules-late.json", "kernel/routes.json",
     "policy routing: the rules lead to the tables main, local in this order"),
    ("--table main", "debian-13/kernel/default-table.json", "the table `default` has routes (default)"),
    ("--rules kernel/routes.txt", "kernel/routes.json", "not JSON of `ip -j rule`"),
)
ROUTE = {"dst": "10.1.0.0/16", "gateway": "192.0.2.1", "dev": "uplink", "flags": []}
# A route into a tunnel, as `ip -j route` prints it, and one that isn't.
TUNNEL = b"""[{"dst":"10.0.0.0/8","encap":"ip","id":0,"src":"0.0.0.0","dst":"192.0.2.77","ttl":0,"tos":0,"dev":"tun0","flags":[]},
{"dst":"10.1.0.0/16","gateway":"192.0.2.1","dev":"uplink","flags":[]}]
"""


class Samples(ConverterCase):
    """What `ip` printed gives the kept feeds, and the kernel's answers."""


class ByHand(ConverterCase):
    """Routes that were written by hand."""

    def test_route_into_a_tunnel(self):
        ended = self.converted("ip-to-feeds", TUNNEL, returncode=OTHERWISE)
        self.assertIn("omitted 1 that lead into a tunnel (encap)", ended.stderr)
        self.assertIn("add 10.1.0.0/16 1 192.0.2.1\n", ended.text)

    def test_default_of_ipv6_over_a_tunnel(self):
        """A default without a gateway is one of IPv6 if it has a router preference."""
        routes = [{"dst": "default", "dev": "wg0", "pref": "medium", "flags": []}, ROUTE]
        ended = self.converted("ip-to-feeds", json.dumps(routes).encode())
        self.assertEqual(ended.stderr, "accepted 1 routes; omitted 1 of IPv6 or of other tables\n")
        self.assertEqual(ended.feeds, {"boot.feed": "version 2\nadd 10.1.0.0/16 1 192.0.2.1\n"})


class Refusals(ConverterCase):
    """Input that is refused in one line; nothing is changed."""

    def test_by_hand(self):
        route = b'[{"dst":"10.0.0.0/8",%s"flags":[]}]'
        for name, options, data, part in (
            ("no next hop", "", route % b"", "10.0.0.0/8 has neither a next hop nor an interface"),
            ("empty next hops", "", route % b'"nexthops":[],', "10.0.0.0/8 has neither a next hop nor an interface"),
            ("null as a next hop", "", route % b'"nexthops":[null],', "line 1: an object was expected: null"),
            ("unknown nexthop object", "--nexthops kernel/nexthop-objects.json", route % b'"nhid":99,',
             "the nexthop object 99 of 10.0.0.0/8 is not in"),
        ):
            with self.subTest(name):
                self.assert_unchanged(f"ip-to-feeds {options}", data, part)

    def test_second_list(self):
        """A second list behind the first, as of two commands that write to one file, is refused."""
        for name, more in (("routes", json.dumps([ROUTE | {"dst": "10.2.0.0/16"}]).encode()), ("empty", b"[]"), ("text", b"Error\n")):
            with self.subTest(name):
                self.assert_unchanged("ip-to-feeds", json.dumps([ROUTE]).encode() + b"\n" + more, "line 2")


add_conversions(Samples, KERNEL)
add_refusals(Refusals, "ip-to-feeds", REFUSALS)

"""Tests of what pmacct's BGP and BMP daemons dump: samples and ranks, which are FRR's, and cases by hand."""
import json

from convert.tests.conversions import PMACCT_RANKS, add_conversions
from convert.tests.converting import OTHERWISE, ConverterCase, rows_of, sample

NEEDS = {"program"}
BGP, BMP = "debian-sid/ranks/pmacct.json", "debian-13/ranks/pmacct-bmp.json"


class Samples(ConverterCase):
    """What pmacct dumped gives FRR's answers."""

    def test_router_with_a_policy(self):
        """FRR's choice is the first rank, also where its policy sets local preferences, which BMP doesn't show; that is
        reported."""
        ended = self.converted("pmacct-to-feeds", sample("debian-13/ranks/pmacct-bmp-policy.json"), returncode=OTHERWISE)
        self.assertIn("in 17 of 36 prefixes the daemon's choice isn't what these rules give", ended.stderr)
        self.assert_answers(rows_of(ended.files), "debian-13/ranks/frr-bmp-policy-answers.txt")


class ByHand(ConverterCase):
    """Dumps that were changed by hand."""

    def test_routes_that_are_left_out(self):
        """Routes of IPv6 and of other kinds than unicast are counted."""
        lines = sample(BGP).decode().splitlines(keepends=True)
        whole = self.converted("pmacct-to-feeds", "".join(lines))
        routes = [number for number, line in enumerate(lines) if '"event_type": "dump",' in line]
        changed = [json.loads(lines[number]) for number in routes[:3]]
        others = [changed[0] | {"ip_prefix": "2001:db8::/32"}, changed[1] | {"ip_prefix": "::/0"}, changed[2] | {"safi": 128}]
        for number, record in zip(routes, others):
            lines[number] = json.dumps(record) + "\n"
        ended = self.converted("pmacct-to-feeds", "".join(lines))
        accepted = int(whole.stderr.split()[1])
        self.assertEqual(ended.stderr.splitlines()[0],
                         f"accepted {accepted - 3} routes; omitted 2 of IPv6, 1 of other kinds than unicast")

    def test_kinds_of_routes_of_bmp(self):
        """Routes before the policy, routes that the router announces, its own ones, and prefixes without its choice."""
        lines = sample(BMP).decode().splitlines(keepends=True)
        first, last, whole = lines[1:2], lines[-1:], "".join(lines)
        second = [line for line in lines if '"is_loc": 1, "event_type": "dump"' in line and "10.0.0.0/16" in line]
        route = json.loads(first[0])
        dump = lambda *records: "".join([lines[0], *(json.dumps(record) + "\n" for record in records), *last])
        chosen = json.loads(second[0]) | {"ip_prefix": route["ip_prefix"]}
        for name, text, returncode, told, feed in (
            ("before the policy", dump(route | {"is_post": 0}), 3, "1 routes are those from before the router's policy (is_post 0)", "127.0.0.23"),
            ("before and after", dump(route, route | {"is_post": 0, "bgp_nexthop": "192.0.2.9"}), 0, "omitted 1 from before the router's policy",
             "127.0.0.23"),
            ("announced", dump(route, route | {"is_in": 0, "is_out": 1}), 0, "omitted 1 that the router announces (is_out)", "127.0.0.23"),
            ("own", dump(chosen | {"bgp_nexthop": "192.0.2.9"}), 0, "accepted 1 routes", "local"),
            ("no choice", dump(route, chosen, route | {"ip_prefix": "10.200.0.0/16"}), 0, "omitted 1 of prefixes without a chosen path",
             "127.0.0.23"),
            ("two routers", whole + whole.replace('"bmp_router": "127.0.0.1"', '"bmp_router": "127.0.0.2"'), 1,
             "it is of the router 127.0.0.2, and those before it are of 127.0.0.1", None),
            ("cut", "".join(lines[:-1]), 1, "the dumps of 127.0.0.1 have no end (dump_close)", None),
        ):
            with self.subTest(name):
                ended = self.converted("pmacct-to-feeds", text, returncode=returncode)
                self.assertIn(told, ended.stderr)
                self.assertEqual(list(ended.feeds), [f"{feed}.feed"] * (feed is not None))


class Refusals(ConverterCase):
    """Input that is refused in one line."""

    def test_dumps_of_bgp(self):
        """A dump without its end or its begin, two dumps of a peer, other records and other JSON are refused."""
        text = sample(BGP).decode()
        lines = text.splitlines(keepends=True)
        monitored = '"event_type": "dump", "bmp_msg_type": "route_monitor",'
        for name, changed, told in (
            ("cut", "".join(lines[:-1]), "the dumps of 127.0.0.25 have no end (dump_close), so the input is truncated"),
            ("no begin", "".join(lines[1:]), "line 1: there is no begin of a dump of 127.0.0.21 before it"),
            ("twice", text + text, "127.0.0.21 has a second dump: give one of each"),
            ("update", text.replace('"event_type": "dump",', '"event_type": "log",', 1), "line 2: it isn't of a table dump"),
            ("BMP", text.replace('"event_type": "dump",', monitored, 1), "line 2: it is of BMP, and those before it are of BGP"),
            ("list", "[]\n", "line 1: it isn't of a table dump"), ("text", "x\n", "line 1: it isn't JSON of pmacct"),
        ):
            with self.subTest(name):
                self.assert_refused(self.convert("pmacct-to-feeds", changed), told)


add_conversions(Samples, (), PMACCT_RANKS)

"""Tests of routes with several next hops: the heaviest is used, and with --all-hops each further one has a feed."""
from convert.tests.converting import COMMAND_LINE, DONE, OTHERWISE, ConverterCase, sample

NOTE = "3 prefixes have a route with several next hops, and the feeds have the heaviest"
# Routes of BIRD 2.17.6 with the weights of kernel/weights.json.
BIRD = b"""BIRD 2.17.6 ready.
Table master4:
10.50.0.0/16         unicast [st 10:16:41.290] * (200)
	via 192.0.2.1 on e0 weight 1
	via 192.0.2.2 on e0 weight 5
	via 192.0.2.3 on e0 weight 2
10.51.0.0/16         unicast [st 10:16:41.290] * (200)
	via 192.0.2.1 on e0 weight 1
	via 192.0.2.2 on e0 weight 1
10.52.0.0/16         unicast [st 10:16:41.290] * (200)
	via 192.0.2.1 on e0 weight 1
	via 192.0.2.2 on e0 onlink weight 7
192.0.2.0/24         unicast [direct1 10:16:41.292] * (240)
	dev e0
"""
# The same of zebra, without the last two prefixes.
HOP = '{{"fib":true,"ip":"192.0.2.{}","afi":"ipv4","interfaceName":"e0","active":true,"weight":{}}}'
ROUTE = '"{}":[{{"prefix":"{}","protocol":"static","selected":true,"distance":1,"metric":0,"nexthops":[{}]}}]'
WEIGHTS = {"10.50.0.0/16": (1, 5, 2), "10.51.0.0/16": (1, 1), "10.52.0.0/16": (1, 7)}
ZEBRA = "{" + ",".join(
    ROUTE.format(prefix, prefix, ",".join(HOP.format(*hop) for hop in enumerate(weights, 1))) for prefix, weights in WEIGHTS.items()
) + "}"
# the next hops of each prefix in the order of their use, and their ranks
HOPS = {"10.50.0.0/16": (2, 3, 1), "10.51.0.0/16": (1, 2), "10.52.0.0/16": (2, 1)}


def feed_of(place):
    """Returns the feed of the hops at that place."""
    return "version 2\n" + "".join(f"add {prefix} {place + 1} 192.0.2.{hops[place]}\n" for prefix, hops in HOPS.items() if place < len(hops))


class NextHops(ConverterCase):
    """The heaviest next hop is used and reported; each further one is in a feed, if that is wanted."""

    def check(self, command, data, source):
        names = [f"{source}.feed", f"{source}-hop2.feed", f"{source}-hop3.feed"]
        for options, feeds, returncode in (("", 1, OTHERWISE), ("--one-hop", 1, DONE), ("--all-hops", 3, DONE)):
            with self.subTest(options or "no option"):
                ended = self.converted(f"{command} {options}", data, returncode=returncode)
                found = {name: text for name, text in ended.feeds.items() if name in names}
                self.assertEqual(found, {name: feed_of(place) for place, name in enumerate(names[:feeds])})
                self.assertEqual(NOTE in ended.stderr, not options, ended.stderr)
                self.assertEqual("omitted 4 further next hops" in ended.stderr, options != "--all-hops", ended.stderr)

    def test_bird(self):
        self.check("bird-to-feeds", BIRD, "st")

    def test_kernel(self):
        self.check("ip-to-feeds --nexthops kernel/weights-objects.json", sample("kernel/weights.json"), "boot")

    def test_zebra(self):
        self.check("frr-to-feeds", ZEBRA, "static")

    def test_name_of_further_next_hops(self):
        """A protocol that has the name of a feed of further next hops has a feed of its own."""
        feeds = self.convert("bird-to-feeds --all-hops", BIRD.replace(b"[direct1 ", b"[st-hop2 ")).feeds
        self.assertEqual(feeds.get("st-hop2-2.feed"), "version 2\nadd 192.0.2.0/24 1 0.0.0.0\n")
        self.assertEqual(feeds["st-hop2.feed"], feed_of(1))

    def test_route_that_is_left_out(self):
        """The further next hops of a route that is left out are left out as well."""
        data = BIRD.replace(b"10.51.0.0/16         unicast [st 10:16:41.290] *", b"                     unicast [st 10:16:41.290]")
        second = self.convert("bird-to-feeds --all-hops", data).feeds["st-hop2.feed"]
        self.assertIn("add 10.50.0.0/16 2 192.0.2.3\n", second)
        self.assertEqual(second.count("10.50.0.0/16"), 1)

    def test_options_that_exclude_each_other(self):
        """Preferences can't be both the daemon's and those of several next hops; and it is either one hop or all."""
        ended = self.converted("bird-to-feeds --all-hops --by preference", BIRD, returncode=1)
        self.assertIn("--all-hops ranks the next hops of a route: leave out --by", ended.stderr)
        ended = self.converted("bird-to-feeds --all-hops --one-hop", BIRD, returncode=COMMAND_LINE)
        self.assertIn("not allowed with", ended.stderr)

"""Tests of the choice of routes as functions of choice.py, against the standard: each step separately, both ways."""
import itertools

import convert.tests.inside  # it lets the converters' modules be found
from convert.tests.choice_samples import systems
from dev.testing import TestCase

import choice
from choice import ORIGINS

# Each step in the order of the standard, with the winner's and the loser's attributes; everything compared before is
# equal.
STEPS = (
    ("the daemon's own", {"ahead": 0}, {"ahead": 1}),
    ("local preference", {"local_pref": 200}, {"local_pref": 100}),
    ("AIGP", {"aigp": 10}, {"aigp": 20}),
    ("AIGP that the other hasn't", {"aigp": choice.NO_AIGP - 1}, {}),
    ("length of the path", {"path": "65001 65008"}, {"path": "65001 65009 65010"}),
    ("origin IGP", {"origin": ORIGINS["IGP"]}, {"origin": ORIGINS["EGP"]}),
    ("origin EGP", {"origin": ORIGINS["EGP"]}, {"origin": ORIGINS["INCOMPLETE"]}),
    ("MED", {"med": 10}, {"med": 20}),
    ("EBGP", {"internal": False}, {"internal": True}),
    ("cost of the next hop", {"cost": 10}, {"cost": 20}),
    ("BGP identifier", {"identifier": choice.address_order("9.0.2.1")}, {"identifier": choice.address_order("10.0.2.1")}),
    ("CLUSTER_LIST", {"clusters": 1}, {"clusters": 2}),
    ("address of the peer", {"peer": choice.address_order("9.0.2.1")}, {"peer": choice.address_order("10.0.2.1")}),
    ("number of the path", {"number": 9}, {"number": 10}),
)
# A path, its length, and its neighbouring AS. A set has commas or, of BIRD, blanks.
PATHS = (
    ("", 0, ""),
    ("65001", 1, "65001"),
    ("65001 65002 65001", 3, "65001"),
    ("65001 {65002,65003,65004}", 2, "65001"),
    ("65001 {65002 65003} 65004", 3, "65001"),
    ("{65002,65003} 65001", 2, ""),
    ("(65101 65102) 65001 65002", 2, "65001"),
    ("[65101,65102] 65001", 1, "65001"),
    ("(65101) [65102,65103] 65001", 1, "65001"),
    ("({65101 65102}) 65001", 1, "65001"),
    ("(65101 65102)", 0, ""),
    ("(65101) {65002,65003}", 1, ""),
)
THREE = (("a", "1", 20), ("b", "2", 0), ("c", "1", 10))
# Routes decided by MED: the order, and the source, path and MED of each. The sources are named in the order of their
# peers.
OF_MED = (
    ("a lower MED of another neighbouring AS decides nothing", "ab", (("a", "1", 20), ("b", "2", 10))),
    ("a lower MED of the same neighbouring AS decides", "ba", (("a", "1 5", 20), ("b", "1 6", 10))),
    ("none is 0", "ba", (("a", "1 5", 1), ("b", "1 6", 0))),
    ("a route that loses by MED doesn't beat others", "bca", THREE),
    ("what is left when the best is gone", "bcad", (("a", "2", 10), ("b", "1", 10), ("c", "2", 0), ("d", "1", 20))),
    ("of a confederation's own routes", "ba", (("a", "(65101)", 20), ("b", "(65102)", 10))),
    ("a path longer than the best one's loses to none by MED", "abc", (("a", "1", 20), ("b", "2", 0), ("c", "1 5", 10))),
    ("no shorter path loses by MED", "bcad", (*THREE, ("d", "1 5", 0))),
    ("all routes of a source are gone with its best", "bca", (*THREE, ("b", "1", 0))),
)
# The listed order of those three, and their order if a daemon goes through them in turn.
IN_TURN = (("abc", "cab"), ("acb", "bca"), ("bac", "cab"), ("bca", "abc"), ("cab", "bca"), ("cba", "abc"))

# Routes of a single neighbouring AS that are compared in turn; the first wins. What is compared before MED decides
# first.
BEFORE_MED_IN_TURN = (
    ("local preference", {"local_pref": 200, "path": "1 5", "med": 20}, {"local_pref": 100, "path": "1 5", "med": 10}),
    ("length of the path", {"path": "1", "med": 20}, {"path": "1 5", "med": 10}),
    ("origin", {"path": "1", "origin": ORIGINS["IGP"], "med": 20}, {"path": "1", "origin": ORIGINS["EGP"], "med": 10}),
)


# Pairs whose first member wins, with numbers at the limits of the bits that store them.
BORDERS = (
    *((f"local preferences {greater} and {less}", {"local_pref": greater}, {"local_pref": less})
      for greater, less in ((128, 127), (32768, 32767), (65536, 65535), (1 << 31, (1 << 31) - 1), (1 << 31, 0),
                            ((1 << 32) - 1, 1 << 31), ((1 << 32) - 1, 0))),
    *((f"paths of {shorter} and {longer} AS", {"path": systems(shorter), "origin": ORIGINS["INCOMPLETE"]}, {"path": systems(longer)})
      for shorter, longer in ((1, 127), (1, 128), (127, 128), (128, 129), (255, 256), (1, 256), (256, 300), (300, 1000))),
    *((f"local preference before a path of {longer} AS", {"local_pref": 101, "path": systems(longer)}, {"path": "1"})
      for longer in (127, 128, 256, 1000)),
    *((f"{ahead} of the daemon's own", {"ahead": ahead - 1, "local_pref": 0}, {"ahead": ahead, "local_pref": (1 << 32) - 1})
      for ahead in (1, 2, 8, 15, 16, 17, 32, 256, 1 << 31, (1 << 32) - 1)),
    *((f"{name}s {less} and {greater}", {name: choice.address_order(less)}, {name: choice.address_order(greater)})
      for name in ("peer", "identifier")
      for less, greater in (("127.0.0.1", "::1"), ("255.255.255.255", "::"), ("192.0.2.1", "2001:db8::1"),
                            ("9.0.0.1", "10.0.0.1"), ("2001:db8::9", "2001:db8::10"))),
)


def candidate(source, attributes):
    """Returns a candidate with attributes by their names."""
    path, med, number = (attributes.get(name, absent) for name, absent in (("path", ""), ("med", 0), ("number", 0)))
    others = {name: value for name, value in attributes.items() if name not in ("path", "med", "number")}
    return choice.candidate(choice.standing(choice.Attributes(**others)), path, med, number, source, None)


def order_of(candidates, in_turn=False):
    """Returns the sources of candidates in the order of choice."""
    return "".join(best[choice.SOURCE] for best in choice.best_of_each(candidates, in_turn))


def by_peer(routes):
    """Returns candidates of sources, paths and MED, whose peers have their order."""
    return [candidate(source, {"path": path, "med": med, "peer": choice.address_order(f"127.0.0.{place}")})
            for place, (source, path, med) in enumerate(routes, 1)]


class Choice(TestCase):
    """The order of candidates is that of the standard."""

    def test_steps(self):
        """Each step of the choice decides over all later steps and over no earlier one, both ways, in whatever order routes
        are listed."""
        for place, (name, wins, loses) in enumerate(STEPS):
            for _, later_wins, later_loses in STEPS[:place:-1]:
                wins, loses = {**later_loses, **wins}, {**later_wins, **loses}
            with self.subTest(name):
                for best, other in ("ab", "ba"):
                    routes = [candidate(best, wins), candidate(other, loses)]
                    for listed in (routes, routes[::-1]):
                        self.assertEqual(order_of(listed), best + other, f"{wins} and {loses}")

    def test_paths(self):
        """The length of a path and its neighbouring AS."""
        for path, length, neighbour in PATHS:
            with self.subTest(path or "empty"):
                self.assertEqual((choice.length_of(path), choice.neighbour_of(path)), (length, neighbour))

    def test_med(self):
        """MED decides as the standard says, in whatever order routes are listed."""
        for name, order, routes in OF_MED:
            with self.subTest(name):
                for listed in itertools.permutations(by_peer(routes)):
                    self.assertEqual(order_of(listed), order, f"{listed}")

    def test_med_in_turn(self):
        """In turn, MED decides as the routes are listed."""
        three = {route[choice.SOURCE]: route for route in by_peer(THREE)}
        for listed, order in IN_TURN:
            with self.subTest(listed):
                self.assertEqual(order_of([three[name] for name in listed], in_turn=True), order)

    def test_before_med(self):
        """In turn too, what is compared before MED decides within one neighbouring AS, however the routes are listed."""
        for name, wins, loses in BEFORE_MED_IN_TURN:
            # without the third, which differs from the second only in MED, nothing is compared in turn
            routes = [candidate("a", wins), candidate("b", loses), candidate("c", {**loses, "med": 30})]
            with self.subTest(name):
                for listed in itertools.permutations(routes):
                    for in_turn in (False, True):
                        self.assertEqual(order_of(listed, in_turn), "abc", f"in turn: {in_turn}")

    def test_numbers(self):
        """Numbers of all sizes are compared as numbers, and IPv4 comes before IPv6."""
        for name, *attributes in BORDERS:
            routes = [candidate(source, known) for source, known in zip("ab", attributes)]
            with self.subTest(name):
                for listed in (routes, routes[::-1]):
                    self.assertEqual(order_of(listed), "ab")

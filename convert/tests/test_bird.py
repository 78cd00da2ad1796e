"""Tests of BIRD's listings: samples, ranks, answers when the session of each of five peers has ended (samples/make-bird),
and cases by hand."""
import re
from typing import NamedTuple

from convert.tests.conversions import BIRD, BIRD_RANKS, add_conversions
from convert.tests.converting import OTHERWISE, ConverterCase, add_refusals, add_tests, best_of, longest, rows_of, sample

NEEDS = {"program"}
SESSIONS = range(21, 26)
# the configurations whose deciding attributes are all shown, and the others
SHOWN, HIDDEN = ("unreachable", "aigp"), ("identifiers", "path", "older")
OTHER_CHOICE = re.compile(r"^in (\d+) of (\d+) prefixes the daemon's choice isn't what these rules give: the next ranks may differ", re.M)
# Input that is refused: the options, the sample, and a part of the message.
REFUSALS = (
    ("", "bird/all-tables.txt", "several tables: master4, second4"),
    ("--table nosuch", "bird/all-tables.txt", "no table nosuch"),
    ("", "bird/nothing.txt", "accepted 0 routes"),
    ("", "bird/device-plain.txt", "a BGP route to 10.3.0.0/16 leads over an interface only, and its next hop isn't "
     "shown: use `show route all`"),
    ("", "kernel/routes.txt", "line 1 is not understood"),
    ("--by local-pref", "bird/static-routes-all.txt", "has no BGP.local_pref"),
)
# Two routes to one prefix, of different preference.
DIFFERENT = b"""BIRD 2.0.12 ready.
Table master4:
10.0.0.0/8           unicast [a 09:20:39.677] * (150)
	via 192.0.2.1 on uplink
	Type: BGP univ
	BGP.local_pref: 100
                     unicast [b 09:20:39.677] (120)
	via 192.0.2.9 on uplink
	Type: BGP univ
	BGP.local_pref: 200
"""
# Three routes to the same prefix; two of them differ only in parts that aren't used.
ALIKE = b"""Table master4:
10.0.0.0/8           unicast [a 09:20:39.677] * (100) [AS65001i]
	via 192.0.2.1 on uplink
                     unicast [b 09:20:40.111] (100) [AS65001i]
	via 192.0.2.9 on uplink
	Type: BGP univ
	BGP.as_path: 65001
	BGP.local_pref: 100
                     unicast [b 09:20:41.222] (100) [AS65009i]
	via 192.0.2.9 on uplink
	Type: BGP univ
	BGP.as_path: 65009
	BGP.local_pref: 100
"""
# A multipath route whose first next hop is a device.
DEVICE_FIRST = b"""Table master4:
10.0.0.0/8           unicast [a 09:20:39.677] * (200)
	dev downlink weight 1
	via 192.0.2.1 on uplink weight 1
"""
# Routes of two protocols whose names become the same; one of the protocols has two routes to a prefix.
SAME_NAMES = b"""Table master4:
10.0.0.0/8           unicast [a_b 09:20:39.677] * (100)
	via 192.0.2.1 on uplink
                     unicast [a/b 09:20:40.111] (90)
	via 192.0.2.2 on uplink
                     unicast [a/b 09:20:40.111] (80)
	via 192.0.2.3 on uplink
10.2.0.0/16          unicast [a/b 09:20:40.111] * (100)
	via 192.0.2.5 on uplink
"""
# Two routes of BGP over an interface, whose next hop is the peer's, as `show route all` shows them.
OVER_DEVICE = b"Table master4:\n" + b"".join(
    b"10.%d.0.0/16 unicast [a 09:20:39.677] * (100) [AS65001i]\n\tdev uplink\n\tType: BGP univ\n\tBGP.origin: IGP\n"
    b"\tBGP.as_path: 65001\n\tBGP.next_hop: 192.0.2.1\n\tBGP.local_pref: 100\n" % second for second in (1, 2))
# A peer's next hop that OSPF found, and a default with the same next hop from another source.
FOUND = """BIRD 2.0.12 ready.
Table master4:
10.255.0.5/32        unicast [ospf1 08:15:03.000] * I (150/10) [10.0.5.2]
	via 10.0.5.2 on vi1
	Type: OSPF univ
0.0.0.0/0            unicast [{source} 08:15:03.000] * (105{cost}) [?]
	via 10.0.5.2 on vi1
	Type: {source_type} univ
{attributes}20.0.0.0/8           unicast [core 08:15:03.000 from 10.255.0.5] * (105/10) [i]
	via 10.0.5.2 on vi1
	Type: BGP univ
	BGP.origin: IGP
	BGP.as_path: 65001
	BGP.next_hop: 10.255.0.5
	BGP.local_pref: 100
"""
LOOKED_UP = "\tBGP.origin: IGP\n\tBGP.as_path: 65002\n\tBGP.next_hop: 10.255.0.6\n\tBGP.local_pref: 100\n"


class Lab(NamedTuple):
    """A sample that make-bird made, and how it is converted."""
    folder: str
    part: str
    protocols: bool = False

    def sample(self, kind):
        return f"{self.folder}/ranks/bird-{self.part}-{kind}.txt"

    @property
    def command(self):
        return f"bird-to-feeds --protocols {self.sample('protocols')}" if self.protocols else "bird-to-feeds"

    @property
    def name(self):
        return f"{self.folder} {self.part}{' with protocols' if self.protocols else ''}"


# BIRD 2.17.6 and BIRD 3.4.0
LABS = [Lab("debian-13", part) for part in SHOWN + HIDDEN]
LABS += [Lab("debian-sid-bird3", part) for part in (*SHOWN, "identifiers")]
LABS += [Lab(folder, "identifiers", protocols=True) for folder in ("debian-13", "debian-sid-bird3")]
# a listing of BIRD 3
OF_BIRD_3 = Lab("debian-sid-bird3", "aigp").sample("all")


class Samples(ConverterCase):
    """What BIRD printed gives the kept feeds, and BIRD's answers."""

    def test_next_hops_found_by_routes_of_others(self):
        """A next hop that was looked up is reported with the source whose routes led to it. Without that source BIRD's
        answers differ from those of the table without its feed, and only there."""
        ended = self.converted("bird-to-feeds", sample("bird/resolved.txt"))
        self.assertIn("2 next hops (10.255.0.1, 10.255.0.2) of peer are found by routes of inner: without inner", ended.stderr)
        rows = rows_of([file for file in ended.files if file.stem != "inner"])
        self.assert_answers(rows, "bird/resolved-answers-1.txt", "bird/resolved-differences-1.txt")

    def test_version_3_without_its_banner(self):
        """A listing of BIRD 3 is recognized by its form, and not by the first line, which names the version."""
        whole, without = (self.convert("bird-to-feeds", data) for data in (sample(OF_BIRD_3), sample(OF_BIRD_3).partition(b"\n")[2]))
        self.assertEqual(without.result, whole.result)

    def test_protocols_of_another_router(self):
        """A file of --protocols that isn't one, or is of another BIRD, is refused."""
        lab = Lab("debian-13", "identifiers")
        data = sample(lab.sample("all"))
        for file, part in ((lab.sample("all"), "has no session of BGP\n"), ("none", "none: No such file")):
            with self.subTest(part):
                self.assert_refused(self.convert(f"bird-to-feeds --protocols {file}", data), part)
        renamed = data.replace(b"peer_21", b"peer_99")
        self.assert_refused(self.convert(f"bird-to-feeds --protocols {lab.sample('protocols')}", renamed), "has no session of BGP peer_99")


def check_lab(test, lab):
    """No answer differs with all sessions and without each, or the converter says in how many prefixes BIRD's choice is
    another than its rules give."""
    ended = test.convert_sample(lab.command, lab.sample("all"))
    rows = [line.split() for line in sample(lab.sample("answers")).decode().splitlines()]
    differing = 0
    for column, without in enumerate([None, *SESSIONS], 1):
        best = best_of(rows_of([file for file in ended.files if file.stem != f"peer_{without}"]))
        differing += sum(longest(best, row[0]).replace(" ", "-") not in row[column].split(",") for row in rows)
        test.count(len(rows))
    is_hidden = lab.part in HIDDEN and not lab.protocols
    test.assertEqual((differing > 0, ended.returncode == OTHERWISE, OTHER_CHOICE.search(ended.stderr) is not None), (is_hidden,) * 3,
                     f"{differing} answers differ; status {ended.returncode}, notes {ended.stderr}")


class ByHand(ConverterCase):
    """Listings that were written by hand."""

    def test_routes_of_a_source_that_are_alike(self):
        """Further routes of a source are counted, even if their used parts don't differ."""
        ended = self.converted("bird-to-feeds", ALIKE)
        self.assertEqual(ended.stderr, "accepted 2 routes; omitted 1 further routes of a source to the same prefix\n")
        self.assertIn(" 2 192.0.2.9", ended.text)

    def test_first_next_hop_is_a_device(self):
        ended = self.converted("bird-to-feeds --one-hop", DEVICE_FIRST)
        self.assertIn("omitted 1 further next hops of multipath routes", ended.stderr)
        self.assertIn("add 10.0.0.0/8 1 0.0.0.0\n", ended.text)

    def test_names_that_become_the_same(self):
        """Two sources whose names become the same have two files, each with its own routes; among a source's routes to a
        prefix the first is used."""
        ended = self.convert("bird-to-feeds", SAME_NAMES)
        self.assertEqual(ended[:3], (0, "", "accepted 3 routes; omitted 1 further routes of a source to the same prefix\n"))
        self.assertEqual(ended.text, "== a_b-2.feed\nversion 2\nadd 10.0.0.0/8 2 192.0.2.2\nadd 10.2.0.0/16 1 192.0.2.5\n"
                         "== a_b.feed\nversion 2\nadd 10.0.0.0/8 1 192.0.2.1\n")

    def test_next_hops_found_by_other_routes(self):
        """A next hop isn't found without OSPF by a route of the seeker, nor by one that was itself looked up; but it is by a
        static one."""
        for source, kind, cost, attributes, is_told in (
            ("core", "BGP", "/10", LOOKED_UP, True), ("edge", "BGP", "/10", LOOKED_UP, True), ("fixed", "static", "", "", False),
        ):
            with self.subTest(f"a default of {source}"):
                text = FOUND.format(source=source, source_type=kind, cost=cost, attributes=attributes)
                told = self.convert("bird-to-feeds", text.encode()).stderr.replace("10.255.0.5, 10.255.0.6", "10.255.0.5")
                self.assertEqual("next hops (10.255.0.5) of core are found by routes of ospf1" in told, is_told, told)


class Cut(ConverterCase):
    """Listings that are cut."""

    def test_routes_over_an_interface(self):
        """A route of BGP over an interface is refused if it was cut before its next hop, or between other attributes."""
        lines = OVER_DEVICE.splitlines(keepends=True)
        for number in range(len(lines) // 2 + 1, len(lines) + 1):
            with self.subTest(f"after line {number}"):
                ended = self.convert("bird-to-feeds", b"".join(lines[:number]))
                # an input that ends after the first route is complete
                is_whole = number in (len(lines) // 2 + 1, len(lines))
                self.assertEqual(ended.returncode == 0, is_whole, ended.stderr)

    def test_last_route_of_version_3(self):
        """A listing of BIRD 3 that is cut within its last route is refused, wherever that is."""
        head, *routes = re.split(r"(?m)^(?=10\.)", sample(OF_BIRD_3).decode())
        first, last = (re.split(r"(?m)^(?= +unicast)", route)[0].encode() for route in routes[:2])
        for cut in range(1, len(last) + 1):
            ended = self.convert("bird-to-feeds", head.encode() + first + last[:cut])
            # a note counts routes over an interface, if the listing is whole
            self.assertEqual((ended.returncode, ended.stderr.count("\n")), (0, 2) if cut == len(last) else (1, 1),
                             f"cut behind {last[:cut][-60:]!r}: {ended.stderr}")


class Refusals(ConverterCase):
    """Listings that are refused in one line; nothing is changed."""

    def test_changed_samples(self):
        routes = sample("bird/static-routes.txt")
        for name, options, data, part in (
            ("preferences that differ", "--by local-pref", DIFFERENT, "their preferences differ"),
            ("length of 33", "", DIFFERENT.replace(b"/8 ", b"/33 "), "line 3: '10.0.0.0/33' is not a prefix"),
            # the third file can't be written
            ("name too long", "", routes.replace(b"choosy", b"c" * 300), "too long"),
            ("table twice", "", routes + routes, "master4 occurs twice"),
            ("version 4", "", b"BIRD 4.0.0 ready.\n" + routes,
             "line 1: this is output of BIRD 4.0.0, and only that of BIRD 2 and 3 is supported"),
            ("line of another", "", routes.replace(b"\n\n", b"\nnone of BIRD's\n\n", 1), "line 29 is not understood"),
        ):
            with self.subTest(name):
                self.assert_unchanged(f"bird-to-feeds {options}", data, part)


add_conversions(Samples, BIRD, BIRD_RANKS)
add_tests(Samples, "lab", check_lab, {lab.name: (lab,) for lab in LABS})
add_refusals(Refusals, "bird-to-feeds", REFUSALS)

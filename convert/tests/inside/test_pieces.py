"""Tests of inputs that several processes convert: feeds, messages and status are those of one process, wherever the input is
cut."""
import ipaddress
import json
import random
import re

import convert.tests.inside  # it lets the converters' modules be found
from convert.tests.conversions import CONVERSIONS
from convert.tests.converting import add_tests, sample
from convert.tests.inside.constants import InsideCase, pieces

import feeds

CONVERTERS = ("bird-to-feeds", "frr-to-feeds", "bgpdump-to-feeds")
# samples with pieces that have to be joined, and the minimum number of such pieces
JOINED = (("bird-to-feeds", "debian-13/ranks/bird.txt", 8), ("bird-to-feeds", "debian-13/ranks/bird-aigp-all.txt", 3),
          ("frr-to-feeds", "ranks/frr.json", 8), ("frr-to-feeds", "ranks/frr-detail.json", 8),
          ("frr-to-feeds --one-hop", "frr/rib.json", 2), ("bgpdump-to-feeds", "ranks/frr-dump.txt", 2))
# writes a sign for each piece that is joined, and another for each that isn't
COUNTED = """
next_here = pieces.Ahead.next
def next_counted(ahead):
    piece = next_here(ahead)
    os.write(1, b"J" if piece is None else b"H")
    return piece
pieces.Ahead.next = next_counted
"""
# a piece is converted again if objects of the first time refer to themselves, which nothing would free
COLLECTED = """
serve_all = pieces.serve
def serve_collected(requests, results, work):
    def work_collected(data, state):
        gc.collect()
        result = work(data, state)
        if gc.collect():
            raise Refused("objects refer to themselves")
        return result
    serve_all(requests, results, work_collected)
pieces.serve = serve_collected
"""
LOOKED_UP = """{:20} unicast [edge 08:15:03.000 from 10.255.0.5] * (100/10) [i]
\tvia 10.0.5.2 on vi1
\tType: BGP univ
\tBGP.origin: IGP
\tBGP.as_path: 65001
\tBGP.next_hop: 10.255.0.6
\tBGP.local_pref: 100
"""
DIRECT = LOOKED_UP.replace("(100/10)", "(100)").replace("10.255.0.6", "10.0.5.2")
FOUND = """10.255.0.6/32        unicast [ospf1 08:15:03.000] * I (150/10) [10.0.5.2]
\tvia 10.0.5.2 on vi1
\tType: OSPF univ
"""


def groups_of_bird(draw, number):
    """Yields the routes to that many prefixes as BIRD lists them."""
    groups = re.split(r"(?m)^(?=10\.)", sample("debian-13/ranks/bird.txt").decode())[1:-1]
    for prefix in draw.sample(range(1 << 16), number):
        text = f"{f'172.{16 + prefix // 4096}.{prefix // 16 % 256}.{prefix % 16 * 16}/28':20}"
        yield re.sub(r"^10\.\d+\.0\.0/16 *", f"{text} ", draw.choice(groups))


def drawn_bird(draw):
    groups = list(groups_of_bird(draw, 80))
    extra = draw.choice(("", "", "Table other4:\n10.0.0.0/8           unicast [a 09:20:39.677] * (200)\n\tvia 192.0.2.1 on e\n", groups[3],
                         "none of BIRD's\n", "2001:db8::/32        unicast [a 09:20:39.677] * (200)\n\tvia fe80::1 on e\n", "\n"))
    groups.insert(draw.randrange(len(groups)), extra)
    return ("BIRD 2.17.6 ready.\nTable master4:\n" + "".join(groups)).encode()


def drawn_frr(draw):
    shown = json.loads(sample(draw.choice(("ranks/frr.json", "debian-13/ranks/frr-detail.json"))))
    paths = list(shown["routes"].values())
    shown["routes"] = {}
    for number in draw.sample(range(1 << 16), 80):
        listed = draw.choice(paths)
        shown["routes"][f"172.16.{number // 256}.{number % 256}/32"] = listed
    text = ",\n".join(f"{json.dumps(prefix)}: {json.dumps(listed)}" for prefix, listed in shown["routes"].items())
    if draw.random() < 0.3:
        text += f",\n{text[: text.index(chr(10)) - 1]}"
    if draw.random() < 0.3:
        text = text.replace('"valid": true', '"valid": 7', 1) if draw.random() < 0.5 else text[:-1] + "x]"
    head = {name: value for name, value in shown.items() if name != "routes"}
    return f'{json.dumps(head)[:-1]}, "routes": {{{text}}}}}\n'.encode()


def drawn_dump(draw):
    lines = sample("ranks/frr-dump.txt").decode().splitlines(keepends=True)
    updates = sample("ranks/own-updates.txt").decode() if draw.random() < 0.5 else ""
    dumped = "".join(lines)
    if draw.random() < 0.3:
        dumped += lines[0]
    return (dumped.replace("|10.9.0.0/16|", "|10.9.0.1/16|", 1) + updates).encode()


def frr_path(peer, length, best):
    return {"valid": True, "bestpath": best, "pathFrom": "external", "weight": 0, "peerId": f"192.0.2.{peer}", "path": " ".join(["65001"] * length),
            "origin": "IGP", "nexthops": [{"ip": f"192.0.2.{peer}", "afi": "ipv4", "used": True}]}


class Pieces(InsideCase):
    """What several processes make of pieces is what one makes of the whole."""

    def test_tables_of_bird(self):
        """After another table began, no piece is converted as one of the first table."""
        groups = list(groups_of_bird(random.Random(941), 160))
        text = "".join(["BIRD 2.17.6 ready.\nTable master4:\n", *groups[:60], "Table other4:\n", *groups[60:120], "Table third4:\n", *groups[120:]])
        for table in ("master4", "other4", "third4"):
            with self.subTest(table):
                self.assert_same(f"bird-to-feeds --table {table}", text, 2500)

    def test_next_hops_that_were_looked_up(self):
        """The routes whose next hop was looked up are known for each piece, also for one without such a route."""
        looked_up, direct = ([form.format(f"10.{second}.{third}.0/24") for third in range(60)]
                             for second, form in ((1, LOOKED_UP), (2, DIRECT)))
        other = DIRECT.format("0.0.0.0/0").replace("[edge ", "[other ")
        for name, parts in (("first", [*looked_up, *direct]), ("last", [*direct, *looked_up]), ("default", [*looked_up, *direct, other])):
            text = "".join(["BIRD 2.17.6 ready.\nTable master4:\n", *parts, FOUND, DIRECT.format("10.255.0.0/24").replace("[edge ", "[core ")])
            with self.subTest(name):
                self.assert_same("bird-to-feeds", text, 1500)
                self.assert_same("bird-to-feeds", text.replace("[core ", "[edge "), 1500)

    def test_order_of_frr(self):
        """That FRR lists paths in the order of its choice is known of the pieces, when only the last prefix makes a
        difference."""
        routes = {f"10.1.{number}.0/24": [frr_path(1, 1, True)] for number in range(40)}
        # two pieces together show that either peer is listed first
        routes |= {f"10.3.{number}.0/24": [frr_path(1 + number // 60, 1, True), frr_path(2 - number // 60, 2, False)] for number in range(120)}
        routes["10.2.0.0/16"] = [frr_path(2, 1, True), frr_path(3, 1, False), frr_path(1, 1, False)]
        text = ",\n".join(f"{json.dumps(prefix)}: {json.dumps(paths)}" for prefix, paths in routes.items())
        _, notes, _ = self.assert_same("frr-to-feeds", f'{{"vrfName": "default", "routes": {{{text}}}}}', 2500)
        self.assertIn("1 prefixes are ranked as listed", notes)

    def test_prefixes_of_pieces(self):
        """The prefixes of pieces that are joined are those of all; none is added if one of them is there already."""
        draw = random.Random(942)
        every = [f"{ipaddress.ip_network((0x0A000000 | draw.getrandbits(10), length), strict=False)}" for length in range(22, 33) for _ in range(40)]
        every = list(dict.fromkeys([*every, "0.0.0.0/0", "2001:db8::/32", "::/0"]))
        for _ in range(100):
            joined, expected = feeds.Prefixes(), set()
            for _ in range(8):
                part, other = set(draw.sample(every, draw.randrange(1, 12))), feeds.Prefixes()
                self.assertEqual([other.add(prefix) for prefix in (*part, *part)], [True] * len(part) + [False] * len(part))
                self.assertEqual(joined.join(other.kept()), expected.isdisjoint(part))
                expected |= part if expected.isdisjoint(part) else set()
            self.assertEqual(({prefix for prefix in every if prefix in joined}, len(joined)), (expected, len(expected)))


def check_sample(test, case):
    """A sample in pieces gives the kept feeds and notes."""
    size = random.Random(case.name).choice((90, 300, 800, 2000))
    ended = test.convert_with(pieces(size), case.command, sample(case.sample))
    test.assertEqual(ended.returncode, case.returncode, ended.stderr)
    test.assertEqual(ended.stderr + ended.text, sample(case.feeds).decode(), f"in pieces of {size} bytes")


def check_joined(test, command, name, least):
    """Most pieces are converted by other processes, which keep nothing of them."""
    for kind, changed in (("joined", COUNTED), ("without objects that refer to themselves", COLLECTED + COUNTED)):
        with test.subTest(kind):
            ended = test.convert_with(pieces(3000) + changed, command, sample(name))
            test.assertGreaterEqual(ended.stdout.count("J"), least, f"{ended.stdout}; {ended.stderr}")
    test.assert_same(command, sample(name), 3000)


def check_drawn(test, command, drawn, number):
    """Tables that are drawn, some of them wrong."""
    draw = random.Random(f"{command} {number}")
    test.assert_same(command, drawn(draw), draw.randrange(200, 6000))


add_tests(Pieces, "sample", check_sample,
          {f"{case.command.split()[0]} {case.name}": (case,) for case in CONVERSIONS if case.command.split()[0] in CONVERTERS})
add_tests(Pieces, "joined", check_joined, {f"{row[0]} {row[1]}": row for row in JOINED})
add_tests(Pieces, "drawn", check_drawn, {
    f"{command.split()[0]} {number}": (command, drawn, number) for number in range(8) for command, drawn in (
        ("bird-to-feeds --ipv6-hop 192.0.2.6", drawn_bird), ("frr-to-feeds", drawn_frr), ("bgpdump-to-feeds", drawn_dump))})

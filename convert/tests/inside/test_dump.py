"""Tests of table dumps: lines that are read together, as most are, give the same as lines that are each read by themselves."""
import random

import convert.tests.inside  # it lets the converters' modules be found
from convert.tests.converting import add_tests
from convert.tests.inside.constants import InsideCase, pieces

import collected
import mrt

# an AS that no path has; with --local-as each line is read by itself
ABSENT = "--local-as 4199999999"
PEERS = (("192.0.2.1", "65001"), ("192.0.2.2", "65002"), ("192.0.2.2", "65003"), ("192.0.2.10", "65001"), ("192.0.2.9", "4200000001"),
         ("2001:db8::1", "65001"))
LINE = "{kind}|{time}|B|{peer}|{prefix}|{path}|{origin}|{hop}|{local_pref}|{med}|65001:1|NAG||\n"
# the unusual parts that a line may have once in a while
SELDOM = (("kind", ("TABLE_DUMP", "TABLE_DUMP2", "TABLE_DUMP2_AP")), ("path", ("", "{65007,65008}", "(65100) 65001", "65001 {65007}")),
          ("hop", ("255.255.255.255", "192.0.2.77", "2001:db8::77")), ("origin", ("EGP", "INCOMPLETE")), ("local_pref", ("100", "200", "50")),
          ("med", ("", "4294967295", "0000000007")), ("time", ("1795441784",)))
WRONG = ("none of bgpdump's\n", "TABLE_DUMP2|0|B|192.0.2.1|65001|10.0.0.0/33|65001|IGP|192.0.2.1|0|0||NAG||\n",
         "TABLE_DUMP2|0|B|192.0.2.300|65001|10.0.0.0/8|65001|IGP|192.0.2.1|0|0||NAG||\n",
         "TABLE_DUMP2|0|B|192.0.2.1|x|10.0.0.0/8|65001|IGP|192.0.2.1|0|0||NAG||\n",
         "TABLE_DUMP2|0|B|192.0.2.1|65001|10.0.0.0/8|65001|none|192.0.2.1|0|0||NAG||\n",
         "TABLE_DUMP2|0|B|192.0.2.1|65001|10.0.0.0/8|65001|IGP|none|0|0||NAG||\n",
         "TABLE_DUMP2|0|B|192.0.2.1|65001|10.0.0.0/8|65001|IGP|192.0.2.1|0|x||NAG||\n",
         "TABLE_DUMP2|0|B|192.0.2.1|65001|10.0.0.0/8|65001|IGP|192.0.2.1|0|4294967296||NAG||\n", "TABLE_DUMP2|0|B|192.0.2.1|65001\n")
SETS = (*[""] * 99, " {65007,65008}")
UPDATES = ("BGP4MP|1795441790|W|192.0.2.1|65001|{prefix}\n", "BGP4MP|1795441790|STATE|192.0.2.1|65001|6|1\n",
           "BGP4MP|1795441791|A|192.0.2.2|65002|{prefix}|65002 65009|IGP|192.0.2.2|0|0||NAG||\n")
OF_PEERS = "TABLE_DUMP2|0|B|192.0.2.{0}|6500{0}|10.0.{1}.0/24|6500{0}|IGP|192.0.2.{0}|0|0||NAG||\n"
# of each table the number of local preferences, and the length of its longest path
VALUES = {"preferences": (200, 1), "paths": (1, 30), "long paths": (1, 62), "longest paths": (1, 90), "both": (9, 90)}
# Paths as segments, with the AS4_PATH that replaces their end (RFC 6793, section 4.2.3), and the result.
TRANS = 23456
PATHS = {
    "two of four bytes": ([(2, (1, TRANS, TRANS))], [(2, (70001, 70002))], "1 70001 70002"),
    "longer AS4_PATH": ([(2, (1, 2))], [(2, (70001, 70002, 70003))], "1 2"),
    "confederation": ([(3, (65101,)), (2, (1, TRANS))], [(2, (70001,))], "(65101) 1 70001"),
    "set": ([(1, (1, 2)), (2, (TRANS,))], [(2, (70001,))], "{1,2} 70001"),
}


def drawn_line(draw, peer, prefix, often):
    address, system = peer
    path = " ".join([system if draw.random() < 0.8 else "65001", *(str(draw.randrange(65000, 65010)) for _ in range(draw.randrange(4)))])
    values = {"kind": "TABLE_DUMP2", "time": 1795441783, "path": path, "origin": "IGP", "hop": "192.0.2.1" if ":" in address else address,
              "local_pref": 0, "med": draw.choice((0, 0, 0, 10, 20))}
    for name, others in SELDOM:
        if draw.random() < often:
            values[name] = draw.choice(others)
    if values["kind"].endswith("_AP"):
        values["path"] = f"{draw.randrange(3)}|{values['path']}"
    return LINE.format(peer=f"{address}|{system}", prefix=prefix, **values)


def drawn_prefix(draw, number):
    kind = draw.random()
    base = f"10.{number // 256}.{number % 256}"
    return f"2001:db8:{number:x}::/48" if kind < 0.05 else f"{base}.1/24" if kind < 0.1 else f"{base}.0/24"


def drawn_dump(draw):
    """Returns a dump with lines that aren't as most are, and sometimes with a wrong line, a prefix that comes twice, or
    updates."""
    often, lines = draw.choice((0, 0.01, 0.05)), []
    for number in sorted(draw.sample(range(2000), 60)):
        prefix = drawn_prefix(draw, number)
        peers = draw.sample(PEERS, draw.randrange(1, len(PEERS) + 1))
        if draw.random() < 0.05:
            peers.append(draw.choice(peers))
        for peer in peers:
            other = prefix.replace(".1/24", ".0/24") if draw.random() < 0.1 else prefix
            lines.append(drawn_line(draw, peer, other, often))
    if draw.random() < 0.2:
        lines.insert(draw.randrange(len(lines)), draw.choice((*WRONG, lines[0])))
    if draw.random() < 0.2:
        updates = [draw.choice(UPDATES).format(prefix=drawn_prefix(draw, draw.randrange(2000))) for _ in range(20)]
        lines[draw.choice((len(lines), len(lines) // 2)) :] = [*updates, *lines[len(lines) // 2 : draw.choice((0, len(lines)))]]
    return "".join(lines)


class Together(InsideCase):
    """Lines that are read together, by one process and by several, give the same as each by itself."""

    def assert_same_together(self, options, data, piece=40000, block=1 << 20):
        one, several = pieces(1 << 20, 1, block), pieces(piece, 3, block)
        apart = self.convert_with(one, f"bgpdump-to-feeds {options} {ABSENT}", data).result
        for name, changed in (("together", one), ("in pieces", several)):
            self.assertEqual(self.convert_with(changed, f"bgpdump-to-feeds {options}", data).result, apart, name)

    def test_next_hops(self):
        """More next hops of a peer than are known at a time."""
        form = "TABLE_DUMP2|0|B|192.0.2.1|65001|10.{0}.{1}.0/24|65001 {2}|IGP|192.{0}.{1}.1|0|{2}||NAG||\n"
        self.assert_same_together("", "".join(form.format(number // 256, number % 256, number) for number in range(3000)))

    def test_peers(self):
        """More peers than are known at a time."""
        form = "TABLE_DUMP2|0|B|192.{}.{}.{}|65001|10.{}.{}.0/24|65001 0|IGP|192.0.2.1|0|0||NAG||\n"
        self.assert_same_together("--merge 8", "".join(
            form.format(number >> 16, number >> 8 & 255, number & 255, number // 50 // 256, number // 50 % 256) for number in range(4500)))

    def test_same_lines_again(self):
        """The same lines once more, right after a prefix's and later."""
        for name, numbers in (("at once", (0, 1, 1, 2)), ("later", (0, 1, 2, 1))):
            with self.subTest(name):
                self.assert_same_together("", "".join(OF_PEERS.format(peer, number) for number in numbers for peer in (1, 2)))

    def test_peer_without_routes_of_ipv4(self):
        """It makes no difference to the name of another peer with its address."""
        form = "TABLE_DUMP2|0|B|192.0.2.1|{}|{}|65001|IGP|192.0.2.1|0|0||NAG||\n"
        lines = [form.format(65001, f"10.0.{number}.0/24") for number in range(100)]
        lines[50:50] = [form.format(65002, f"2001:db8:{number}::/48") for number in range(50)]
        self.assert_same_together("", "".join(lines), 1500)

    def test_peers_without_lines(self):
        """Peers whose routes are all omitted leave no file, whoever converts them."""
        data = "".join(OF_PEERS.format(peer, number) for number in range(100) for peer in (1, 2))
        for name, changed in (("one process", pieces(1 << 20, 1, 1 << 20)), ("several", pieces(1500, 3, 1 << 20))):
            with self.subTest(name):
                ended = self.convert_with(changed, "bgpdump-to-feeds --local-as 65001", data)
                self.assertEqual(ended.returncode, 0)
                self.assertEqual(sorted(file.name for file in ended.folder.iterdir()), [".written", "192.0.2.2.feed"])


class Functions(InsideCase):
    """Functions of the modules."""

    def test_merits(self):
        """The keys of merits are kept as they are, whatever they are."""
        draw = random.Random(942)
        parts = [[draw.choice(keys) for _ in range(number)] for keys in (range(200), [7, 300], [-1 << 90, (1 << 90, 5), 3], range(70000), [1])
                 for number in (1, 50, 70000)]
        draw.shuffle(parts)
        merits, joined = collected.Merits(), collected.Merits()
        for part in parts:
            other = collected.Merits()
            merits.extend(part)
            other.extend(part)
            joined.join(other.parts)
        for name, found in (("extended", merits), ("joined", joined)):
            self.assertTrue(list(found) == [key for part in parts for key in part], name)

    def test_paths_of_two_bytes(self):
        """Such a path gets its last AS from AS4_PATH."""
        for name, (segments, four, text) in PATHS.items():
            with self.subTest(name):
                self.assertEqual(mrt.text_of(mrt.merged(segments, four)), text)


def check_drawn(test, number):
    """Dumps that are drawn, some of them wrong."""
    draw = random.Random(f"dump {number}")
    options = draw.choice(("--ipv6-hop 192.0.2.6", "--ipv6-hop 192.0.2.6 --by local-pref", "--ipv6-hop 192.0.2.6 --merge 2", ""))
    test.assert_same_together(options, drawn_dump(draw), draw.randrange(300, 9000), draw.randrange(100, 9000))


def check_values(test, preferences, longest):
    """More different merits in a part of the input than there are bytes, greater ones, and both; with sets in some paths."""
    draw = random.Random(f"values {preferences} {longest}")
    test.assert_same_together("", "".join(
        LINE.format(kind="TABLE_DUMP2", time=0, peer=f"{address}|{system}", prefix=f"10.{number // 256}.{number % 256}.0/24",
                    path=" ".join([system] * draw.randrange(1, longest + 1)) + draw.choice(SETS), origin="IGP", hop="192.0.2.1",
                    local_pref=draw.randrange(100, 100 + preferences), med=draw.randrange(3))
        for number in range(200) for address, system in PEERS if draw.random() < 0.98))


add_tests(Together, "drawn", check_drawn, {str(number): (number,) for number in range(40)})
add_tests(Together, "values", check_values, VALUES)

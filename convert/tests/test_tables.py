"""Tests of the converters from a table: what they accept in options, files and tables, and outputs that can't be written."""
import json
import re
import resource

from convert.tests import commands
from convert.tests.converting import OTHERWISE, ConverterCase, add_refusals, add_tests, sample, table_of, table_text
from dev.crates import TOP
from dev.models.table_model import route_text

FORMS = ("bird", "frr", "ip")
TABLE = table_text([route_text("10.0.0.0/8")])
OWN = {"dst": "10.1.0.0/16", "gateway": "192.0.2.1", "dev": "uplink", "flags": []}
# a command of its own for `ip -batch`
COMMAND = "\nroute flush table main\n"
# Members of a route in the file of --replace, and a part of the message.
ROUTES = (
    ({"dst": f"10.1.0.0/16{COMMAND}"}, "route 2: '10.1.0.0/16\\nroute flush table main\\n' is not a prefix"),
    ({"dst": f"10.1.0.1{COMMAND}"}, "route 2: '10.1.0.1\\nroute flush table main\\n/32' is not a prefix"),
    ({"dst": f"default{COMMAND}"}, "is not a prefix"),
    ({"dst": "my default"}, "is not a prefix"),
    ({"dst": "10.1.0.0/16 table 100"}, "is not a prefix"),
    ({"dst": "2001:db8::/32"}, "route 2: the route to 2001:db8::/32 is of IPv6"),
    ({"type": f"blackhole{COMMAND}"}, "route 2: the route to 10.1.0.0/16 has the type 'blackhole\\nroute flush table main\\n'"),
    ({"type": "black hole"}, "has the type 'black hole'"),
    ({"type": ["blackhole"]}, "route 2: the member 'type' is missing or of another kind"),
    ({"type": None}, "route 2: the member 'type' is missing or of another kind"),
    ({"dst": 7}, "route 2: the member 'dst' is missing or of another kind"),
    ({"metric": -1}, "the metric -1"),
    ({"metric": "121"}, "route 2: the member 'metric' is missing or of another kind"),
    ({"protocol": "static"}, "route 2: the route to 10.1.0.0/16 is another program's"),
)
FILES = (("null", "[null]", "route 1: an object was expected: null"), ("number", "7", "is not the list that"),
         ("deep", "[" * 100000, "is not JSON of"), ("compressed", "\x1f\x8b", "is not JSON of"))
# Names that no interface has: a blank or a quote would end the name in a command.
NAMES = ("", "a b", "a\nroute flush table main", "a\"", "a'", "a;b", "a#", "-a", "a/b", "\x1b[2J", "é", "a" * 128)
# Two connected networks, one in the other, and a route by a router in both; and the interfaces that are given.
NESTED = table_text([route_text(prefix, hop=hop) for prefix, hop in (
    ("10.0.0.0/8", "0.0.0.0"), ("10.1.0.0/16", "0.0.0.0"), ("192.0.2.0/24", "10.1.0.1"), ("198.51.100.0/24", "10.2.0.1"))])
BOTH = "--device 10.0.0.0/8=outer --device 10.1.0.0/16=inner"
TWICE = "--device 10.0.0.0/8=outer --device 10.0.0.0/8=other --device 10.1.0.0/16=inner"
# Routes in JSON: what is written for each by `table-to-ip`, or a part of the message.
JSON_HOPS = (
    ({"via": None, "discard": True}, "route replace blackhole 10.0.0.0/8 metric 121 proto 121\n", ""),
    ({"discard": True}, "route replace blackhole 10.0.0.0/8 metric 121 proto 121\n", ""),
    ({"via": "192.0.2.1"}, "route replace 10.0.0.0/8 via 192.0.2.1 dev uplink onlink metric 121 proto 121\n", ""),
    ({"via": None}, "", "the member 'discard' is missing or of another kind"),
    ({"via": None, "discard": False}, "", "the member 'via' is missing or of another kind"),
    ({"via": None, "discard": 1}, "", "the member 'discard' is missing or of another kind"),
    ({"via": 7}, "", "the member 'via' is missing or of another kind"), ({}, "", "the member 'discard' is missing"),
)
ROWS = [route_text(f"10.{second}.0.0/16") for second in range(4)]
OBJECTS = [json.dumps({"prefix": f"10.{second}.0.0/16", "feed": 1, "file": "a", "pref": 1, "via": "192.0.2.1"}) for second in range(4)]
NO_TOTAL = "the table may be truncated, since its last line isn't `total N`: use the output of `yarib table --total`, or --partial"
OTHER_TOTAL = "the table should have {} routes and has {}: use the whole table, or --partial"
# tables that may be a part of one, each with a part of the message
PARTS = {
    **{f"{number} rows without a total": (ROWS[:number], NO_TOTAL) for number in range(1, 5)},
    **{f"{number} of 4 rows": ([*ROWS[:number], "total 4"], OTHER_TOTAL.format(4, number)) for number in range(1, 4)},
    **{f"4 of {number} rows": ([*ROWS, f"total {number}"], OTHER_TOTAL.format(number, 4)) for number in (0, 3, 5)},
    "3 of 4 rows of a run": (["table 4", *ROWS[:3]], OTHER_TOTAL.format(4, 3)),
    "objects without a total": (OBJECTS, NO_TOTAL),
    "4 of 5 objects": ([*OBJECTS, '{"total":5}'], OTHER_TOTAL.format(5, 4)),
}
# what `table` never prints, and what has no routes
NO_TABLES = {
    "rows behind the total": ([*ROWS, "total 4", *ROWS], "line 6: there is more after the table's last line: '10.0.0.0/16 feed 1"),
    "blank behind the total": ([*ROWS, "total 4 "], "line 5 is not understood: 'total 4 '"),
    "negative total": ([*ROWS, "total -4"], "line 5 is not understood: 'total -4'"),
    "blank in the total's object": ([*OBJECTS, '{"total": 4}'], "line 5: the member 'prefix' is missing"),
    "no routes": (["total 0"], "the table has no routes"),
    "number as a next hop": ([OBJECTS[0].replace('"192.0.2.1"', "7")], "line 1: the member 'via' is missing or of another kind"),
    "list as a next hop": ([OBJECTS[0].replace('"192.0.2.1"', "[]")], "line 1: the member 'via' is missing or of another kind"),
    "null as a next hop": ([OBJECTS[0].replace('"192.0.2.1"', "null")], "line 1: the member 'discard' is missing or of another kind"),
    "deep object": (['{"prefix":' * 100000], "line 1 is not understood"),
    "report without a table": (["1:1 added"], "the input is only a report"),
}
WHOLE = {"rows": ([*ROWS, "total 4"], ""), "objects": ([*OBJECTS, '{"total":4}'], ""), "rows of a run": (["table 4", *ROWS], "")}
OUTSIDE = "2 routes have a next hop outside all connected networks of the table: "
# The form and the interfaces for a table with next hops outside all connected networks, and what is reported.
OUTSIDE_CASES = (
    ("table-to-bird --device uplink", f"{OUTSIDE}BIRD has the route as unreachable if none of its other routes has "
     "the next hop (use --onlink NAME to name the interface)\n"),
    ("table-to-ip --device uplink", f"{OUTSIDE}unless an interface has such a network already, `ip -batch` stops there "
     "(use --onlink NAME to name the interface)\n"),
    ("table-to-ip --device 192.0.2.0/24=uplink --onlink other", ""),
    ("table-to-frr --device uplink", f"{OUTSIDE}FRR doesn't use the route if none of its other routes has the next "
     "hop (use --onlink NAME to name the interface)\n"),
    ("table-to-frr --device uplink --onlink other", ""),
    ("table-to-bird --device uplink --onlink other", ""),
)


REFUSALS = (
    ("", "bird/static-routes.txt", "line 1 is not understood"),
    ("", "table/run.txt", "--device"),
    ("--device uplink", "table/run.txt", "several connected networks (192.0.2.0/24, 198.51.100.0/24)"),
    ("--device uplink --device other", "table/run.txt", "give each with its network"),
    ("--device 10.0.0.0/8=uplink", "table/run.txt", "isn't a connected network"),
)


def lines_text(lines):
    """Returns these lines as bytes."""
    return "".join(f"{line}\n" for line in lines).encode()


class Refusals(ConverterCase):
    """Tables and options that are refused in one line."""

    def test_table_that_is_cut(self):
        table = sample("table/run.txt")
        self.assert_refused(self.convert("table-to-bird", table[: table.rindex(b"\n", 0, -1) + 1]), "the table should have")


class Options(ConverterCase):
    """Interfaces and connected networks."""

    def test_texts_that_are_no_interface(self):
        """They are refused with the command line, for each form and option."""
        for form in FORMS:
            for option in ("--onlink", "--device", "--device=10.0.0.0/8"):
                with self.subTest(f"{form} {option}"):
                    ended = self.convert(f"table-to-{form}", TABLE, f"{option}=a b")
                    self.assertEqual((ended.returncode, ended.stdout), (2, ""))
                    self.assertIn("'a b' is not the name of an interface", ended.stderr)

    def test_names_that_no_interface_has(self):
        for name in NAMES:
            with self.subTest(repr(name)):
                ended = self.convert("table-to-ip", TABLE, f"--onlink={name}")
                self.assertEqual((ended.returncode, ended.stdout), (2, ""))
                self.assertIn(f"argument --onlink: {name!r} is not the name of an interface", ended.stderr)

    def test_names_of_interfaces(self):
        for name in ("eth0", "eth0.100", "br-lan", "wg_0", "a" * 127):
            with self.subTest(name):
                ended = self.convert("table-to-ip", TABLE, f"--onlink={name}")
                self.assertEqual((ended.returncode, ended.stderr), (0, ""))
                self.assertIn(f" dev {name} onlink ", ended.stdout)

    def test_router_in_nested_networks(self):
        """A router is reached by the longest connected network that contains it."""
        ended = self.convert(f"table-to-bird {BOTH}", NESTED)
        self.assertEqual((ended.returncode, ended.stderr), (0, ""))
        self.assertEqual([line[8:-1] for line in ended.stdout.splitlines() if line.startswith("  route ")], [
            '10.0.0.0/8 via "outer"', '10.1.0.0/16 via "inner"', "192.0.2.0/24 via 10.1.0.1%'inner' onlink",
            "198.51.100.0/24 via 10.2.0.1%'outer' onlink"])

    def test_networks_and_interfaces(self):
        """Each --device counts, for each form."""
        for form in FORMS:
            with self.subTest(form):
                ended = self.converted(f"table-to-{form} {BOTH}", NESTED)
                self.assertEqual(("inner" in ended.stdout, "outer" in ended.stdout), (True, True))
            for name, options, part in (
                ("network twice", TWICE, "--device 10.0.0.0/8=outer and --device 10.0.0.0/8=other: give its interface once"),
                ("network without one", "--device 10.1.0.0/16=inner", "10.0.0.0/8 is a connected network: name its interface"),
                ("interface too many", f"{BOTH} --device more", "--device more: each connected network of the table has an interface"),
            ):
                with self.subTest(f"{form}, {name}"):
                    ended = self.convert(f"table-to-{form} {options}", NESTED)
                    self.assertEqual((ended.returncode, ended.stdout), (1, ""))
                    self.assertIn(part, ended.stderr)


class Replace(ConverterCase):
    """The file of --replace, which has the kernel's routes."""

    def assert_file_refused(self, text, part):
        """Fails unless a file is refused as a whole, and no command is written."""
        self.write({"own.json": text})
        ended = self.convert("table-to-ip --onlink uplink --replace", TABLE, self.folder / "own.json")
        self.assert_refused(ended, part)
        self.assertIn(f": {self.folder / 'own.json'}", ended.stderr)

    def test_routes_that_are_not_the_kernels(self):
        for route, part in ROUTES:
            with self.subTest(json.dumps(route)):
                self.assert_file_refused(json.dumps([OWN, OWN | route]), part)

    def test_other_files(self):
        for name, text, part in FILES:
            with self.subTest(name):
                self.assert_file_refused(text, part)

    def test_routes_that_the_table_does_not_have(self):
        """The commands also remove these; the kernel was given them."""
        ended = self.convert("table-to-ip --device uplink --device 192.0.2.0/24=uplink --replace kernel/own-routes.json",
                             table_of("table/fewer.txt"))
        self.assertEqual((ended.returncode, ended.stderr), (0, ""))
        self.assert_kept("table/replaced.ip", ended.stdout)
        left = {route["dst"].replace("default", "0.0.0.0/0") for route in json.loads(sample("kernel/own-routes-after.json"))}
        self.assertEqual(left, {line.split()[0] for line in sample("table/fewer.txt").decode().splitlines()})


class Tables(ConverterCase):
    """Tables, whole and in part."""

    def test_next_hops_in_json(self):
        """In JSON a route without a next hop is a discard only if it says so."""
        for members, wanted, part in JSON_HOPS:
            with self.subTest(json.dumps(members)):
                table = table_text([json.dumps({"prefix": "10.0.0.0/8", "feed": 1, "pref": 1} | members)])
                ended = self.convert("table-to-ip --onlink uplink", table)
                if wanted:
                    self.assertEqual(ended.stdout, wanted)
                else:
                    self.assert_refused(ended, part)

    def test_lines_of_the_report(self):
        """Lines of the run's report whose command left no route in the table are reported, and others aren't."""
        table = f"table 1\n{route_text('10.0.0.0/8')}\n"
        for name, report, told in (
            ("full, refused and fault", "1:1 added\n1:2 full\n1:3 refused\n1:4 fault E5\n",
             "3 lines of the report say full, refused or fault: their routes are not in the table (status 3)\n"),
            ("others", "1:1 added\n1:2 exists\n1:3 dumped 1\n", ""),
        ):
            with self.subTest(name):
                ended = self.convert("table-to-frr --onlink uplink", report + table)
                self.assertEqual((ended.returncode, ended.stderr, ended.stdout != ""), (OTHERWISE if told else 0, told, True))

    def test_next_hops_outside_all_networks(self):
        """They are looked up again, which is reported, or reached onlink."""
        for number, (command, told) in enumerate(OUTSIDE_CASES):
            with self.subTest(command):
                ended = self.convert(command, table_of("by-hand/outside.txt"))
                self.assert_kept(f"by-hand/outside-{number}.txt", ended.stdout)
                self.assertEqual((ended.returncode, ended.stderr), (0, told))

    def test_full_output(self):
        """An output that is full in the middle of the last write ends with status 1, also if Python doesn't buffer its
        output."""
        table = table_text([route_text(f"10.{number >> 8}.{number & 255}.0/24") for number in range(2000)])
        for form in FORMS:
            whole = len(self.convert(f"table-to-{form} --onlink uplink", table).stdout)
            limited = lambda: resource.setrlimit(resource.RLIMIT_FSIZE, (whole - 10,) * 2)
            for name, unbuffered in (("", ""), (" without a buffer", "1")):
                with self.subTest(f"{form}{name}"), open(self.folder / "full", "w") as full:
                    ended = self.convert(f"table-to-{form} --onlink uplink", table, stdout=full, preexec_fn=limited,
                                         env=commands.environment() | {"PYTHONUNBUFFERED": unbuffered})
                    self.assertEqual((ended.returncode, ended.stderr), (1, f"table-to-{form}: standard output: File too large\n"))

    def test_commands_of_pages(self):
        """The pages' commands that install a table notice if it was truncated, or if a command before failed."""
        pages = commands.CONVERT / "README.md", TOP / "README.md", *sorted((TOP / "docs").glob("*.md"))
        blocks = [block for page in pages for block in re.findall(r"(?ms)^```sh\n(.*?)^```", page.read_text())
                  if re.search(r"\| *\S*table-to-(?:ip|bird|frr)", block)]
        is_careful = lambda block: block.startswith("set -o pipefail\n") and " --total " in block and "&& ip -batch" in block
        self.assertEqual([block for block in blocks if not is_careful(block)], [])
        self.assertGreaterEqual(len(blocks), 2)


def check_refused(test, lines, part):
    """A table whose last line doesn't say how many routes it has is refused, as when `table` was ended by a signal; so is
    one with another number."""
    test.assert_refused(test.convert("table-to-ip --onlink uplink", lines_text(lines)), part)


def check_accepted(test, lines, option):
    """A whole table is converted, and another one if it is said to be a part."""
    ended = test.convert(f"table-to-ip --onlink uplink {option}", lines_text(lines))
    test.assertEqual((ended.returncode, ended.stderr), (0, ""))
    test.assertEqual(ended.stdout.count("\n"), sum("via" in line for line in lines))


add_tests(Tables, "refused", check_refused, PARTS | NO_TABLES)
add_tests(Tables, "accepted", check_accepted, WHOLE | {f"part: {name}": (lines, "--partial") for name, (lines, _) in PARTS.items()})
add_refusals(Refusals, "table-to-ip", REFUSALS)

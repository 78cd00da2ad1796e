"""Tests of tables that are converted back for a daemon or the kernel, from what the program prints; and of what the kernel
has then."""
import json
import re
import shutil
import subprocess
import unittest

from convert.tests.converting import ConverterCase, many, rows_of, table_text
from dev.crates import TOP
from dev.models.table_model import route_text
from dev.testing import call as call_command
from dev.testing import environment, needs_command, program

NEEDS = {"program"}
FORMS = ("bird", "frr", "ip")
DEVICES = "--device 192.0.2.0/24=uplink --device 198.51.100.0/24=uplink"
DEVICE_ROUTES = ("--device 10.128.0.1/32=uplink --device 10.2.0.0/16=uplink --onlink uplink "
                 "--device 10.98.0.0/16=tenant --device 198.51.100.0/24=tenant")
# the line of a page that finds lost backups
COMPARED = re.compile(r"^diff <\(\./yarib table --names before/\*\.feed\) <\(\./yarib table --names after/\*\.feed\)$", re.M)
# a host with an address, a default and a route of its own
HOST = """
ip link add uplink type veth peer name far
ip link set far up
ip addr add 192.0.2.254/24 dev uplink
ip link set uplink up
ip route add default via 192.0.2.1
ip route add 10.1.0.0/16 via 192.0.2.2
"""
KERNEL = table_text([route_text(prefix, hop=hop) for prefix, hop in (
    ("0.0.0.0/0", "192.0.2.9"), ("10.0.0.0/8", "192.0.2.3"), ("10.1.0.0/16", "192.0.2.9"), ("10.2.0.0/16", "discard"),
    ("192.0.2.0/24", "0.0.0.0"), ("198.51.100.0/24", "192.0.2.4"))])
FEWER = table_text([route_text(prefix, hop=hop) for prefix, hop in (
    ("10.0.0.0/8", "192.0.2.5"), ("10.2.0.0/16", "192.0.2.6"), ("192.0.2.0/24", "0.0.0.0"))])
# what the kernel has of KERNEL and of FEWER: prefix, protocol, metric, next hop
OWN = [("default", "121", 121, "192.0.2.9"), ("10.0.0.0/8", "121", 121, "192.0.2.3"), ("10.1.0.0/16", "121", 121, "192.0.2.9"),
       ("10.2.0.0/16", "121", 121, "blackhole"), ("192.0.2.0/24", "121", 121, None), ("198.51.100.0/24", "121", 121, "192.0.2.4")]
OWN_OF_FEWER = [("10.0.0.0/8", "121", 121, "192.0.2.5"), ("10.2.0.0/16", "121", 121, "192.0.2.6"), ("192.0.2.0/24", "121", 121, None)]


def row_of(row, files, options):
    """Returns a row of `yarib table` as these options print it."""
    prefix, *words = row.split(" ")
    parts = dict(zip(words[::2], words[1::2]))
    number, hop = parts.pop("feed"), parts.pop("via")
    file = files[int(number) - 1]
    if "--json" not in options:
        return f"{row.replace(f'feed {number} ', f'feed {file.stem} ')}\n"
    named = {"name": file.stem} if "--names" in options else {}
    way = {"via": None, "discard": True} if hop == "discard" else {"via": hop}
    members = {"prefix": prefix, "feed": int(number), **named, "file": str(file)}
    members |= {name: int(value) for name, value in parts.items()} | way
    return json.dumps(members, separators=(",", ":")) + "\n"


class FromTheProgram(ConverterCase):
    """Tables that the program prints are converted back to each form."""

    def setUp(self):
        self.files = self.convert_sample("bird-to-feeds", "bird/static-routes.txt", folder="feeds").files

    def assert_forms(self, table):
        """Fails unless a table gives the kept form of each daemon and of the kernel."""
        for form in FORMS:
            ended = self.convert(f"table-to-{form} {DEVICES}", table)
            self.assertEqual((ended.returncode, ended.stderr), (0, ""))
            self.assert_kept(f"table/table.{form}", ended.stdout)

    def test_run(self):
        ended = self.yarib("run", "--batch", "256", *self.files)
        self.assertEqual((ended.returncode, ended.stderr), (0, ""))
        self.assert_kept("table/run.txt", ended.stdout)
        rows = "".join(f"{row}\n" for row in rows_of(self.files))
        self.assertEqual(ended.stdout[-len(rows) :], rows)
        self.assert_forms(ended.stdout)

    def test_table(self):
        """The forms of `table` that name feeds, or are JSON, give what the others give."""
        for options in ([], ["--names"], ["--json"], ["--best", "--json", "--names"]):
            with self.subTest(" ".join(options) or "no option"):
                ended = self.yarib("table", "--total", *options, *self.files)
                self.assert_ended(ended, self.table_of(options))
                self.assert_forms(ended.stdout)

    def table_of(self, options):
        """Returns what `yarib table --total` prints with these options."""
        rows, best = rows_of(self.files), {}
        for row in rows:
            best.setdefault(row.split(" ")[0], row)
        if not options:
            return table_text(rows).decode()
        forms = [row_of(row, self.files, options) for row in (best.values() if "--best" in options else rows)]
        return "".join(forms) + (f'{{"total":{len(forms)}}}\n' if "--json" in options else f"total {len(forms)}\n")

    def test_table_that_a_signal_ended(self):
        """What `yarib table` has written when a signal ends it ends with a whole line, and is refused."""
        self.write({"large.feed": "version 2\n" + many("add {} 1 192.0.2.1\n", 50000)})
        table = subprocess.Popen([program(), "table", "--total", self.folder / "large.feed"], stdout=subprocess.PIPE)
        # more than a pipe holds is still to come
        read = table.stdout.read(100000)
        table.terminate()
        read += table.stdout.read()
        table.stdout.close()
        self.assertLess(table.wait(), 0)
        self.assertLess(read.count(b"\n"), 50000)
        ended = self.convert("table-to-ip --onlink uplink", read[: read.rindex(b"\n") + 1])
        self.assert_refused(ended, "its last line isn't `total N`")

    def test_lost_backup(self):
        """A page's line shows a lost backup by its feed's name, and `yarib diff` shows no difference."""
        line = COMPARED.search((TOP / "docs/FULL-TABLES.md").read_text())
        self.assertIsNotNone(line, "the page has no line that compares two tables")
        (self.folder / "feeds").rename(self.folder / "before")
        # the backup of upstream_b to 10.0.0.0/8 is gone
        before, backup = (self.folder / "before/upstream_b.feed").read_text(), "add 10.0.0.0/8 2 192.0.2.9\n"
        self.assertIn(backup, before)
        shutil.copytree(self.folder / "before", self.folder / "after")
        self.write({"after/upstream_b.feed": before.replace(backup, "")})
        (self.folder / "yarib").symlink_to(program())
        lost = route_text("10.0.0.0/8", "upstream_b", 2, "192.0.2.9")
        self.assert_ended(self.call("bash", "-c", line[0], env=environment()), f"3d2\n< {lost}\n", returncode=1)
        self.assert_ended(self.call("bash", "-c", "./yarib diff before/*.feed -- after/*.feed", env=environment()))


class Hosts(ConverterCase):
    """A host whose gateway is in no network of an interface."""

    def test_device_routes(self):
        """BIRD and the kernel were given these forms of its table."""
        files = self.convert_sample("ip-to-feeds", "kernel/devices.json").files
        for form in ("bird", "ip"):
            with self.subTest(form):
                ended = self.convert(f"table-to-{form} {DEVICE_ROUTES}", table_text(rows_of(files)))
                self.assert_kept(f"table/devices.{form}", ended.stdout)
                self.assertEqual((ended.returncode, ended.stderr), (0, ""))


def routes_of(listed):
    """Returns the routes that `ip -j route` lists, each as its prefix, protocol, metric and next hop."""
    return [(route["dst"], route.get("protocol", "boot"), route.get("metric", 0), route.get("gateway", route.get("type")))
            for route in json.loads(listed)]


@needs_command("ip", "unshare")
class Kernel(ConverterCase):
    """What the kernel of a new host has after the commands of table-to-ip."""

    @classmethod
    def setUpClass(cls):
        if call_command(["unshare", "--net", "ip", "link"]).returncode:
            raise unittest.SkipTest("no network namespace can be made here")

    def on_a_host(self, commands):
        """Returns the routes that each `ip -j route` of these commands lists on a new host."""
        ended = self.call("unshare", "--net", "sh", "-ec", HOST + commands)
        self.assertEqual(ended.returncode, 0, ended.stderr)
        return ended.stdout.splitlines()

    def write_commands(self, name, table, options="", *more):
        """Writes the commands for a table into a file."""
        ended = self.convert(f"table-to-ip --device uplink {options}", table, *more)
        self.assertEqual((ended.returncode, ended.stderr), (0, ""))
        self.write({name: ended.stdout})

    def assert_routes(self, listed, routes):
        self.assertEqual(sorted(routes_of(listed), key=str), sorted(routes, key=str))

    def test_flush(self):
        """A flush of their protocol leaves the host as it was before."""
        self.write_commands("all", KERNEL)
        before, full, flushed = self.on_a_host("ip -j route; ip -batch all; ip -j route; ip route flush proto 121; ip -j route")
        self.assert_routes(full, routes_of(before) + OWN)
        self.assertEqual(routes_of(flushed), routes_of(before))

    def test_take_over(self):
        """With --take-over the routes of the host itself are gone with those that took them over."""
        self.write_commands("over", KERNEL, "--take-over")
        before, over, flushed = self.on_a_host("ip -j route; ip -batch over; ip -j route; ip route flush proto 121; ip -j route")
        self.assertEqual([route for route in routes_of(over) if route[0] == "default"], [("default", "121", 0, "192.0.2.9")])
        self.assertEqual(routes_of(flushed), [route for route in routes_of(before) if route[1] == "kernel"])

    def test_replace(self):
        """--replace leaves only the routes of the new table, also after --take-over."""
        for name, options in (("no option", ""), ("--take-over", "--take-over")):
            with self.subTest(name):
                self.write_commands("first", KERNEL, options)
                before, listed = self.on_a_host("ip -j route; ip -batch first; ip -j route show proto 121")
                self.write({"listed": listed})
                self.write_commands("replacing", FEWER, "--replace", self.folder / "listed")
                (replaced,) = self.on_a_host("ip -batch first; ip -batch replacing; ip -j route")
                others = [route for route in routes_of(before) if not options or route[1] == "kernel"]
                self.assert_routes(replaced, others + OWN_OF_FEWER)

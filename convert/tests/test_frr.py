"""Tests of FRR's tables, of bgpd and of zebra: samples, forms of newer versions, and cases by hand."""
import json

from convert.tests.conversions import FRR, FRR_RANKS, add_conversions
from convert.tests.converting import OTHERWISE, ConverterCase, add_refusals, sample

NEEDS = {"program"}
DETAIL = "debian-13/ranks/frr-detail.json"
REFUSALS = (
    ("", "gobgp/rib.json", "'nexthops' is missing or of another kind"),
    ("", "openbgpd/rib.json", "'routes' is missing"),
    ("", "frr/vrfs.json", "several VRFs: blue, default; choose one with --vrf"),
    ("", "frr/bgp-vrfs.json", "several VRFs: default, blue; choose one with --vrf"),
    ("--vrf red", "frr/vrfs.json", "there is no VRF red; there are: blue, default"),
    ("", "frr/tables.json", "several tables: 100, 254; choose one with --table"),
    ("--table 99", "frr/tables.json", "there is no table 99; there are: 100, 254"),
)


class Samples(ConverterCase):
    """What FRR printed gives the kept feeds, and FRR's answers."""


class Forms(ConverterCase):
    """The same paths in other forms, which versions differ in."""

    def dumped(self, shown, options="", returncode=0):
        """Converts a document, which has to end with this status."""
        return self.converted(f"frr-to-feeds {options}", json.dumps(shown).encode(), returncode=returncode)

    def test_lists_of_version_10(self):
        """FRR 10 shows an object for each prefix with `json detail` and a list with `detail json`; both have the same
        paths."""
        shown, listed = (self.convert_sample("frr-to-feeds", f"debian-13/ranks/{name}.json") for name in ("frr-detail", "frr-detail-list"))
        self.assertEqual(listed.result, shown.result)

    def test_data_of_the_prefix(self):
        """The data of the prefix is recognized by its members, wherever it is listed."""
        shown = json.loads(sample("ranks/frr-detail.json"))
        whole = self.dumped(shown).result
        for paths in shown["routes"].values():
            paths.append(paths.pop(0))
        self.assertEqual(self.dumped(shown).result, whole, "behind the paths")
        for paths in shown["routes"].values():
            paths.pop()
        self.assertEqual(self.dumped(shown).result, whole, "missing")

    def test_interfaces_that_are_not_shown(self):
        """The address of a link-local next hop whose interface isn't shown is the name of the interface."""
        shown = json.loads(sample("debian-13/frr/unnumbered.json"))
        for paths in shown["routes"].values():
            for path in paths:
                path["nexthops"][1].pop("interface")
                path["peerId"] = path["nexthops"][1]["ip"] = f"fe80::{path['path'][-1]}"
        ended = self.dumped(shown, "--ipv6-hop 192.0.2.7", OTHERWISE)
        self.assertIn("9 routes have an IPv6 next hop (4 over fe80::1, 5 over fe80::2), and the next hop 192.0.2.7 in the feeds", ended.stderr)
        named = self.dumped(shown, "--ipv6-hop fe80::1=192.0.2.1 --ipv6-hop fe80::2=192.0.2.2")
        for line in ("add 10.1.0.0/16 1 192.0.2.1", "add 10.2.0.0/16 1 192.0.2.2"):
            self.assertIn(line, named.text)


class Choice(ConverterCase):
    """How FRR's choice is known of what it prints."""

    def test_stale_paths(self):
        """Stale paths are counted. Their peers' identifier 0.0.0.0 isn't compared, so the criteria give the same with and
        without `detail`, which shows it."""
        data = sample("debian-13/ranks/frr-stale.json")
        told = "64 paths are stale: FRR keeps them after the ends of their peers' sessions, and doesn't show these peers' router identifiers"
        self.assertIn(told, self.convert("frr-to-feeds", data).stderr.splitlines())
        without = self.convert("frr-to-feeds --unsorted", data.replace(b'"routerId":"0.0.0.0"', b'"none":""'))
        self.assertEqual(self.convert("frr-to-feeds --unsorted", data).result, without.result)

    def test_aigp(self):
        """If FRR chooses by AIGP, and lists paths in no order, they are ranked by it with --aigp; else their number is
        reported."""
        data = sample("debian-13/ranks/frr-aigp.json")
        for name, options, changed, prefixes in (
            ("no --aigp", "--unsorted", data, 36), ("one path has none", "--unsorted --aigp", data.replace(b'"aigpMetric":10,', b"", 1), 1),
        ):
            with self.subTest(name):
                ended = self.converted(f"frr-to-feeds {options}", changed, returncode=OTHERWISE)
                self.assertIn(f"{prefixes} prefixes have several paths, and FRR compares AIGP", ended.stderr)

    def test_order_of_paths(self):
        """Paths are ranked as listed only if all prefixes may be listed in the order of FRR's choice, and this is
        reported."""
        shown = json.loads(sample(DETAIL))
        convert = lambda options="": self.convert(f"frr-to-feeds {options}", json.dumps(shown).encode())
        listed, unsorted = convert(), convert("--unsorted").text
        self.assertEqual(listed.returncode, 0)
        self.assertIn("7 prefixes are ranked as listed", listed.stderr)
        self.assertNotEqual(listed.text, unsorted, "the sample's order is that of the criteria")
        # in one prefix the choice is listed last, or a later path has more local preference
        paths = shown["routes"]["10.35.0.0/16"]["paths"]
        paths.append(paths.pop(0))
        self.assertEqual(convert().text, unsorted, "a choice that is listed last")
        paths.insert(0, paths.pop())
        paths[1]["locPrf"], paths[2]["locPrf"] = 100, 101
        self.assertEqual(convert().text, convert("--unsorted").text, "a local preference that rises")

    def test_single_prefix(self):
        """A table without evidence is ranked by the criteria, and what differs is reported; --sorted decides."""
        shown = json.loads(sample(DETAIL))
        shown["routes"] = {"10.31.0.0/16": shown["routes"]["10.31.0.0/16"]}
        convert = lambda options="": self.convert(f"frr-to-feeds {options}", json.dumps(shown).encode())
        ended = convert()
        self.assertEqual(ended.returncode, 0)
        self.assertIn("1 prefixes are ranked by BGP's criteria and listed in another order", ended.stderr)
        self.assertEqual(ended.text, convert("--unsorted").text)
        self.assertNotEqual(convert("--sorted").text, ended.text)
        paths = shown["routes"]["10.31.0.0/16"]["paths"]
        paths.append(paths.pop(0))
        ended = convert("--sorted")
        self.assertEqual(ended.returncode, OTHERWISE)
        self.assertIn("1 prefixes are ranked as listed, and FRR's choice isn't listed first", ended.stderr)


class ByHand(ConverterCase):
    """Samples with a changed member."""

    def test_damped_path(self):
        damped = sample("frr/bgp.json").replace(b'"valid":true,"pathFrom"', b'"valid":true,"damped":true,"pathFrom"', 1)
        ended = self.converted("frr-to-feeds", damped)
        self.assertIn("accepted 15 routes; omitted 3 that are not valid", ended.stderr)
        self.assertIn("add 10.0.0.0/8 1 192.0.2.1\n", ended.text)

    def test_routes_that_the_kernel_does_not_have(self):
        """A route that zebra has chosen and the kernel or the hardware doesn't have is counted, whatever kept it away."""
        failed = sample("frr/failed.json").decode()
        for name, member, told in (
            ("failed", '"failed":true', "2 routes are chosen by zebra, and the kernel refused them (failed)"),
            ("queued", '"queued":true', "2 routes are chosen by zebra, and the kernel doesn't have them yet (queued)"),
            ("offload failed", '"offloaded":false', "2 routes are chosen by zebra, and the hardware refused them (offload failed)"),
        ):
            with self.subTest(name):
                ended = self.converted("frr-to-feeds", failed.replace('"failed":true', member).encode(), returncode=OTHERWISE)
                self.assertIn(told, ended.stderr.splitlines())
        taken = self.converted("frr-to-feeds", failed.replace('"failed":true', '"offloaded":true').encode())
        self.assertNotIn("kernel", taken.stderr)


class Refusals(ConverterCase):
    """Input that is refused in one line; nothing is changed."""

    def test_missing_colon(self):
        self.assert_unchanged("frr-to-feeds", b'{"routes" {}}', "':' is missing at line 1")

    def test_more_behind_a_table(self):
        """A list or FRR's error behind the table is refused, as of a second command whose output follows."""
        for name, table in (("bgpd", sample("frr/plain.json")), ("zebra", sample("frr/rib.json"))):
            for more in (b"[]\n", b"% Unknown command: show bgp\n"):
                with self.subTest(f"{name} {more.decode().strip()}"):
                    self.assert_unchanged("frr-to-feeds --one-hop", table + more, f"line {table.count(bytes([10])) + 1}")


add_conversions(Samples, FRR, FRR_RANKS)
add_refusals(Refusals, "frr-to-feeds", REFUSALS)

"""The samples that are converted: what a daemon printed, the feeds that are kept, and what the daemon answered.

Where an answer of ours is another than the daemon's, a sample with the differences has the address with both. FRR's look-up
command shows the longest prefix with anything that bgpd keeps, here a path that was withdrawn and is kept by damping, while
packets go by the route of 192.168.0.0/16. In updates, a collector records neither its own policy (the local preference of
203.0.113.0/24) nor its own routes (198.18.0.0/15). GoBGP's updates show nothing of a peer whose session ended for good (four
prefixes). With one --ipv6-hop for all interfaces, routes over another interface have its address. Among equal paths of one
peer FRR keeps the one that came first, and it compares MED in turn."""
from typing import NamedTuple

from convert.tests.converting import DONE, OTHERWISE, add_tests, rows_of


class Case(NamedTuple):
    """A conversion: the converter with its options, the sample, the feeds and notes that are kept, the daemon's answers, the
    known differences, and the status."""
    command: str
    sample: str
    feeds: str
    answers: str | None = None
    differences: str | None = None
    returncode: int = DONE

    @property
    def name(self):
        """The case's name: the sample and the options."""
        return " ".join([self.sample, *self.command.split()[1:]])


class Ranks(NamedTuple):
    """A table with routes of several peers to the same prefix: the converter with its options, the sample, the daemon's
    answers with all sessions, after the first and after both of the sessions of these feeds had ended, and the known
    differences."""
    command: str
    sample: str
    answers: str
    ended: tuple = ()
    differences: str | None = None

    @property
    def name(self):
        """The case's name: the sample and the options."""
        return " ".join([self.sample, *self.command.split()[1:]])


RULES = "--rules kernel/rules-plain.json"
# the communities of routes that the OpenBGPD of openbgpd/blackhole.conf discards
MARKS = " ".join(f"--discard-community {mark}" for mark in ("BLACKHOLE", "65001:666", "65001:6:66"))
# the addresses in place of the interfaces of debian-13/kernel/interfaces.json
OVER = " ".join(f"--{option} {name}=203.0.113.{number}" for option in ("connected", "ipv6-hop")
                for number, name in enumerate(("first", "second"), 1))
# an address in place of every interface
UNNAMED = "--ipv6-hop 203.0.113.9"
BIRD = (
    Case("bird-to-feeds --one-hop", "bird/static-routes.txt", "bird/static-feeds.txt", "bird/static-answers.txt"),
    Case("bird-to-feeds --one-hop", "bird/static-routes-all.txt", "bird/static-feeds.txt", "bird/static-answers.txt"),
    Case("bird-to-feeds --one-hop --table master4", "bird/all-tables.txt", "bird/of-one-table-feeds.txt", "bird/static-answers.txt"),
    Case("bird-to-feeds --one-hop --by preference", "bird/static-routes.txt", "bird/static-feeds-by-preference.txt"),
    Case("bird-to-feeds --one-hop --connected 192.0.2.254", "bird/of-one-protocol.txt", "bird/of-one-protocol-feeds.txt"),
    Case("bird-to-feeds", "bird/bgp-routes-all.txt", "bird/bgp-feeds.txt", "bird/bgp-answers.txt"),
    Case("bird-to-feeds", "bird/protocols.txt", "bird/protocols-feeds.txt", "bird/protocols-answers.txt"),
    Case("bird-to-feeds", "ranks/bird-brief.txt", "ranks/bird-brief-feeds.txt", "ranks/bird-answers.txt"),
    Case("bird-to-feeds", "bird/flags.txt", "bird/flags-feeds.txt", "bird/flags-answers.txt"),
    Case("bird-to-feeds", "bird/flags-all.txt", "bird/flags-all-feeds.txt", "bird/flags-answers.txt"),
    Case("bird-to-feeds --exported", "bird/exported.txt", "bird/exported-feeds.txt", "bird/exported-answers.txt"),
    Case("bird-to-feeds", "bird/resolved.txt", "bird/resolved-feeds.txt", "bird/resolved-answers.txt"),
    Case("bird-to-feeds", "bird/own-default.txt", "bird/own-default-feeds.txt"),
    Case("bird-to-feeds", "bird/device-all.txt", "bird/device-feeds.txt"),
    Case(f"bird-to-feeds {OVER}", "debian-13/bird/unnumbered.txt", "debian-13/bird/unnumbered-feeds.txt",
         "debian-13/bird/unnumbered-answers.txt"),
    Case(f"bird-to-feeds {OVER}", "debian-13/bird/unnumbered-all.txt", "debian-13/bird/unnumbered-feeds.txt",
         "debian-13/bird/unnumbered-answers.txt"),
    Case(f"bird-to-feeds {UNNAMED}", "debian-13/bird/unnumbered-all.txt", "debian-13/bird/unnumbered-unnamed-feeds.txt",
         returncode=OTHERWISE),
    Case("bird-to-feeds --table master4", "bird/other.txt", "bird/other-feeds.txt", "bird/other-answers.txt", returncode=OTHERWISE),
    Case("bird-to-feeds", "bird/other.txt", "bird/other-counted-feeds.txt", "bird/other-answers.txt", returncode=OTHERWISE),
    Case("bird-to-feeds", "bird/labels.txt", "bird/labels-feeds.txt", "bird/labels-answers.txt", "bird/labels-differences.txt", OTHERWISE),
    Case("bird-to-feeds", "bird/labels-all.txt", "bird/labels-feeds.txt", "bird/labels-answers.txt", "bird/labels-differences.txt",
         OTHERWISE),
)
KERNEL = (
    Case("ip-to-feeds --one-hop", "kernel/routes.json", "kernel/feeds.txt", "kernel/answers.txt"),
    Case("ip-to-feeds --ipv6-hop 192.0.2.6", "kernel/ipv6-hop.json", "kernel/ipv6-hop-feeds.txt"),
    Case("ip-to-feeds --one-hop", "kernel/links.json", "kernel/links-feeds.txt", "kernel/links-answers.txt"),
    Case(f"ip-to-feeds {RULES} {OVER} --connected uplink=0.0.0.0 --connected tenant=0.0.0.0",
         "kernel/devices.json", "kernel/devices-named-feeds.txt", "kernel/devices-answers.txt"),
    Case(f"ip-to-feeds {OVER}", "debian-13/kernel/interfaces.json", "debian-13/kernel/interfaces-feeds.txt",
         "debian-13/kernel/interfaces-answers.txt"),
    Case(f"ip-to-feeds {RULES}", "kernel/devices.json", "kernel/devices-feeds.txt", "kernel/devices-answers.txt", returncode=OTHERWISE),
    Case(f"ip-to-feeds {UNNAMED}", "debian-13/kernel/interfaces.json", "debian-13/kernel/interfaces-unnamed-feeds.txt",
         "debian-13/kernel/interfaces-answers.txt", "debian-13/kernel/interfaces-unnamed-differences.txt", OTHERWISE),
    Case("ip-to-feeds --one-hop", "kernel/nexthop-shown.json", "kernel/nexthop-feeds.txt", "kernel/nexthop-answers.txt",
         returncode=OTHERWISE),
    Case("ip-to-feeds --one-hop --nexthops kernel/nexthop-objects.json", "kernel/nexthop-numbers.json", "kernel/nexthop-feeds.txt",
         "kernel/nexthop-answers.txt", returncode=OTHERWISE),
)
FRR = (
    Case("frr-to-feeds", "frr/bgp.json", "frr/feeds.txt", "frr/answers.txt", "frr/differences.txt"),
    Case("frr-to-feeds", "frr/aggregate.json", "frr/aggregate-feeds.txt", "by-hand/aggregate-answers.txt"),
    Case("frr-to-feeds --one-hop", "frr/rib.json", "frr/rib-feeds.txt", "frr/rib-answers.txt"),
    Case("frr-to-feeds", "frr/plain.json", "frr/plain-feeds.txt", "frr/detail-answers.txt"),
    Case("frr-to-feeds", "frr/detail.json", "frr/plain-feeds.txt", "frr/detail-answers.txt"),
    Case("frr-to-feeds --vrf default", "frr/vrfs.json", "frr/vrfs-feeds.txt", "frr/vrfs-answers.txt"),
    Case("frr-to-feeds --vrf blue", "frr/vrfs.json", "frr/vrf-blue-feeds.txt", "frr/vrf-blue-answers.txt"),
    Case("frr-to-feeds --vrf blue", "frr/bgp-vrfs.json", "frr/bgp-vrf-blue-feeds.txt"),
    Case("frr-to-feeds --table 100", "frr/tables.json", "frr/tables-100-feeds.txt", "frr/tables-100-answers.txt"),
    Case("frr-to-feeds", "frr/aggregates.json", "frr/aggregates-feeds.txt", "frr/aggregates-answers.txt"),
    Case(f"frr-to-feeds {OVER}", "debian-13/frr/interfaces.json", "debian-13/frr/interfaces-feeds.txt",
         "debian-13/kernel/interfaces-answers.txt"),
    *(Case(f"frr-to-feeds {OVER}", sample, f"{feeds}-feeds.txt", f"{answers}-answers.txt") for sample, feeds, answers in (
        ("debian-13/frr/unnumbered.json", "debian-13/frr/unnumbered", "debian-13/frr/unnumbered"),
        ("debian-13/frr/unnumbered-detail.json", "debian-13/frr/unnumbered", "debian-13/frr/unnumbered"),
        ("frr/unnumbered-detail.json", "debian-13/frr/unnumbered", "frr/unnumbered"),
        ("debian-13/frr/unnumbered-rib.json", "debian-13/frr/unnumbered-rib", "debian-13/frr/unnumbered"))),
    Case(f"frr-to-feeds {UNNAMED}", "debian-13/frr/interfaces.json", "debian-13/frr/interfaces-unnamed-feeds.txt",
         "debian-13/kernel/interfaces-answers.txt", "debian-13/frr/interfaces-unnamed-differences.txt", OTHERWISE),
    Case(f"frr-to-feeds {UNNAMED}", "debian-13/frr/unnumbered.json", "debian-13/frr/unnumbered-unnamed-feeds.txt", returncode=OTHERWISE),
    Case(f"frr-to-feeds {UNNAMED}", "frr/unnumbered.json", "frr/unnumbered-hidden-feeds.txt", returncode=OTHERWISE),
    Case("frr-to-feeds", "frr/failed.json", "frr/failed-feeds.txt", "frr/failed-answers.txt", "frr/failed-differences.txt", OTHERWISE),
)
GOBGP = (
    Case("gobgp-to-feeds", "gobgp/rib.json", "gobgp/feeds.txt", "gobgp/answers.txt"),
    Case("gobgp-to-feeds", "gobgp/client.json", "gobgp/client-feeds.txt", "gobgp/client-answers.txt"),
)
OPENBGPD = (
    Case("openbgpd-to-feeds", "openbgpd/rib.json", "openbgpd/feeds.txt", "openbgpd/answers.txt"),
    Case("openbgpd-to-feeds", "openbgpd/own.json", "openbgpd/own-feeds.txt", "openbgpd/own-answers.txt"),
    Case("openbgpd-to-feeds --by local-pref", "openbgpd/rib.json", "openbgpd/feeds-by-local-pref.txt"),
    Case("openbgpd-to-feeds", "openbgpd/blackhole.json", "openbgpd/blackhole-feeds.txt", "openbgpd/blackhole-answers.txt",
         "openbgpd/blackhole-differences.txt"),
    Case(f"openbgpd-to-feeds {MARKS}", "openbgpd/blackhole-detail.json", "openbgpd/blackhole-detail-feeds.txt",
         "openbgpd/blackhole-answers.txt"),
)
BGPDUMP = (
    Case("bgpdump-to-feeds", "bgpdump/rib.txt", "bgpdump/rib-feeds.txt", "bgpdump/answers.txt"),
    Case("bgpdump-to-feeds", "bgpdump/updates.txt", "bgpdump/updates-feeds.txt", "bgpdump/answers.txt", "bgpdump/updates-differences.txt"),
    Case("bgpdump-to-feeds", "bgpdump/frr-all-et.txt", "bgpdump/frr-all-et-feeds.txt"),
    Case("bgpdump-to-feeds", "bgpdump/openbgpd-updates-in.txt", "bgpdump/openbgpd-updates-in-feeds.txt"),
    Case("bgpdump-to-feeds", "bgpdump/gobgp-updates.txt", "bgpdump/gobgp-updates-feeds.txt",
         "bgpdump/gobgp-updates-answers.txt", "bgpdump/gobgp-updates-differences.txt"),
    *(Case("bgpdump-to-feeds", f"by-hand/{name}.txt", f"by-hand/{name}-feeds.txt", f"by-hand/{name}-answers.txt")
      for name in ("order", "one-address", "add-path-table", "add-path-updates")),
    Case("bgpdump-to-feeds", "bgpdump/openbgpd-all-in.txt", "bgpdump/openbgpd-all-in-feeds.txt", returncode=OTHERWISE),
    Case("bgpdump-to-feeds", "bgpdump/bird-table.txt", "bgpdump/bird-table-feeds.txt", returncode=OTHERWISE),
    Case("bgpdump-to-feeds", "by-hand/no-hop.txt", "by-hand/no-hop-feeds.txt", "by-hand/no-hop-answers.txt", returncode=OTHERWISE),
)
CONVERSIONS = (*BIRD, *KERNEL, *FRR, *GOBGP, *OPENBGPD, *BGPDUMP)

PEERS, PROTOCOLS, HOPS = ("127.0.0.23", "127.0.0.21"), ("peer_23", "peer_21"), ("192.0.2.23", "192.0.2.21")
RELEASES = ("debian-13", "debian-sid")
BIRD_RANKS = (
    Ranks("bird-to-feeds", "ranks/bird.txt", "ranks/bird-answers", PROTOCOLS),
    Ranks("bird-to-feeds --always-compare-med", "ranks/bird-med.txt", "ranks/bird-med-answers", PROTOCOLS),
    Ranks("bird-to-feeds", "ranks/bird-turn.txt", "ranks/bird-turn-answers", PROTOCOLS),
    Ranks("bird-to-feeds --deterministic-med", "ranks/bird-deterministic.txt", "ranks/bird-deterministic-answers", PROTOCOLS),
    *(Ranks("bird-to-feeds", f"{release}/ranks/bird.txt", f"{release}/ranks/bird-answers", PROTOCOLS) for release in RELEASES),
)
BIRDWATCHER_RANKS = (Ranks("birdwatcher-to-feeds", "by-hand/birdwatcher.json", "debian-13/ranks/bird-answers", PROTOCOLS),)
FRR_RANKS = (
    Ranks("frr-to-feeds", "ranks/frr.json", "ranks/frr-answers", PEERS),
    Ranks("frr-to-feeds --always-compare-med", "ranks/frr-med.json", "ranks/frr-med-answers", PEERS),
    Ranks("frr-to-feeds", "ranks/frr-turn.json", "ranks/frr-turn-answers", PEERS),
    Ranks("frr-to-feeds", "ranks/frr-detail.json", "ranks/frr-detail-answers", PEERS),
    Ranks("frr-to-feeds --deterministic-med", "ranks/frr-deterministic.json", "ranks/frr-deterministic-answers", PEERS),
    *(Ranks("frr-to-feeds", f"{release}/ranks/{name}.json", f"{release}/ranks/{name}-answers", PEERS)
      for release in RELEASES for name in ("frr", "frr-detail")),
    *(Ranks(command, f"debian-13/ranks/{name}.json", f"debian-13/ranks/{name}-answers", peers) for command, name, peers in (
        ("frr-to-feeds", "frr-turn", PEERS), ("frr-to-feeds", "frr-stale", PEERS), ("frr-to-feeds", "frr-aigp", HOPS),
        ("frr-to-feeds --unsorted --aigp", "frr-aigp", HOPS), ("frr-to-feeds", "frr-identifiers", PEERS))),
)
GOBGP_RANKS = (
    Ranks("gobgp-to-feeds", "ranks/gobgp.json", "ranks/gobgp-answers", PEERS),
    *(Ranks("gobgp-to-feeds", f"{release}/ranks/gobgp.json", f"{release}/ranks/gobgp-answers", PEERS) for release in RELEASES),
)
OPENBGPD_RANKS = (
    Ranks("openbgpd-to-feeds", "ranks/openbgpd.json", "ranks/openbgpd-answers", PEERS),
    *(Ranks("openbgpd-to-feeds", f"{release}/ranks/openbgpd.json", f"{release}/ranks/openbgpd-answers", PEERS) for release in RELEASES),
)
BGPDUMP_RANKS = (
    Ranks("bgpdump-to-feeds --local-as 65000", "ranks/frr-dump.txt", "ranks/frr-answers", PEERS),
    Ranks("bgpdump-to-feeds", "ranks/openbgpd-path-updates.txt", "ranks/openbgpd-path-answers"),
    Ranks("bgpdump-to-feeds", "ranks/frr-path-updates.txt", "ranks/frr-path-answers", (), "ranks/frr-path-updates-differences.txt"),
    Ranks("bgpdump-to-feeds --local-as 65000", "ranks/own-updates.txt", "ranks/own-answers"),
)
MRT_RANKS = (
    Ranks("mrt-to-feeds --local-as 65000", "debian-13/ranks/frr-identifiers-dump.mrt", "debian-13/ranks/frr-identifiers-answers", PEERS),
    Ranks("mrt-to-feeds", "debian-13/ranks/openbgpd-path-updates.mrt", "debian-13/ranks/openbgpd-path-answers"),
)
PMACCT_RANKS = (
    Ranks("pmacct-to-feeds", "debian-sid/ranks/pmacct.json", "debian-sid/ranks/frr-pmacct-answers", PEERS),
    Ranks("pmacct-to-feeds", "debian-13/ranks/pmacct-bmp.json", "debian-13/ranks/frr-bmp-answers", PEERS),
)


def check_conversion(test, case):
    """A sample gives the kept feeds and notes, the program prints their table, and addresses are answered as by the
    daemon."""
    ended = test.convert_sample(case.command, case.sample)
    test.assertEqual(ended.returncode, case.returncode, ended.stderr)
    test.assert_kept(case.feeds, ended.stderr + ended.text)
    rows = rows_of(ended.files)
    test.assert_table(ended.files, rows)
    if case.answers:
        test.assert_answers(rows, case.answers, case.differences)


def check_ranks(test, ranks):
    """The daemon's answers with all sessions, and without one after the other."""
    ended = test.convert_sample(ranks.command, ranks.sample)
    test.assertEqual(ended.returncode, DONE, ended.stderr)
    for number in range(len(ranks.ended) + 1):
        without = ranks.ended[:number]
        with test.subTest("without " + ", ".join(without) if without else "with all sessions"):
            files = [file for file in ended.files if file.stem not in without]
            rows = rows_of(files)
            test.assert_table(files, rows)
            test.assert_answers(rows, f"{ranks.answers}{f'-{number}' if number else ''}.txt", ranks.differences)


def add_conversions(test_case, cases, ranks=()):
    """Adds a test method for each of these conversions and ranks to the class."""
    add_tests(test_case, "sample", check_conversion, {case.name: (case,) for case in cases})
    add_tests(test_case, "ranks", check_ranks, {one.name: (one,) for one in ranks})

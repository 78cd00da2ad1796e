"""Tests of bgpdump's text of table dumps and updates: samples, ranks, and refusals."""
import gzip

from convert.tests.conversions import BGPDUMP, BGPDUMP_RANKS, add_conversions
from convert.tests.converting import ConverterCase, add_refusals, sample

NEEDS = {"program"}


class Samples(ConverterCase):
    """What a collector recorded gives the kept feeds, and the daemons' answers."""


class Refusals(ConverterCase):
    """Input that is refused in one line; nothing is changed."""

    def test_changed_samples(self):
        rib = sample("bgpdump/rib.txt")
        for name, data, part in (
            ("three numbers", rib.replace(b"10.1.0.0/16", b"10.1.0/16"), ": '10.1.0/16' is not a prefix"),
            ("number of 900", rib.replace(b"192.0.2.9", b"192.0.2.900"), ": '192.0.2.900' is not an address"),
            ("compressed", gzip.compress(rib), "compressed"),
            ("table twice", rib + rib, "occurs twice"),
        ):
            with self.subTest(name):
                self.assert_unchanged("bgpdump-to-feeds", data, part)


add_conversions(Samples, BGPDUMP, BGPDUMP_RANKS)
add_refusals(Refusals, "bgpdump-to-feeds", (("", "bird/static-routes.txt", "line 1 is not understood"),))

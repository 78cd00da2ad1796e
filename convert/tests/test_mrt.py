"""Tests of MRT files, which daemons wrote and bgpdump has read as well."""
import bz2
import gzip
import random
import struct

from convert.tests.conversions import MRT_RANKS, add_conversions
from convert.tests.converting import ConverterCase, add_tests, sample

NEEDS = {"program"}
# files with what bgpdump makes of them
DUMP, UPDATES = "debian-13/ranks/frr-identifiers-dump", "debian-13/ranks/frr-identifiers-updates"
FILES = (DUMP, UPDATES, "debian-13/ranks/frr-path-updates", "debian-13/ranks/openbgpd-path-updates")
# how often a file is cut, and changed
CUTS, CHANGES = 12, 60
# a record's time, type, subtype and length (RFC 6396, 2); types and subtypes
HEADER = struct.Struct(">IHHI")
TABLE_DUMP, BGP4MP, MESSAGE_AS4 = 12, 16, 4


def without_identifiers(data):
    """Returns a table dump whose peers have no BGP identifiers; its table of peers is the first record."""
    _, _, _, size = HEADER.unpack_from(data)
    end, at = 12 + size, 12 + 6 + struct.unpack_from(">H", data, 12 + 4)[0]
    changed, at = bytearray(data), at + 2
    while at < end:
        changed[at + 1 : at + 5] = bytes(4)
        at += 5 + (16 if data[at] & 1 else 4) + (4 if data[at] & 2 else 2)
    return bytes(changed)


def ends_of(data):
    """Returns the places where the records of a file end."""
    ends, at = set(), 0
    while at < len(data):
        at += 12 + HEADER.unpack_from(data, at)[3]
        ends.add(at)
    return ends


def update(withdrawn, attributes, announced, missing=0):
    """Returns a record of an UPDATE (RFC 4271, 4.3); its attributes are said to be longer by what is missing."""
    message = struct.pack(">H", len(withdrawn)) + withdrawn + struct.pack(">H", len(attributes) + missing) + attributes + announced
    peers = struct.pack(">IIHH", 65001, 65000, 0, 1) + bytes((127, 0, 0, 1, 127, 0, 0, 9))
    record = peers + b"\xff" * 16 + struct.pack(">HB", 19 + len(message), 2) + message
    return HEADER.pack(1, BGP4MP, MESSAGE_AS4, len(record)) + record


# ORIGIN, AS_PATH and NEXT_HOP
ATTRIBUTES = bytes((0x40, 1, 1, 0, 0x40, 2, 6, 2, 1)) + struct.pack(">I", 65001) + bytes((0x40, 3, 4, 192, 0, 2, 1))
PREFIX = bytes((8, 10))


class Samples(ConverterCase):
    """What daemons wrote gives the same as what bgpdump makes of it, and the daemons' answers."""

    def test_dump_behind_updates(self):
        """A table dump that comes after updates announces routes again, as in bgpdump's text of it."""
        ended = self.convert("mrt-to-feeds", sample(f"{UPDATES}.mrt") + without_identifiers(sample(f"{DUMP}.mrt")))
        other = self.convert("bgpdump-to-feeds", sample(f"{UPDATES}.txt") + sample(f"{DUMP}.txt"))
        self.assertEqual(ended.result, other.result)

    def test_compressed(self):
        """Files compressed by gzip or bzip2, also in several parts, give the same; one that is cut is refused."""
        data = sample(f"{DUMP}.mrt")
        half, plain = len(data) // 2, self.convert("mrt-to-feeds", data)
        for name, compress in (("gzip", gzip.compress), ("bzip2", bz2.compress)):
            for parts in ((data,), (data[:half], data[half:])):
                with self.subTest(f"{name} in {len(parts)} parts"):
                    self.assertEqual(self.convert("mrt-to-feeds", b"".join(map(compress, parts))).text, plain.text)
            with self.subTest(f"{name} that is cut"):
                self.assert_refused(self.convert("mrt-to-feeds", compress(data)[:-20]), "truncated")


def check_beside_bgpdump(test, name):
    """Without identifiers an MRT file gives the same feeds and messages as what bgpdump makes of it."""
    data = sample(f"{name}.mrt")
    ended = test.convert("mrt-to-feeds", without_identifiers(data) if name == DUMP else data)
    test.assertEqual(ended.result, test.convert("bgpdump-to-feeds", sample(f"{name}.txt")).result)


class Damaged(ConverterCase):
    """Files that are cut or changed."""

    def test_update_that_is_cut(self):
        """An update whose attributes end behind its end is refused, even if what is there could be read."""
        whole = self.converted("mrt-to-feeds", update(b"", ATTRIBUTES, PREFIX))
        self.assertEqual(whole.feeds, {"127.0.0.1.feed": "version 2\nadd 10.0.0.0/8 1 192.0.2.1\n"})
        for name, data in (
            ("attributes", update(b"", ATTRIBUTES, b"", missing=1)), ("attributes by far", update(b"", ATTRIBUTES, b"", missing=5000)),
            ("no attributes", update(b"", b"", b"", missing=1)), ("withdrawals", update(PREFIX, ATTRIBUTES, b"", missing=1)),
        ):
            with self.subTest(name):
                self.assert_unchanged("mrt-to-feeds", update(b"", ATTRIBUTES, PREFIX) + data, "an update is cut")

    def test_other_files(self):
        """Text is refused, and the older form of table dumps is named."""
        for name, data, told in (("text", sample(f"{UPDATES}.txt"), "isn't MRT"), ("empty", b"", "the input is empty"),
                                 ("older form", HEADER.pack(1, TABLE_DUMP, 1, 4) + bytes(4), "use bgpdump-to-feeds")):
            with self.subTest(name):
                self.assert_refused(self.convert("mrt-to-feeds", data), told)


def check_cuts(test, name):
    """A file that is cut within a record is refused."""
    data, draw = sample(f"{name}.mrt"), random.Random(f"cut {name}")
    ends = ends_of(data)
    for _ in range(CUTS):
        cut = draw.choice([place for place in range(1, len(data)) if place not in ends])
        test.assert_refused(test.convert("mrt-to-feeds", data[:cut]), "truncated")


def check_changes(test, name):
    """A file with changed bytes is refused in one line, or read."""
    data, draw = sample(f"{name}.mrt"), random.Random(f"change {name}")
    for _ in range(CHANGES):
        changed = bytearray(data)
        for _ in range(draw.randint(1, 3)):
            changed[draw.randrange(len(data))] = draw.randrange(256)
        ended = test.convert("mrt-to-feeds", bytes(changed))
        is_fit = ended.returncode in (0, 3) or ended.returncode == 1 and ended.stderr.count("\n") == 1
        test.assertTrue(is_fit and "Error" not in ended.stderr, f"status {ended.returncode}, notes {ended.stderr}")


add_conversions(Samples, (), MRT_RANKS)
add_tests(Samples, "beside bgpdump", check_beside_bgpdump, {name: (name,) for name in FILES})
add_tests(Damaged, "cuts", check_cuts, {name: (name,) for name in FILES[:2]})
add_tests(Damaged, "changed bytes", check_changes, {name: (name,) for name in FILES[:2]})

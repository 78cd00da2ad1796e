"""Reads MRT files (RFC 6396, RFC 8050): records, path attributes and prefixes."""
import bz2
import functools
import gzip
import socket
import struct
import typing

import choice
import feeds
from errors import Refused, Wrong, naming

HEADER = struct.Struct(">IHHI")
# the types of records, and the subtypes in use: whether AS have four bytes, and whether prefixes have paths' numbers
TABLE_DUMP, TABLE_DUMP_V2, BGP4MP, BGP4MP_ET = 12, 13, 16, 17
PEER_INDEX_TABLE = 1
RIBS = {2: (4, False), 4: (16, False), 8: (4, True), 10: (16, True)}
STATES = {0: False, 5: True}
MESSAGES = {1: (False, False), 4: (True, False), 8: (False, True), 9: (True, True)}
# messages that the collector sent
LOCAL = frozenset((6, 7, 10, 11))
# the numbers of path attributes
ORIGIN, AS_PATH, NEXT_HOP, MED, LOCAL_PREF, ORIGINATOR_ID, CLUSTER_LIST, MP_REACH, MP_UNREACH, AS4_PATH = 1, 2, 3, 4, 5, 9, 10, 14, 15, 17
EXTENDED = 0x10
INCOMPLETE = choice.ORIGINS["INCOMPLETE"]
# how a segment of a path is written, by its type: what is before, between and after its AS, and whether it is a
# confederation's
SEGMENTS = {1: ("{", ",", "}"), 2: ("", " ", ""), 3: ("(", " ", ")"), 4: ("[", ",", "]")}
AS_SET, SEQUENCE, CONFEDERATION = 1, 2, (3, 4)
IPV4, UNICAST = 1, 1
UPDATE = 2
# a record is shorter
LONGEST = 1 << 24
# how many paths, or sets of attributes, are kept
MOST_KNOWN = 1 << 15
READERS = {b"\x1f\x8b": gzip.open, b"BZh": bz2.open}


class Attributes(typing.NamedTuple):
    """The path attributes in use; a next hop of None is missing."""

    origin: int = INCOMPLETE
    path: str = ""
    length: int = 0
    hop: str | None = None
    med: int = 0
    local_pref: int = 0
    originator: int | None = None
    clusters: int = 0
    # a message's prefixes of other families, or of IPv4 with such attributes
    reach: bytes | None = None
    unreach: bytes | None = None


class Records(feeds.Input):
    """The records of standard input, which may be compressed by gzip or bzip2."""

    def __init__(self, most):
        super().__init__(most)
        # the number of the record that is read
        self.number = 0

    def opened(self):
        with naming("standard input"):
            given = open(0, "rb", closefd=False)
            first = given.peek(3)[:3]
        if not first:
            raise Refused("the input is empty")
        for begin, opened in READERS.items():
            if first.startswith(begin):
                self.size = 0
                return opened(given)
        feeds.refuse_other_forms(first)
        return given

    def __iter__(self):
        """The time, the type, the subtype and the data of each record."""
        given, next_block = self.opened(), feeds.BLOCK
        while header := self.read(given, HEADER.size):
            time, kind, subtype, length = HEADER.unpack(header)
            self.number += 1
            if length > LONGEST:
                raise Wrong(f"it has {length} bytes: this isn't MRT")
            yield time, kind, subtype, self.read(given, length, length)
            self.lines = self.number
            if self.done >= next_block:
                next_block = self.done + feeds.BLOCK
                self.after_block()

    def read(self, given, size, needed=0):
        """The next bytes, or fewer at the input's end, if that may be here."""
        try:
            with naming("standard input"):
                data = given.read(size)
        except (EOFError, gzip.BadGzipFile, struct.error) as error:
            raise Refused(f"the input is truncated, or its compression is damaged: {error}") from None
        self.done += len(data)
        if self.done > self.most:
            raise Refused(f"the input has more than {self.most} bytes: raise the limit with --most")
        if len(data) < size and (data or needed):
            raise Refused(f"the input is truncated in record {max(1, self.number)}, or isn't MRT")
        return data

    def named(self):
        return Named(self)


class Named:
    """Reports an error with the number of its record."""

    def __init__(self, records):
        self.records = records

    def __enter__(self):
        return self

    def __exit__(self, kind, error, _):
        if isinstance(error, (ValueError, LookupError, struct.error)):
            what = f": {error}" if isinstance(error, Wrong) else " is not understood"
            raise Refused(f"record {self.records.number}{what}") from None


@functools.lru_cache(feeds.MOST_KNOWN)
def address_text(data):
    return socket.inet_ntop(socket.AF_INET if len(data) == 4 else socket.AF_INET6, data)


def prefixes(data, at, end, size, with_numbers):
    """Each prefix between two places, with its path's number or None. Bits past its length are cleared."""
    while at < end:
        number = None
        if with_numbers:
            number, = struct.unpack_from(">I", data, at)
            at += 4
        length = data[at]
        after = at + 1 + (length + 7 >> 3)
        if length > size * 8 or after > end:
            raise Wrong("a prefix is longer than its field")
        yield prefix_text(data[at + 1 : after], length, size), number, after
        at = after


def prefix_text(data, length, size):
    bits = size * 8
    base = int.from_bytes(data.ljust(size, b"\0"), "big") >> bits - length << bits - length
    return f"{address_text(base.to_bytes(size, 'big'))}/{length}"


def path_of(data, size):
    """The segments of a path whose AS have that many bytes."""
    at, segments = 0, []
    while at < len(data):
        kind, number = data[at], data[at + 1]
        end = at + 2 + number * size
        if kind not in SEGMENTS or end > len(data):
            raise Wrong("an AS path isn't understood")
        segments.append((kind, struct.unpack(f">{number}{'I' if size == 4 else 'H'}", data[at + 2 : end])))
        at = end
    return segments


def length_of(segments):
    return sum(0 if kind in CONFEDERATION else 1 if kind == AS_SET else len(systems) for kind, systems in segments)


def merged(segments, four):
    """A path of two bytes, whose last AS are those of AS4_PATH (RFC 6793, section 4.2.3)."""
    excess = length_of(segments) - length_of(four)
    if excess < 0:
        return segments
    first = []
    for kind, systems in segments:
        if kind in CONFEDERATION or excess <= 0:
            first += [(kind, systems)] * (kind in CONFEDERATION and excess > 0)
            continue
        first.append((kind, systems if kind == AS_SET else systems[:excess]))
        excess -= length_of(first[-1:])
    return first + four


def text_of(segments):
    parts = []
    for kind, systems in segments:
        before, between, after = SEGMENTS[kind]
        parts.append(f"{before}{between.join(map(str, systems))}{after}")
    return " ".join(filter(None, parts))


@functools.lru_cache(MOST_KNOWN)
def known_path(data, size, four):
    """The text and the length of a path."""
    if not four and len(data) > 1 and data[0] == SEQUENCE and len(data) == 2 + data[1] * size:
        # hardly any path has more than a sequence
        return " ".join(map(str, struct.unpack(f">{data[1]}{'I' if size == 4 else 'H'}", data[2:]))), data[1]
    segments = path_of(data, size)
    if four:
        segments = merged(segments, path_of(four, 4))
    return text_of(segments), length_of(segments)


def attributes_of(data, size):
    """The path attributes in use, of each the first; AS have `size` bytes."""
    found, at, end = {}, 0, len(data)
    while at < end:
        number = data[at + 1]
        if data[at] & EXTENDED:
            begin, length = at + 4, data[at + 2] << 8 | data[at + 3]
        else:
            begin, length = at + 3, data[at + 2]
        at = begin + length
        if number in READ and number not in found:
            read = READ[number]
            found[number] = read(data[begin:at]) if read else data[begin:at]
    if at > end:
        raise Wrong("a path attribute is longer than its field")
    get = found.get
    path, length = known_path(get(AS_PATH, b""), size, get(AS4_PATH) if size == 2 else None)
    if get(ORIGIN, INCOMPLETE) > INCOMPLETE:
        raise Wrong(f"{found[ORIGIN]} is not an origin")
    return Attributes(get(ORIGIN, INCOMPLETE), path, length, get(NEXT_HOP), get(MED, 0), get(LOCAL_PREF, 0),
                      get(ORIGINATOR_ID), get(CLUSTER_LIST, 0) // 4, get(MP_REACH), get(MP_UNREACH))


# how each path attribute in use is read, if not as a whole
READ = {ORIGIN: int.from_bytes, AS_PATH: None, NEXT_HOP: address_text, MED: int.from_bytes, LOCAL_PREF: int.from_bytes,
        ORIGINATOR_ID: int.from_bytes, CLUSTER_LIST: len, MP_REACH: None, MP_UNREACH: None, AS4_PATH: None}


def reached(data):
    """Of MP_REACH_NLRI in a message: whether it is of IPv4, its next hop, and its prefixes."""
    family, subsequent, length = struct.unpack_from(">HBB", data)
    hop = data[4 : 4 + length]
    if subsequent != UNICAST or len(hop) not in (4, 16, 32):
        return False, None, b""
    return family == IPV4, address_text(hop[:16]), data[5 + length :]


def hop_of_dumped(data):
    """The next hop of MP_REACH_NLRI in a table dump, which may have nothing else (RFC 6396, section 4.3.4)."""
    if len(data) in (17, 33) and data[0] == len(data) - 1:
        return address_text(data[1:17])
    return reached(data)[1]

"""Shared by the converters into feeds: reading a table, ranking its routes, and writing them as feed files."""
import argparse
import codecs
import contextlib
import functools
import gc
import ipaddress
import json
import operator
import os
import pathlib
import re
import shlex
import signal
import stat
import struct
import sys
import typing
from socket import AF_INET, inet_pton

import dealing
import pieces
from ending import NAME, NO_MEMORY
from errors import Missing, Refused, Wrong, in_words, naming, printable
from folders import Folder
from self_check import SelfCheck

# what erases a terminal's line
ERASED = "\r\033[K"
GREATEST = 4294967295
MAX_FEED_FILES = 64
# the number of names that a message lists
MOST_NAMED = 3
# how many routes a feed may have without `--limit`, and with it
USUAL_LIMIT, GREATEST_LIMIT = 65536, 1000000
DISCARD = "discard"
# the next hop written for a connected network, as in the output of `route -n`
CONNECTED = "0.0.0.0"
# between a source and the word for a further next hop of its routes; no daemon's name has it
FURTHER = "\n"
FURTHER_HOPS = "further next hops of multipath routes"
MULTIPATH = ("prefixes have a route with several next hops, and the feeds have the heaviest, which is the first of equal ones: "
             "use --all-hops for a feed of each further one, or accept this with --one-hop")
BLOCK = 1 << 20
# lines are converted in parts of this size, which a processor's cache holds with what is made of them
PART = 1 << 17
# how much of the input a process is given at once, how many such pieces are read ahead for each process, and the number of
# processes, 0 for as many as there are processors
PIECE, AHEAD, PROCESSES = 1 << 20, 2, 0
# is read between two entries if the second one doesn't depend on what came before
BOUNDARY = None
# seconds between two lines of progress
EACH = 1
# a longer line or value isn't a table's, and a table has fewer bytes
LONGEST, MOST_BYTES = 1 << 24, 10**11
# JSON: the maximum length of a value that isn't a string, and the blanks between values
LONGEST_WORD, BLANKS = 16, re.compile(r"[ \t\r\n]*")
KINDS = {"[": "a list", "{": "an object"}
# a member of an object whose name is a prefix
MEMBER = re.compile(rb',\s*"\d+\.\d+\.\d+\.\d+/\d+"\s*:\s*[\[{]')
# the cache size for values that many routes share
MOST_KNOWN = 16384
# why FRR doesn't use a path that is valid
SET_ASIDE = frozenset(("damped", "history", "removed"))
# the number of lines that wait before they become a text of each source, and the size of these before they are written
MOST_WAITING, MOST_TEXT = 20000, 1 << 23
# how a text begins whose encoding is marked
MARKED = {b"\xef\xbb\xbf": "UTF-8", b"\xff\xfe": "UTF-16", b"\xfe\xff": "UTF-16"}
# how a compressed file begins, and what reads it
COMPRESSED = {b"\x1f\x8b": ("gzip", "zcat"), b"\xfd7zXZ\0": ("xz", "xzcat"), b"BZh": ("bzip2", "bzcat"),
              b"\x28\xb5\x2f\xfd": ("zstd", "zstdcat")}
# the exit status if some addresses may get another answer than from the daemon, or `yarib` doesn't accept the files
OTHERWISE = 3
ENDS = f"""exit status:
  0 done   1 refused, nothing is changed   2 command line
  {OTHERWISE} written, but some addresses may be answered differently than by the daemon,
    or there are more feeds than yarib accepts; standard error says why"""
# the signals that end a converter
ENDING = (signal.SIGTERM, signal.SIGHUP, signal.SIGINT)
# the number of an address's four bytes
number_of = int.from_bytes
# the bits past a prefix of that length
HOST_BITS = {str(length): (1 << 32 - length) - 1 for length in range(33)}


def level_of(length):
    """For prefixes of that length: their level, the numbers of bits of an address after the level's key and after the prefix,
    the first of their places in a tree of the level, and the masks of the bits in the tree and past the prefix."""
    level = (length - 1) // 8 if length else 0
    own = length - 8 * level
    return level << 32, 32 - 8 * level, 32 - length, 1 << own, (1 << own) - 1, (1 << 32 - length) - 1


LEVELS = {str(length): level_of(length) for length in range(33)}
# the bits of the places in a tree of eight levels
BITS = [1 << place for place in range(512)]


def say(*lines):
    """Writes lines on standard error, if that is open: else `print` would write them to standard output. On a terminal
    they replace the progress line."""
    if sys.stderr is not None:
        text = "".join(f"{printable(line)}\n" for line in lines)
        # if nobody reads it, nothing else changes
        with contextlib.suppress(OSError):
            os.write(2, f"{ERASED if is_terminal() else ''}{text}".encode())


class Offer(typing.NamedTuple):
    """A source's route to a prefix. `wish` is the daemon's own number, and the higher one wins; `sought` is the address
    that the daemon looked up among its routes to find the next hop, if it did."""

    source: str
    hop: str
    wish: int | None = None
    # the address that the daemon looked up among its routes to find the hop
    sought: str | None = None
    # the option that would give the next hop, and the interface, if the feed doesn't show the interface
    over: tuple | None = None
    # the next hop that the daemon uses for the address that it looked up, if it shows that
    found: str | None = None


SOURCE_OF = operator.attrgetter("source")


class Ends(dict):
    """How lines of feeds end, by next hop, after the prefix of a route of that rank. Many lines end in the same way."""

    def __init__(self, rank):
        super().__init__()
        self.rank = rank

    def __missing__(self, hop):
        if len(self) >= MOST_KNOWN:
            self.clear()
        end = self[hop] = f"{self.rank} {hop}\n"
        return end


KNOWN_ENDS = []


def ends(number):
    """The ends of lines of ranks from 1 to at least this number."""
    while len(KNOWN_ENDS) < number:
        KNOWN_ENDS.append(Ends(len(KNOWN_ENDS) + 1))
    return KNOWN_ENDS


class Notes:
    """Counts what is left out, by its name, in the order of the names' first occurrence. `differs` is set if some
    addresses get another answer than from the daemon because of it."""

    def __init__(self):
        self.left_out, self.told = {}, {}
        self.differs = False
        self.last_multipath = None
        # the daemon's choices, compared with what the rules give
        self.choices = SelfCheck()

    def leave_out(self, name, number=1, differs=False):
        self.left_out[name] = self.left_out.get(name, 0) + number
        self.differs = self.differs or differs

    def tell(self, name, number=1, differs=False):
        """Counts what is accepted but has to be reported."""
        self.told[name] = self.told.get(name, 0) + number
        self.differs = self.differs or differs

    def meet_multipath(self, prefix):
        """Counts a prefix with several next hops, once."""
        if prefix != self.last_multipath:
            self.tell(MULTIPATH, differs=True)
        self.last_multipath = prefix

    def counted(self):
        """What was counted, for `join`."""
        return self.left_out, self.told, self.differs, self.choices.counted()

    def join(self, counted, times=1):
        """Adds what was counted in a later part of the input, so many times."""
        left_out, told, differs, choices = counted
        for name, number in left_out.items():
            self.leave_out(name, times * number, differs)
        for name, number in told.items():
            self.tell(name, times * number, differs)
        self.differs = self.differs or differs
        self.choices.join(choices, times)

    def may_differ(self):
        """Returns True if some addresses may get another answer than from the daemon."""
        return self.differs or self.choices.differs()

    def report(self, taken, what):
        """The lines that say what was accepted and what wasn't."""
        parts = [f"{number} {name}" for name, number in self.left_out.items()]
        lines = [f"accepted {taken} {what}; omitted " + (", ".join(parts) or "nothing")]
        lines += [f"{number} {name}" for name, number in self.told.items()]
        lines += self.choices.lines()
        if self.may_differ():
            lines.append(f"so some addresses may be answered differently than by the daemon (status {OTHERWISE})")
        return lines


class Progress:
    """If standard error is a terminal, a line there that is rewritten each second and erased at the end."""

    def __init__(self):
        self.input = self.files = None

    def tell(self, *_):
        parts = []
        if self.input:
            parts.append(f"{self.input.lines:,} lines")
            if self.input.size:
                parts.append(f"{100 * self.input.done // self.input.size} % of the input")
        if self.files:
            taken = self.files.taken + sum(map(len, self.files.waiting.values())) // 2
            parts.append(f"{len(self.files.waiting)} sources, {taken:,} routes")
        os.write(2, (ERASED + ", ".join(parts)).encode())

    def __enter__(self):
        if is_terminal():
            signal.signal(signal.SIGALRM, self.tell)
            signal.setitimer(signal.ITIMER_REAL, EACH, EACH)

    def __exit__(self, *_):
        self.erase()

    def erase(self):
        """Ends the progress line, before anything else is written there."""
        if is_terminal():
            signal.setitimer(signal.ITIMER_REAL, 0)
            os.write(2, ERASED.encode())


def is_terminal():
    # standard error may be closed
    return sys.stderr is not None and sys.stderr.isatty()


PROGRESS = Progress()


class Input:
    """Standard input, block by block; `after_block` is called after each.

    `before` lines precede the lines in use, `lines` and `done` bytes were read in all, and `size` is the input's size
    if it is known."""

    def __init__(self, most):
        with naming("standard input"):
            status = os.fstat(0)
        self.most = most
        self.size = status.st_size if stat.S_ISREG(status.st_mode) else 0
        self.done = self.before = self.lines = 0
        self.after_block = lambda: None
        # the pieces to convert here, if there are several processes
        self.ahead = None
        PROGRESS.input = self

    def blocks(self):
        with naming("standard input"):
            while data := os.read(0, BLOCK):
                if self.done == 0:
                    refuse_other_forms(data)
                self.done += len(data)
                if self.done > self.most:
                    raise Refused(f"the input has more than {self.most} bytes: raise the limit with --most")
                yield data
        if self.done == 0:
            raise Refused("the input is empty")


    def pieces(self):
        """The input in pieces. Each begins and ends where this kind of input can be cut, or if it can't, between entries."""
        rest, lines, begins = b"", 0, False
        for data in self.blocks():
            rest += data
            # the first ones are converted as they come, which is all of a small input
            while len(rest) > PIECE or self.done <= PIECE:
                cut = self.last_cut(rest, PIECE) if len(rest) > PIECE else 0
                ends = cut > 0
                if not ends:
                    cut = self.last_end(rest, 0) + 1
                if cut <= 0:
                    self.refuse_long(rest, lines)
                    break
                piece = pieces.Piece(rest[:cut], line_ends(rest[:cut]), begins, ends)
                yield piece
                rest, lines, begins = rest[cut:], lines + piece.lines, ends
        yield pieces.Piece(rest, rest.count(b"\n"), begins, False, is_last=True)

    def refuse_long(self, rest, lines):
        """Refuses what is too long for a part of the input; there are this many lines before it."""

    def skip(self, piece):
        """Takes up a piece that another process has converted."""
        self.lines += piece.lines
        self.after_block()


def refuse_other_forms(data):
    """Refuses what isn't the text that a daemon's command prints, but that text in another form."""
    for begin, (form, reader) in COMPRESSED.items():
        if data.startswith(begin):
            raise Refused(f"the input is compressed ({form}): decompress it with {reader}")
    for begin, encoding in MARKED.items():
        if data.startswith(begin):
            raise Refused(f"the input begins with a byte order mark ({encoding}): write it as UTF-8 without one")


class Block:
    """Whole entries: their text, the entries as the converter takes them, and an iterator over those that are not in use yet; `ends`
    is True if a boundary follows."""

    def __init__(self, text, entries, ends=False):
        self.text, self.entries, self.ends = text, entries, ends
        self.rest = iter(entries)

    @functools.cached_property
    def lines(self):
        return self.text.split("\n")


class Lines(Input):
    """The entries of standard input, which here are its lines."""

    def __init__(self, most):
        super().__init__(most)
        # the last block
        self.block = Block("", [])

    def last_end(self, data, begin):
        """The end of the last whole entry, at `begin` or later; -1 if no entry ends there."""
        return data.rfind(b"\n", begin)

    def split(self, text):
        """The texts of the entries."""
        return text.split("\n")

    def read(self, text, number):
        """The entries of this number of lines as the converter takes them, as many as there are texts."""
        return self.split(text)

    def last_cut(self, data, size):
        """The place at which a piece of about that size can end; 0 if that isn't known of this kind of input."""
        return 0

    def texts(self):
        """Whole entries; bytes that aren't UTF-8 occur only in parts that aren't used. The second value is True if a boundary
        follows."""
        if self.ahead is None:
            yield from self.texts_of(self.blocks())
            return
        for piece in self.ahead:
            if piece.is_last:
                yield from self.texts_of([piece.data])
            else:
                yield from self.parts(piece.data, piece.ends)

    def parts(self, data, ends):
        """The texts of whole entries, in parts if this kind of input is faster so. The second value is True if a boundary follows."""
        yield text_of(data), ends

    def texts_of(self, blocks):
        rest = b""
        for data in blocks:
            begin = max(0, len(rest) - 1)
            rest += data
            end = self.last_end(rest, begin)
            if end >= 0:
                whole, rest = rest[: end + 1], rest[end + 1 :]
                yield from self.parts(whole, False)
            self.refuse_long(rest, self.lines)
        if rest:
            self.refuse_cut(rest)
            yield text_of(rest), False

    def refuse_long(self, rest, lines):
        """Refuses an entry that is too long; there are this many lines before it."""
        if len(rest) > LONGEST:
            raise Refused(f"line {lines + 1} begins an entry that is too long for a table: {decoded(rest[:100])!r}")

    def refuse_cut(self, rest):
        """Refuses input that doesn't end with a line end, as the output of these daemons and programs does."""
        *earlier, last = rest.split(b"\n")
        if last:
            number = self.lines + len(earlier) + 1
            raise Refused(f"line {number} has no line end (LF), so the input is truncated: {decoded(last[:100])!r}")

    def by_block(self):
        """The entries in blocks."""
        for text, ends in self.texts():
            self.before = self.lines
            self.lines += line_ends(text.encode()) + 1
            self.block = Block(text, self.read(text, self.lines - self.before), ends)
            yield self.block
            self.after_block()

    def __iter__(self):
        for block in self.by_block():
            yield from block.rest
            if block.ends:
                yield BOUNDARY

    @contextlib.contextmanager
    def named(self):
        """Reports an error with the number of its line. An exception's `behind` is the number of lines between
        the first line of its entry and the line with the error."""
        try:
            yield
        except (ValueError, LookupError) as error:
            behind, block = getattr(error, "behind", 0), self.block
            *earlier, entry = self.split(block.text)[: len(block.entries) - operator.length_hint(block.rest)]
            number = self.before + 1 + behind + sum(entry.count("\n") + 1 for entry in earlier)
            line = entry.split("\n")[behind]
            what = f": {error}" if isinstance(error, Wrong) else f" is not understood: {line[:100]!r}"
            raise Refused(f"line {number}{what}") from None


class Entries(Lines):
    """The lines of standard input that don't begin with a tab, each with the following lines that do."""

    def parts(self, data, ends):
        """Parts that fit into a processor's cache with what is made of them."""
        begin = 0
        while len(data) - begin > PART and (end := self.last_end(data[begin : begin + PART], 0) + 1):
            yield text_of(data[begin : begin + end]), False
            begin += end
        yield text_of(data[begin:]), ends

    def last_end(self, data, begin):
        end = len(data)
        while (end := data.rfind(b"\n", begin, end)) >= 0:
            if data[end + 1 : end + 2] not in (b"", b"\t"):
                break
        return end

    def split(self, text):
        return re.split(r"\n(?!\t)", text)

    def last_cut(self, data, size):
        """An entry that begins with a blank belongs to the one before."""
        end = size
        while (end := data.rfind(b"\n", 0, end)) >= 0:
            if data[end + 1 : end + 2] not in (b"", b"\t", b" ", b"\r", b"\n"):
                return end + 1
        return 0


def decoded(data):
    return data.decode("utf-8", errors="replace")


def line_ends(data):
    """The number of line ends. Leaving them out takes a third of the time that counting them does."""
    return len(data) - len(data.replace(b"\n", b""))


def text_of(data):
    """The text of whole lines without the last one's end."""
    text = decoded(data)
    return (text.replace("\r\n", "\n") if "\r" in text else text)[:-1]


class Json(Input):
    """The JSON document of standard input, which a command prints. It is read piece by piece, and what was read isn't
    kept."""

    def __init__(self, most, command):
        super().__init__(most)
        self.command = command
        self.decoded = self.texts()
        self.decode = json.JSONDecoder().raw_decode
        # the unread text begins at `at`
        self.text, self.at, self.ended = "", 0, False

    def texts(self):
        """The text of the blocks, or of the pieces to convert here."""
        if self.ahead is None:
            yield from codecs.iterdecode(self.blocks(), "utf-8", errors="replace")
            return
        decoder = codecs.getincrementaldecoder("utf-8")(errors="replace")
        for piece in self.ahead:
            yield decoder.decode(piece.data, piece.ends or piece.is_last)

    def last_cut(self, data, size):
        """The begin of a member whose name is an IPv4 prefix, with the comma before it. In a string it would have backslashes."""
        window = 1 << 16
        while True:
            begin = max(0, size - window)
            if cuts := [match.start() for match in MEMBER.finditer(data, begin, size)]:
                return cuts[-1]
            if begin == 0:
                return 0
            window *= 8

    def last_end(self, data, begin):
        """A part that isn't a piece may end anywhere."""
        return len(data) - 1

    def skip(self, piece):
        self.before += piece.lines
        super().skip(piece)

    def more(self):
        """Reads on, by at least as much as is unread, so that parsing a long value is repeated only a few times. What comes
        after a piece is read when the piece is converted."""
        self.lines = self.before = self.before + self.text.count("\n", 0, self.at)
        unread, self.text, self.at = self.text[self.at :], "", 0
        texts, wanted = [unread], 1 if self.ahead else max(BLOCK, len(unread))
        while wanted > 0 and not self.ended:
            text = next(self.decoded, None)
            self.ended = text is None
            texts.append(text or "")
            wanted -= len(texts[-1])
        self.text = "".join(texts)
        self.after_block()

    def wrong(self, what, at):
        line = self.before + self.text.count("\n", 0, at) + 1
        before = self.text[at : at + 40]
        return Refused(f"the input is not JSON of {self.command}: {what} at line {line}, before {before!r}")

    def sign(self):
        """The next character that isn't blank, which remains unread; "" at the input's end."""
        while True:
            found = self.text[self.at : self.at + 1]
            if found and not found.isspace():
                return found
            self.at = BLANKS.match(self.text, self.at).end()
            if self.at < len(self.text) or self.ended:
                return self.text[self.at : self.at + 1]
            self.more()

    def take(self, sign):
        found = self.sign()
        if found != sign:
            is_other = found in KINDS and sign in KINDS
            raise self.wrong(f"{KINDS[sign]} was expected" if is_other else f"{sign!r} is missing", self.at)
        self.at += 1

    def value(self):
        """The next value as a whole."""
        self.sign()
        while True:
            try:
                value, end = self.decode(self.text, self.at)
            except json.JSONDecodeError as error:
                # what is only cut off may be whole when more is read
                cut = error.msg.startswith("Unterminated") or error.pos > len(self.text) - LONGEST_WORD
                if self.ended or not cut:
                    raise self.wrong(error.msg, error.pos) from None
                if len(self.text) - self.at > LONGEST:
                    raise self.wrong("a value is too long for a table", self.at) from None
            except (ValueError, RecursionError) as error:
                raise self.wrong(str(error), self.at) from None
            else:
                # a number may go on
                if end < len(self.text) or self.ended or self.text[end - 1] in "]}":
                    self.at = end
                    return value
            self.more()

    def elements(self):
        """The values of an array."""
        self.take("[")
        between = "," if self.sign() != "]" else "]"
        while between == ",":
            yield self.value()
            between = self.after_value("]")
        self.take("]")

    def members(self):
        """The names of an object's members; the value of each is to be read when its name is given."""
        self.take("{")
        between = "," if self.sign() != "}" else "}"
        while between == ",":
            name = self.value()
            if not isinstance(name, str):
                raise self.wrong("a name is missing", self.at)
            self.take(":")
            yield name
            between = self.after_value("}")
        self.take("}")

    def after_value(self, last):
        """The character after a value: a comma, which is read, or the end, which remains unread."""
        sign = self.sign()
        if sign == ",":
            self.at += 1
        elif sign != last:
            raise self.wrong(f"',' or {last!r} is missing", self.at)
        return sign

    def end(self):
        if self.sign():
            raise self.wrong("there is more after its end", self.at)

    @classmethod
    def of_members(cls, data, command):
        """The document of a piece: an object with these members, each after a comma."""
        made = cls.__new__(cls)
        made.command, made.decode, made.ahead = command, json.JSONDecoder().raw_decode, None
        made.text, made.at, made.ended, made.before = "{" + decoded(data)[1:] + "}", 0, True, 0
        return made

    @contextlib.contextmanager
    def named(self):
        """Reports an error in a value with the number of the line on which the value ends."""
        try:
            yield
        except (Wrong, Missing) as wrong:
            line = self.before + self.text.count("\n", 0, self.at) + 1
            read = f"; what is read is the output of {self.command}" if isinstance(wrong, Missing) else ""
            raise Refused(f"line {line}: {wrong}{read}") from None


def member(record, name, kind, absent=None):
    """The member of a JSON object; `absent` is the value of a missing one. With None, the object is refused."""
    if type(record) is not dict:
        raise Missing(f"an object was expected: {json.dumps(record)[:100]}")
    value = record.get(name, absent)
    # only `isinstance` counts true and false as numbers
    if type(value) is not kind:
        raise Missing(f"the member {name!r} is missing or of another kind: {json.dumps(record)[:100]}")
    return value


def address_number(text):
    """The number of an IPv4 address; OSError or ValueError for any other text. An address has a single text, without
    leading zeros."""
    return number_of(inet_pton(AF_INET, text), "big")


@functools.lru_cache(MOST_KNOWN)
def is_ipv6(text, kind):
    try:
        kind(text)
    except ValueError:
        return False
    return True


def prefix_of(text, trailing_bits=False):
    """The text of an IPv4 prefix, None for one of IPv6; any other text is Wrong. A prefix has a single text: no mask
    instead of the length, no leading zeros. Bits past the length are accepted only with `trailing_bits`, which clears
    them."""
    address, _, length = text.partition("/")
    try:
        number, past = number_of(inet_pton(AF_INET, address), "big"), HOST_BITS[length]
    except (OSError, ValueError, KeyError):
        if is_ipv6(text, ipaddress.IPv6Interface if trailing_bits else ipaddress.IPv6Network):
            return None
        raise Wrong(f"{text!r} is not a prefix") from None
    if number & past == 0:
        return text
    if trailing_bits:
        return f"{ipaddress.IPv4Address(number & ~past)}/{length}"
    raise Wrong(f"{text!r} is not a prefix")


def is_prefix(text):
    """Returns True for an IPv4 prefix and False for one of IPv6; any other text is Wrong."""
    return prefix_of(text) is not None


@functools.lru_cache(MOST_KNOWN)
def is_address(text):
    """Returns True for an IPv4 address and False for one of IPv6; any other text is Wrong."""
    try:
        return address_number(text) is not None
    except (OSError, ValueError):
        if is_ipv6(text, ipaddress.IPv6Address):
            return False
        raise Wrong(f"{text!r} is not an address") from None


def hop_of(prefix, address, arguments, interface=""):
    """The next hop that is written for an address of the daemon's."""
    if is_address(address):
        return arguments.connected.of(interface) if address == CONNECTED else address
    hop = arguments.ipv6_hop.of(interface)
    if hop is None:
        raise Wrong(f"{prefix} has an IPv6 next hop ({address}): give an IPv4 address for such hops with --ipv6-hop")
    return hop


def over(address, arguments, interface):
    """The option that would give the next hop, and the interface, if the next hop is the same over each interface."""
    option = arguments.ipv6_hop if ":" in address else arguments.connected
    if not interface or interface in option.given or ":" not in address and address != CONNECTED:
        return None
    return option, interface


class Addresses:
    """The next hops that an option gives for those that have none in IPv4: one for each interface that it names, and one
    for all others. `name` is the option's."""

    def __init__(self, name, what, other=None):
        self.name, self.what, self.other = name, what, other
        self.given, self.is_other_given = {}, False

    def give(self, interface, address):
        if interface is None:
            self.other, self.is_other_given = address, True
        else:
            self.given[interface] = address

    def of(self, interface):
        return self.given.get(interface, self.other)

    def tell(self, counts, notes):
        """Reports the numbers of routes over interfaces without an address of their own. A comparison of tables can't
        distinguish several such interfaces."""
        if counts and (len(counts) > 1 or not self.is_other_given):
            named = ", ".join(f"{number} over {interface}" for interface, number in counts.items())
            notes.tell(f"routes {self.what} ({named}), and the next hop {self.other} in the feeds: use {self.name} IFACE=ADDRESS",
                       sum(counts.values()), differs=len(counts) > 1)


class GiveAddress(argparse.Action):
    """Adds an address to those of an option."""

    def __call__(self, parser, arguments, values, option=None):
        getattr(arguments, self.dest).give(*values)


def offers_of_hops(prefix, hops, made, arguments, notes):
    """The offers that `made` makes of a route's next hops. The first next hop is used. Further ones have sources of their
    own, if they are wanted, and else are counted."""
    if len(hops) > 1 and not arguments.all_hops:
        notes.leave_out(FURTHER_HOPS, len(hops) - 1)
        if not arguments.one_hop:
            notes.meet_multipath(prefix)
        hops = hops[:1]
    first, *others = map(made, hops)
    return [first, *(offer._replace(source=f"{offer.source}{FURTHER}hop{number}") for number, offer in enumerate(others, 2))]


def of_hop(source):
    """The source whose routes' next hops these are, of a source of further next hops."""
    return source.partition(FURTHER)[0]


def is_usable(path, valid):
    """Returns True if the daemon may choose the path: it is valid, and neither damped nor removed (FRR shows that
    separately)."""
    if type(path) is dict and SET_ASIDE.isdisjoint(path) and (valid is None or path.get(valid) is True):
        # as most paths are
        return True
    unused = any(member(path, name, bool, False) for name in SET_ASIDE)
    return not unused and (valid is None or member(path, valid, bool, False))


def chosen_first(prefix, paths, notes, valid="valid", best="best", in_order=True):
    """The paths to an IPv4 prefix that a BGP daemon may use, its choice first; an empty list if it has no choice. `in_order`
    is True if the daemon lists paths in the order of choice."""
    if prefix_of(prefix) is None:
        notes.leave_out("of IPv6", len(paths))
        return []
    usable = [path for path in paths if is_usable(path, valid)]
    if len(usable) < len(paths):
        notes.leave_out("that are not valid", len(paths) - len(usable))
    if len(usable) > 1:
        if in_order:
            notes.choices.meet(member(usable[0], best, bool, False) or not any(member(path, best, bool, False) for path in usable))
        if usable[0].get(best) is not True or any(best in path for path in usable[1:]):
            usable.sort(key=lambda path: not member(path, best, bool, False))
    if usable and not member(usable[0], best, bool, False):
        notes.leave_out("of prefixes without a chosen path", len(usable))
        return []
    return usable


def one_each(offers, notes):
    """The offers of a prefix without the further ones of a source."""
    first = {}
    for offer in offers:
        first.setdefault(offer.source, offer)
    leave_out_further(len(offers) - len(first), notes)
    return first.values()


def of_used_routes(offers):
    """The offers of a prefix, with each next hop of a source's first route, without those of its further routes."""
    first, is_used = set(), True
    for offer in offers:
        if FURTHER not in offer.source:
            is_used = offer.source not in first
            first.add(offer.source)
        if is_used or FURTHER not in offer.source:
            yield offer


def leave_out_further(number, notes):
    """A feed has only one route to a prefix."""
    if number:
        notes.leave_out("further routes of a source to the same prefix", number)


def preference_of(prefix, offer):
    """The daemon's number, inverted."""
    if offer.wish is None or offer.wish > GREATEST:
        raise Refused(f"the route of {offer.source} to {prefix} has no number for --by: leave out --by")
    return GREATEST - offer.wish


class SameOffers(list):
    """The offers of several prefixes, best first. `ends` has the source and the end of the line of each, if nothing else has to be
    kept or counted."""

    def __init__(self, offers):
        super().__init__(offers)
        has_more = any(offer.sought or offer.over for offer in offers) or len({offer.source for offer in offers}) < len(offers)
        self.ends = None if has_more else [(offer.source, end_of[offer.hop]) for end_of, offer in zip(ends(len(offers)), offers)]


def add_lines(files, prefix, offers, by_rank, notes):
    """Adds the offers of a prefix, best first, to the feeds of their sources."""
    if by_rank and type(offers) is SameOffers and offers.ends and not files.looked_up:
        begin, waiting = f"add {prefix} ", files.waiting
        for source, end in offers.ends:
            parts = waiting.get(source) or files.parts(source)
            parts += begin, end
        return
    if files.has_all_hops:
        offers = list(of_used_routes(offers))
    if len(set(map(SOURCE_OF, offers))) < len(offers):
        offers = one_each(offers, notes)
    begin = f"add {prefix} "
    for end_of, offer in zip(ends(len(offers)), offers):
        source, hop, _, sought, over_interface, found = offer
        if sought:
            files.sought.add((source, sought))
            if found:
                files.found[source, sought] = found
        if over_interface:
            files.over[over_interface] = files.over.get(over_interface, 0) + 1
        parts = files.waiting.get(source) or files.parts(source)
        if sought or source in files.looked_up:
            files.mark(source, sought is not None)
        parts += begin, end_of[hop] if by_rank else f"{preference_of(prefix, offer)} {hop}\n"


def file_names(sources):
    """A file name for each source, no two of them the same."""
    names = {}
    for source in sources:
        plain = stem = re.sub(r"^[.-]", "_", re.sub(r"[^A-Za-z0-9_.-]", "_", source)) or "_"
        number = 1
        while stem in names:
            number += 1
            stem = f"{plain}-{number}"
        names[stem] = source
    return [f"{name}.feed" for name in names]


class Gathered:
    """The lines of the sources' feeds. Two parts of each line are appended to its source's list in `waiting`: many lines have the
    same parts."""

    def __init__(self, arguments):
        self.has_all_hops = getattr(arguments, "all_hops", False)
        # for each source, in the order of `waiting`, the number of lines that don't wait any more
        self.waiting, self.counts = {}, []
        # the sources with the addresses that the daemon looked up for them, and of these sources, for each line, whether the
        # next hop was looked up
        self.sought, self.looked_up = set(), {}
        # the next hops that were found for them, if the daemon shows these
        self.found = {}
        # by option and interface, the number of routes whose interface the feeds don't show
        self.over = {}

    def parts(self, source):
        return self.waiting.setdefault(source, [])

    def mark(self, source, is_looked_up):
        """Keeps whether the next hop of the source's next line was looked up."""
        marks = self.looked_up.get(source)
        if marks is None:
            marks = self.looked_up[source] = bytearray(self.count_of(source))
        marks.append(is_looked_up)

    def count_of(self, source):
        """The number of a source's lines so far."""
        number = list(self.waiting).index(source)
        return (self.counts[number] if number < len(self.counts) else 0) + len(self.waiting[source]) // 2

    def gathered(self):
        """What was gathered, for `join`."""
        texts = [(source, len(parts) // 2, "".join(parts)) for source, parts in self.waiting.items()]
        over = [(option.name, interface, number) for (option, interface), number in self.over.items()]
        return texts, self.sought, {source: bytes(marks) for source, marks in self.looked_up.items()}, self.found, over


class FeedFiles(Gathered):
    """Feed files in a new directory, which replaces the given one only when everything is written.

    Until they are named, the files are numbered in the order of `waiting`."""

    def __init__(self, arguments):
        super().__init__(arguments)
        if arguments.merge and arguments.by != "rank":
            raise Refused("--merge compares ranks of the whole table: leave out --by")
        if self.has_all_hops and arguments.by != "rank":
            raise Refused("--all-hops ranks the next hops of a route: leave out --by")
        self.arguments, self.folder = arguments, Folder(arguments.folder, NAME)
        # the texts of each source that aren't written yet, and their size
        self.texts, self.size = {}, 0
        self.taken = 0
        PROGRESS.files = self

    def __enter__(self):
        self.folder.__enter__()
        return self

    def __exit__(self, *_):
        self.folder.__exit__()

    def flush_many(self):
        """Makes texts of what waits, and writes them, if that is much."""
        if sum(map(len, self.waiting.values())) > 2 * MOST_WAITING:
            self.settle()
        if self.size > MOST_TEXT:
            self.flush()

    def settle(self):
        """Makes texts of the lines that wait."""
        self.counts += [0] * (len(self.waiting) - len(self.counts))
        for number, (source, parts) in enumerate(self.waiting.items()):
            if parts:
                self.keep(source, "".join(parts))
                self.taken += len(parts) // 2
                self.counts[number] += len(parts) // 2
                parts.clear()

    def keep(self, source, text):
        """Keeps a text of a source until it is written."""
        self.texts.setdefault(source, []).append(text)
        self.size += len(text)

    def flush(self):
        """Writes what waits."""
        self.settle()
        numbers = {source: str(number) for number, source in enumerate(self.waiting)}
        for source, texts in self.texts.items():
            with self.folder.directory.open(numbers[source], "a") as file:
                file.writelines(texts)
        self.texts.clear()
        self.size = 0

    def join(self, gathered):
        """Adds the lines of a later part of the input."""
        texts, sought, looked_up, found, over = gathered
        self.settle()
        for source, number, _ in texts:
            self.parts(source)
            if marks := looked_up.get(source):
                self.looked_up.setdefault(source, bytearray(self.count_of(source))).extend(marks)
            elif source in self.looked_up:
                self.looked_up[source].extend(bytes(number))
        self.counts += [0] * (len(self.waiting) - len(self.counts))
        places = {source: place for place, source in enumerate(self.waiting)}
        for source, number, text in texts:
            # a source without lines has no file
            if text:
                self.keep(source, text)
            self.counts[places[source]] += number
            self.taken += number
        self.sought |= sought
        self.found |= found
        options = {option.name: option for option in (self.arguments.connected, self.arguments.ipv6_hop)}
        for name, interface, number in over:
            key = options[name], interface
            self.over[key] = self.over.get(key, 0) + number

    def name(self, source):
        """The name of a source's file while it is written."""
        return str(list(self.waiting).index(source))

    def written(self, source):
        """The lines of a source that are written."""
        with contextlib.suppress(FileNotFoundError), self.folder.directory.open(self.name(source)) as file:
            yield from file

    def rewrite(self, source, lines):
        """Replaces a source's lines."""
        with self.folder.directory.open("rewritten", "w") as file:
            file.writelines(lines)
        self.folder.directory.rename("rewritten", self.name(source))

    def sources(self, names, routes):
        """The sources that have commands, under these names."""
        every = zip([name.replace(FURTHER, "-") for name in names], map(str, range(len(names))), self.counts, routes)
        return [dealing.Source(*source).counted(GREATEST_LIMIT, self.folder.directory) for source in every if source[2]]

    def put_in_place(self, sources):
        """Puts the sources' commands into their files, and the directory into its place. Returns the number of feeds in
        it, and lines about feeds that were replaced, kept or divided."""
        stems = [name.removesuffix(".feed") for name in file_names([source.name for source in sources])]
        parts = [[stem] if number == 1 else [f"{stem}-{part}of{number}" for part in range(1, number + 1)]
                 for stem, number in zip(stems, (source.feeds(GREATEST_LIMIT) for source in sources))]
        names = iter(file_names([name for dealt in parts for name in dealt]))
        written = [[next(names) for _ in dealt] for dealt in parts]
        for source, files in zip(sources, written):
            dealing.write(source, self.folder.directory, files)
        replaced, kept = self.folder.put_in_place([name for files in written for name in files])
        told = [f"replaced {replaced} feeds that {NAME} had written"] if replaced else []
        if kept:
            told.append(f"kept {len(kept)} feeds that {NAME} had not written: {listed(kept)}")
        told += [f"{source.name} has {source.routes} routes, and a feed can have at most {GREATEST_LIMIT}: it is in {', '.join(files)}, "
                 "each prefix in one of them" for source, files in zip(sources, written) if len(files) > 1]
        return sum(map(len, written)) + len(kept), told

    def merge(self, sources, most, prefixes):
        """Merges the sources with the fewest routes into one feed, if there would be more than `most`. Returns the
        sources, and lines that report it."""
        own, together = dealing.plan(sources, most, GREATEST_LIMIT, prefixes)
        if not together:
            return own, []
        source, left = dealing.merged(together, self.folder.directory)
        return [*own, source], [f"merged the {len(together)} sources with the fewest routes into {source.name}.feed, with the best "
                                f"route of each prefix among theirs; {left} further routes are omitted"]

    def finish(self, notes, prefixes, what="routes", names=None, routes=None):
        """Puts the files into their place and prints a summary; a table without any accepted route is refused. Returns
        the exit status. `prefixes` is the number of prefixes. `routes` has the number of routes of each source at a
        time, if it isn't the number of its commands."""
        self.flush()
        if self.taken == 0:
            raise Refused("; ".join([*notes.report(0, what), "nothing is written"]))
        sources, merged = self.sources(names or list(self.waiting), routes or self.counts), []
        if self.arguments.merge:
            sources, merged = self.merge(sources, self.arguments.merge, prefixes)
        number, told = self.put_in_place(sources)
        PROGRESS.erase()
        say(*notes.report(self.taken, what), *merged, *told)
        if number > MAX_FEED_FILES:
            names = listed([source.name for source in sources])
            say(f"{number} feeds are in the directory, and `yarib` accepts at most {MAX_FEED_FILES} files (status {OTHERWISE}): "
                f"use --merge {MAX_FEED_FILES} to merge the sources with the fewest routes; the sources are {names}")
        tell_limit(max(-(-source.routes // source.feeds(GREATEST_LIMIT)) for source in sources), self.arguments.folder)
        return OTHERWISE if notes.may_differ() or number > MAX_FEED_FILES else 0


def listed(names):
    """The first of these names."""
    return ", ".join(names[:MOST_NAMED]) + (", .." if len(names) > MOST_NAMED else "")


def tell_limit(routes, folder):
    """Prints the limit that `yarib run` needs for a feed with this many routes, if it isn't the default."""
    if routes > USUAL_LIMIT:
        say(f"a feed has {routes} routes: `yarib run` needs --limit {routes}, as in yarib run --batch 256 --limit {routes} "
            f"{shlex.quote(str(pathlib.Path(folder)))}/*.feed")


def end(number, _):
    """Ends the program after removing what it has begun, which a further signal doesn't interrupt."""
    # Python restores the default handlers before it frees its modules: a signal in that time would still end the process.
    signal.pthread_sigmask(signal.SIG_BLOCK, ENDING)
    for ending in ENDING:
        # one that came before
        signal.signal(ending, lambda *_: None)
    with contextlib.suppress(OSError):
        os.write(2, f"{NAME}: ended by {signal.Signals(number).name}\n".encode())
    sys.exit(128 + number)


def end_by_signals():
    for number in ENDING:
        # what `nohup` or a shell ignores stays ignored
        if signal.getsignal(number) in (signal.SIG_DFL, signal.default_int_handler):
            signal.signal(number, end)


def place_of(text):
    """The place of an IPv4 prefix in `Prefixes`: a key, and a bit of the key's number. None for any other text."""
    address, _, length = text.partition("/")
    try:
        number = number_of(inet_pton(AF_INET, address), "big")
        level, behind_key, behind, first, mask, past = LEVELS[length]
    except (OSError, ValueError, KeyError):
        return None
    return None if number & past else (level | number >> behind_key, BITS[first | number >> behind & mask])


def places_of(texts):
    """The places of texts, which are found faster together."""
    try:
        parts = [text.split("/") for text in texts]
        numbers = struct.unpack(f">{len(texts)}I", b"".join([inet_pton(AF_INET, address) for address, _ in parts]))
        levels = [LEVELS[length] for _, length in parts]
    except (OSError, ValueError, KeyError):
        return list(map(place_of, texts))
    return [None if number & past else (level | number >> behind_key, BITS[first | number >> behind & mask])
            for number, (level, behind_key, behind, first, mask, past) in zip(numbers, levels)]


class Prefixes:
    """The prefixes of a table, in little memory: those that share the bits before their last eight are one number, with a bit
    for each. Prefixes that aren't IPv4 are kept as they are."""

    def __init__(self):
        self.bits, self.others = {}, set()

    def __contains__(self, prefix):
        if (place := place_of(prefix)) is None:
            return prefix in self.others
        key, bit = place
        return self.bits.get(key, 0) & bit != 0

    def __len__(self):
        return sum(map(int.bit_count, self.bits.values())) + len(self.others)

    def add(self, prefix):
        """Adds a prefix; returns False if it is there already."""
        if (place := place_of(prefix)) is not None:
            return self.add_at(*place)
        is_new = prefix not in self.others
        self.others.add(prefix)
        return is_new

    def add_at(self, key, bit):
        """The same for a prefix at that place."""
        before = self.bits.get(key, 0)
        self.bits[key] = before | bit
        return before & bit == 0

    def first_met(self, places):
        """Adds prefixes at these places, up to the first one that is there already; returns its number, or None."""
        bits = self.bits
        for number, (key, bit) in enumerate(places):
            before = bits.get(key, 0)
            if before & bit:
                return number
            bits[key] = before | bit
        return None

    def kept(self):
        """The prefixes, for `join`."""
        return self.bits, self.others

    def join(self, kept):
        """Adds these prefixes; returns False if one of them is there already, and then adds none."""
        bits, others = kept
        # hardly any, since tables are in order
        common = self.bits.keys() & bits.keys()
        if not self.others.isdisjoint(others) or any(self.bits[key] & bits[key] for key in common):
            return False
        self.bits |= bits | {key: self.bits[key] | bits[key] for key in common}
        self.others |= others
        return True


class Texts(set):
    """The prefixes of a table whose reader has their texts anyway."""

    def add(self, prefix):
        """Adds a prefix; returns False if it is there already."""
        before = len(self)
        super().add(prefix)
        return len(self) > before


def several_processes():
    """The number of processes that convert pieces; 0 if this one converts all."""
    number = PROCESSES or pieces.processors()
    return number if number > 1 else 0


def read_ahead(given, state, work, join, files):
    """Has other processes convert pieces of the input, if there are several processors. `join(result)` adds a result, or
    returns False if it can't."""

    def join_piece(result, piece):
        if not join(result):
            return False
        given.skip(piece)
        return True

    if number := several_processes():
        given.ahead = pieces.Ahead(given.pieces(), state, work, join_piece, number, AHEAD, files.folder.descriptors())


class Parts:
    """How pieces of a table are converted: `state()` is what a piece needs from before it, and `read(data, state,
    notes)` yields the prefixes of a piece with their offers; `counted()` is what else a piece gives, and `join(counted)` adds
    it."""

    def __init__(self, arguments, reader):
        self.arguments, self.reader = arguments, reader

    def work(self, data, state):
        """The result of a piece."""
        notes, files, met = Notes(), Gathered(self.arguments), Prefixes()
        reader = self.reader.of_piece(state, notes)
        for prefix, offers in reader.read_piece(data):
            if not met.add(prefix):
                raise Refused(f"{prefix} occurs twice")
            add_lines(files, prefix, offers, self.arguments.by == "rank", notes)
        if reader.state() != state:
            raise Refused("the state after the piece is another")
        return met.kept(), files.gathered(), notes.counted(), reader.counted()

    def join(self, files, met, notes, result):
        """Adds the result of a piece; returns False if a prefix occurs twice."""
        prefixes, gathered, counted, more = result
        if not met.join(prefixes):
            return False
        files.join(gathered)
        notes.join(counted)
        self.reader.join(more)
        return True


def convert_table(arguments, given, read, reader=None):
    """Converts the table that `read(given, arguments, notes)` yields: each prefix with its offers, best first. A table that
    can be read in pieces has a `reader`."""
    notes, met = Notes(), Prefixes() if reader else Texts()
    with FeedFiles(arguments) as files:
        given.after_block = files.flush_many
        if reader:
            parts = Parts(arguments, reader)
            read_ahead(given, reader.state, parts.work, functools.partial(parts.join, files, met, notes), files)
        with given.named():
            for prefix, offers in read(given, arguments, notes):
                if not met.add(prefix):
                    raise Refused(f"{prefix} occurs twice: the input has more than one table, or isn't in order")
                add_lines(files, prefix, offers, arguments.by == "rank", notes)
        tell_of_finders(files, met, notes)
        for option in (arguments.connected, arguments.ipv6_hop):
            option.tell({interface: number for (given, interface), number in files.over.items() if given is option}, notes)
        return files.finish(notes, len(met))


def covering(address):
    """The prefixes that cover the address, each with its length."""
    number = address_number(address)
    return {f"{ipaddress.IPv4Address(number & ~past)}/{length}": int(length) for length, past in HOST_BITS.items()}


class Found(typing.NamedTuple):
    """A route that covers an address: the length of its prefix, negative so that the longest comes first, its preference, its
    source, its next hop, and whether that was looked up itself."""

    order: int
    preference: int
    source: str
    hop: str
    is_looked_up: bool


def routes_to(files, met, addresses):
    """The routes that cover each of the addresses; the one that is used first comes first."""
    lengths = {address: {prefix: length for prefix, length in covering(address).items() if prefix in met} for address in addresses}
    wanted, routes = {prefix for found in lengths.values() for prefix in found}, {}
    for source in files.waiting:
        marks = files.looked_up.get(source)
        for number, line in enumerate(files.written(source)):
            _, prefix, preference, hop = line.split()
            if prefix in wanted:
                routes.setdefault(prefix, []).append((int(preference), source, hop, marks is not None and bool(marks[number])))
    return {address: sorted(Found(-length, *route) for prefix, length in found.items() for route in routes[prefix])
            for address, found in lengths.items()}


def is_found_without(finder, hop, seeker, routes):
    """Returns True if the routes give the same next hop without those of the finder. A route of the seeker, or one that was
    itself looked up, may be gone as well: it doesn't lead to its own next hop."""
    other = next((route for route in routes if of_hop(route.source) != finder), None)
    return other is not None and of_hop(other.source) != seeker and not other.is_looked_up and other.hop == hop


def ways_to(address, routes, sought):
    """The routes with which the daemon finds a next hop. If the next hop of the first of these was itself looked up, the routes to
    that follow, and so on."""
    met = set()
    while address in routes and routes[address] and address not in met:
        met.add(address)
        found = routes[address]
        yield found
        address = found[0].hop if found[0].is_looked_up and (found[0].source, found[0].hop) in sought else None


def tell_of_ways(told, seeker, address, ways):
    """Adds the next hop to those of each source by whose routes it is found, if others would be found without them."""
    before = seeker
    for found in ways:
        finder, hop = of_hop(found[0].source), found[0].hop
        if finder != before and hop != CONNECTED and not is_found_without(finder, hop, before, found):
            told.setdefault(finder, {})[address] = seeker
        before = finder


def tell_of_finders(files, met, notes):
    """Reports the sources whose routes the daemon used to find next hops of other sources, if it would find others
    without them. The table without such a source's feed keeps the next hops that were found with it."""
    if not files.sought:
        return
    files.flush()
    routes, told = routes_to(files, met, {address for _, address in files.sought if is_address(address)}), {}
    for seeker, address in sorted({(of_hop(source), address) for source, address in files.sought}):
        ways = list(ways_to(address, routes, files.sought))
        # if another next hop was found, it wasn't by these routes
        if ways and files.found.get((seeker, address), ways[-1][0].hop) == ways[-1][0].hop:
            tell_of_ways(told, seeker, address, ways)
    for finder, found in told.items():
        notes.tell(f"next hops ({listed(list(found))}) of {listed(sorted(set(found.values())))} are found by routes of {finder}: "
                   f"without {finder} the daemon finds others, and the table without its feed keeps these", len(found))


def parser(documentation, numbers=("local-pref",)):
    """The options that all converters into feeds have. `numbers` are the numbers that preferences can be made of."""
    made = plain_parser(documentation)
    made.add_argument("folder", help="the directory of the feed files; files of others in it are kept")
    made.add_argument(
        "--by",
        choices=["rank", *numbers],
        default="rank",
        help="the source of preferences: the daemon's order (1 is its choice), or its number p as 4294967295 - p",
    )
    for name, what, other, about in (
        ("--connected", "have no next hop but an interface", CONNECTED, "connected networks and of routes over an interface only"),
        ("--ipv6-hop", "have an IPv6 next hop", None, "routes with an IPv6 next hop"),
    ):
        made.add_argument(name, default=Addresses(name, what, other), metavar="[IFACE=]ADDRESS", type=of_interface, action=GiveAddress,
                          help=f"the next hop of {about}, or of those over an interface; can be repeated")
    made.add_argument("--merge", metavar="N", type=count,
                      help="write at most N feeds: merge the best routes of the sources with the fewest routes")
    return made


def multipath(parser):
    """The options of those whose routes may have several next hops."""
    either = parser.add_mutually_exclusive_group()
    either.add_argument("--one-hop", action="store_true", help="accept that the feeds have one next hop of a multipath route, the heaviest")
    either.add_argument("--all-hops", action="store_true",
                        help="write the further next hops of multipath routes to feeds of their own, NAME-hop2.feed and so on")


def always_compare_med(parser):
    """The option of those that choose among BGP's routes."""
    parser.add_argument(
        "--always-compare-med",
        action="store_true",
        help="compare MED whatever the neighbouring AS (BIRD: med metric on; FRR: bgp always-compare-med)",
    )


def deterministic_med(parser):
    """The option for daemons that compare routes in turn by default."""
    parser.add_argument(
        "--deterministic-med",
        action="store_true",
        help="don't compare MED in turn (BIRD: deterministic med on; FRR: bgp deterministic-med)",
    )


def as_number(text):
    """The number of an AS of the command line."""
    if not text.isdecimal() or not 0 < int(text) <= GREATEST:
        raise ValueError
    return int(text)


class Parser(argparse.ArgumentParser):
    """A parser whose messages repeat arguments as `printable` writes them."""

    def error(self, message):
        super().error(printable(message))


def plain_parser(documentation):
    made = Parser(
        description=documentation, epilog=ENDS, formatter_class=argparse.RawDescriptionHelpFormatter, allow_abbrev=False
    )
    made.add_argument("--most", default=MOST_BYTES, metavar="BYTES", type=count,
                      help="refuse an input of more bytes, in case it never ends (default: %(default)s)")
    return made


def ipv4(text):
    """An address of the command line."""
    return str(ipaddress.IPv4Address(text))


def of_interface(text):
    """An interface of the command line, or None, and its address."""
    interface, equals, address = text.rpartition("=")
    return interface if equals else None, ipv4(address)


def count(text):
    """A positive number of the command line."""
    if not text.isdecimal() or int(text) == 0:
        raise ValueError
    return int(text)


@contextlib.contextmanager
def output():
    """Opens standard output for a script. Python's own may be without a buffer (PYTHONUNBUFFERED), and then
    drops what the system doesn't accept at once."""
    if sys.stdout is None:
        raise Refused("standard output is closed")
    with naming("standard output"), open(1, "w", closefd=False) as opened:
        yield opened


def status_of(convert, *arguments):
    """The exit status of a converter, even if it exits by itself, as for `--help`."""
    try:
        return convert(*arguments)
    except SystemExit as ended:
        return ended.code


def run(convert, *arguments):
    """Runs a converter, which returns its exit status; what it can't do is one line on standard error and status 1."""
    # objects that are kept don't refer to themselves, so the cycle collector has nothing to find
    gc.disable()
    end_by_signals()
    try:
        with PROGRESS:
            status = status_of(convert, *arguments)
        if sys.stdout is not None:
            with naming("standard output"):
                sys.stdout.flush()
        sys.exit(status)
    except (Refused, Wrong, OSError) as error:
        said = f"{NAME}: {in_words(error)}"
    except MemoryError:
        said = NO_MEMORY
    # nobody reads what is left to be flushed
    sys.stdout = None
    say(said)
    sys.exit(1)

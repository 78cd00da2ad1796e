"""Reads what `yarib table --best` or `yarib diff` prints, as text or as JSON: ranges of addresses and their answers."""
import array
import functools
import json
import operator
import re
import struct
import typing
from socket import AF_INET, inet_pton

END = 1 << 32
# the highest of a route's numbers; the maximum number of feeds, of both sides of a comparison together
GREATEST, MAX_FEEDS = END - 1, 128
# bytes read at once; a longer line than the second isn't printed by yarib, also not with the longest paths
BLOCK, LONGEST = 1 << 20, 1 << 16
# the answers without a next hop: these numbers come before those of the next hops
NO_ROUTE, UNCHANGED, DISCARD = range(3)
NAMES = ["no route", "unchanged", "discard"]
# the length and the feed if no route is printed, and if nothing is printed
NO_LENGTH, NO_FEED = 255, 0
SAME_LENGTH, SAME_FEED = 254, 255
# the cache size for texts that many rows share
MOST_KNOWN = 65536
# the number of an address's four bytes
NUMBER = struct.Struct(">I").unpack
# the bits past a prefix of that length
HOST_BITS = {str(length): (1 << 32 - length) - 1 for length in range(33)}
PREFIXES = "this is a prefix and not a range: call yarib diff without --prefixes"
MIXED = "some answers are next hops and some are routes: the input has more than one output"
# a route's numbers in their printed order, and their values if no route is printed
NUMBERS = ("pref",)
NO_NUMBERS = (0,) * len(NUMBERS)
# the characters that no feed's name may have: a blank, those that a terminal obeys, and those that change the direction of
# the text around them
NOT_IN_NAMES = r" \x00-\x1f\x7f-\x9f\u061c\u200e\u200f\u202a-\u202e\u2066-\u2069"
# a route after its prefix, and a whole one
ROUTE = re.compile(f"feed ([^{NOT_IN_NAMES}]+)" + "".join(f" {name} (0|[1-9][0-9]{{0,9}})" for name in NUMBERS)
                   + r" via (\S+)")
# the last line of `yarib table --total`, as text and as JSON
TOTAL, TOTAL_BEGINS = re.compile(r'total (\d+)|\{"total":(\d+)\}'), ("total", '{"total"')
ROUTE_TEXT = "{prefix} feed {feed}" + "".join(f" {name} {{{name}}}" for name in NUMBERS) + " via {via}"


class Refused(Exception):
    """No map can be made of the input; the text says why."""


class Wrong(ValueError):
    """A line isn't what is printed there; the text says how."""


def address_number(text):
    """The number of an address, which has one text, without leading zeros."""
    try:
        return NUMBER(inet_pton(AF_INET, text))[0]
    except (OSError, ValueError):
        raise Wrong(f"{shown(text)} is not an address") from None


def address_text(number):
    return ".".join(str(number >> shift & 255) for shift in (24, 16, 8, 0))


def prefix_range(text):
    """The first and the last address of a prefix, and its length."""
    address, _, length = text.partition("/")
    try:
        base, past = NUMBER(inet_pton(AF_INET, address))[0], HOST_BITS[length]
    except (OSError, ValueError, KeyError):
        raise Wrong(f"{shown(text)} is not a prefix") from None
    if base & past:
        raise Wrong(f"{text!r} is not a prefix: a bit is set past its length")
    return base, base | past, int(length)


class Hops:
    """The next hops in the order of their first occurrence; their numbers begin after those of `NAMES`."""

    def __init__(self):
        self.numbers = {"discard": DISCARD}
        self.addresses = array.array("I", [0] * len(NAMES))

    def number(self, text):
        found = self.numbers.get(text)
        if found is None:
            self.addresses.append(address_number(text))
            found = self.numbers[text] = len(self.addresses) - 1
        return found

    def text(self, number):
        return NAMES[number] if number < len(NAMES) else address_text(self.addresses[number])


class Feeds:
    """The feeds in the order of their first occurrence, numbered from 1: each by the number or the name that is
    printed."""

    def __init__(self):
        self.numbers, self.texts = {}, ["no route"]

    def number(self, text):
        found = self.numbers.get(text)
        if found is None:
            if len(self.numbers) == MAX_FEEDS:
                raise Wrong(f"{shown(text)} exceeds the maximum of {MAX_FEEDS} feeds")
            found = self.numbers[text] = len(self.texts)
            self.texts.append(text)
        return found


class Answers:
    """The answers of a table: for each range the next hop, and the route's prefix length, feed and numbers."""

    def __init__(self, answers):
        hops, lengths, feeds, *numbers = (map(operator.itemgetter(part), answers) for part in range(3 + len(NUMBERS)))
        self.hops, self.lengths, self.feeds = array.array("I", hops), array.array("B", lengths), array.array("B", feeds)
        self.numbers = {name: array.array("I", held) for name, held in zip(NUMBERS, numbers)}


def without_route(hop):
    """An answer without a printed route."""
    return hop, NO_LENGTH, NO_FEED, *NO_NUMBERS


class Ranges(typing.NamedTuple):
    """All addresses, divided into ranges: the first address of each, the answer of each table there, and whether these
    answers are routes or only next hops; and the number of rows that were read."""

    firsts: array.array
    sides: dict[str, Answers]
    hops: Hops
    feeds: Feeds
    are_routes: bool
    rows: int


def lines(stream):
    """Yields the lines without their ends. A character that isn't UTF-8 is replaced by one that no line may have."""
    number, rest = 0, b""
    while block := stream.read(BLOCK):
        whole, end, rest = (rest + block).rpartition(b"\n")
        if end:
            found = whole.decode(errors="replace").split("\n")
            yield from found
            number += len(found)
        if len(rest) > LONGEST:
            raise Refused(f"line {number + 1} is too long: {shown(rest.decode(errors='replace'))}")
    if rest:
        raise Refused(f"line {number + 1} has no line end (LF), so the input is truncated: {shown(rest.decode(errors='replace'))}")


def shown(text):
    return repr(text[:100])


def rows_before_total(given):
    """Yields the rows of a table. If there is a further line, as `yarib table --total` prints it, it has their number."""
    count = 0
    for line in given:
        if line.startswith(TOTAL_BEGINS) and (found := TOTAL.fullmatch(line)):
            number = int(found[1] or found[2])
            if count != number:
                raise Refused(f"line {count + 1}: the table should have {number} rows and has {count}")
            break
        count += 1
        yield line
    for line in given:
        raise Refused(f"line {count + 2}: there is more after the table's last line: {shown(line)}")


def each(rows, take, command):
    """Passes each row to `take`, and counts them; reports an error by the line's number."""
    count, line = 0, ""
    try:
        for count, line in enumerate(rows, 1):
            take(line)
    except Wrong as wrong:
        raise Refused(f"line {count}: {wrong}") from None
    except ValueError:
        raise Refused(f"line {count} is not output of `{command}`: {shown(line)}") from None
    return count


def route_reader(hops, feeds):
    """Returns a function that reads a route after its prefix; few rows differ there."""

    @functools.lru_cache(MOST_KNOWN)
    def read(text):
        found = ROUTE.fullmatch(text)
        if not found or "\ufffd" in text:
            raise ValueError
        feed, *numbers, hop = found.groups()
        numbers = tuple(map(int, numbers))
        if max(numbers) > GREATEST:
            raise Wrong(f"{shown(text)} has a number that is too high")
        return hops.number(hop), feeds.number(feed), *numbers

    return read


# the members of an object that is a route, with the type of each; a feed's name comes before its file
FURTHER_MEMBERS = {"file": str, **dict.fromkeys(NUMBERS, int), "via": (str, type(None))}
ROUTE_MEMBERS = {"prefix": str, "feed": int, **FURTHER_MEMBERS}
NAMED_MEMBERS = {"prefix": str, "feed": int, "name": str, **FURTHER_MEMBERS}


def has_members(found, members):
    """Returns true if an object has these members, in this order, and no others."""
    return list(found) == list(members) and all(type(value) is kind or isinstance(kind, tuple) and isinstance(value, kind)
                                                for value, kind in zip(found.values(), members.values()))


def hop_of_object(found):
    """Returns the next hop of an object, whose members for it are removed: `via`, and with `discard` null."""
    discard = found.pop("discard", None)
    via = found["via"] if "via" in found else 0
    if discard is not None and (discard is not True or via is not None) or discard is None and not isinstance(via, str):
        raise ValueError
    return "discard" if discard else via


def text_of_route(found):
    """Returns the text of a route that is an object: its feed by name if it has one."""
    hop = hop_of_object(found)
    if not (has_members(found, ROUTE_MEMBERS) or has_members(found, NAMED_MEMBERS)):
        raise ValueError
    return ROUTE_TEXT.format_map(found | {"feed": found.get("name", found["feed"]), "via": hop})


def text_of_answer(found):
    """Returns the text of an answer of a comparison that is null or an object."""
    if found is None:
        return "no route"
    if type(found) is not dict:
        raise ValueError
    if "prefix" in found:
        return text_of_route(found)
    hop = hop_of_object(found)
    if list(found) != ["via"]:
        raise ValueError
    return hop if hop == "discard" else f"via {hop}"


def object_of(line):
    """Returns the object that a line holds."""
    try:
        found = json.loads(line)
    except RecursionError as error:
        raise ValueError from error
    if type(found) is not dict or "\ufffd" in line:
        raise ValueError
    return found


def row_text(line):
    """Returns the text of a row of a table, which may be an object."""
    return text_of_route(object_of(line)) if line.startswith("{") else line


def change_text(line):
    """Returns the text of a row of a comparison, which may be an object."""
    if not line.startswith("{"):
        return line
    found = object_of(line)
    if list(found) == ["prefix", "old", "new"]:
        raise Wrong(PREFIXES)
    if list(found) != ["first", "last", "old", "new"]:
        raise ValueError
    old, new = text_of_answer(found["old"]), text_of_answer(found["new"])
    return f"{found['first']}-{found['last']} {old} -> {new}"


def read_table(stream):
    """The ranges of the rows of `yarib table --best`: each address has the longest prefix that covers it. A prefix is
    open until its last address has been passed; the open prefixes are nested."""
    hops, feeds, firsts, answers = Hops(), Feeds(), array.array("I"), []
    route = route_reader(hops, feeds)
    opened, at, before = [(END, without_route(NO_ROUTE))], 0, (-1, 0)

    def close(base):
        """Ends what ends before the base, and the range that goes up to it."""
        nonlocal at
        last, answer = opened[-1]
        while last < base:
            if at <= last:
                firsts.append(at)
                answers.append(answer)
                at = last + 1
            opened.pop()
            last, answer = opened[-1]
        if at < base:
            firsts.append(at)
            answers.append(answer)
            at = base

    def take(line):
        nonlocal before
        prefix, _, rest = row_text(line).partition(" ")
        base, last, length = prefix_range(prefix)
        hop, feed, *numbers = route(rest)
        if (base, length) <= before:
            refuse_order(prefix, (base, length) == before)
        before = base, length
        close(base)
        opened.append((last, (hop, length, feed, *numbers)))

    rows = each(rows_before_total(lines(stream)), take, "yarib table --best")
    close(END)
    return Ranges(firsts, {"": Answers(answers)}, hops, feeds, True, rows)


def refuse_order(prefix, is_same):
    if is_same:
        raise Wrong(f"{prefix} occurs again: `yarib table --best` has one row for each prefix")
    raise Wrong(f"{prefix} is not in the order of a table: it comes after a higher prefix")


def answer_reader(hops, feeds):
    """Returns a function that reads an answer of `yarib diff`: the answer, and the range of its route's prefix, if it
    has one."""
    route = route_reader(hops, feeds)

    def read(text):
        if text == "no route":
            return without_route(NO_ROUTE), None
        if text == "discard":
            return without_route(DISCARD), None
        prefix, _, rest = text.partition(" ")
        if prefix == "via":
            return without_route(hops.number(hop_address(rest))), None
        base, last, length = prefix_range(prefix)
        hop, feed, *numbers = route(rest)
        return (hop, length, feed, *numbers), (base, last)

    return read


def hop_address(text):
    """An address; the word `discard` comes after `via` only in a route."""
    if text == "discard":
        raise Wrong("'via discard' is not an answer: yarib prints 'discard'")
    return text


def change_reader(hops, feeds):
    """Returns a function that reads both answers of a row: these, the ranges of their prefixes, and whether they are
    routes."""
    answer = answer_reader(hops, feeds)

    @functools.lru_cache(MOST_KNOWN)
    def read(text):
        old, arrow, new = text.partition(" -> ")
        if not arrow:
            raise ValueError
        both = answer(old), answer(new)
        if both[0] == both[1]:
            raise Wrong("both answers are the same")
        # `no route` may be paired with a next hop or with a route
        forms = {prefix is not None for found, prefix in both if found[0] != NO_ROUTE}
        if len(forms) > 1:
            raise Wrong(MIXED)
        return both[0][0], both[1][0], [prefix for _, prefix in both if prefix], forms.pop()

    return read


def read_diff(stream):
    """The ranges of `yarib diff`, and those between them, which are answered as before."""
    hops, feeds, firsts, olds, news = Hops(), Feeds(), array.array("I"), [], []
    change = change_reader(hops, feeds)
    same, at, are_routes = (UNCHANGED, SAME_LENGTH, SAME_FEED, *NO_NUMBERS), 0, None

    def append(first, old, new):
        firsts.append(first)
        olds.append(old)
        news.append(new)

    def take(line):
        nonlocal at, are_routes
        span, _, said = change_text(line).partition(" ")
        first, dash, last = span.partition("-")
        if not dash:
            raise Wrong(PREFIXES) if "/" in span and " -> " in said else ValueError
        first, last = address_number(first), address_number(last)
        old, new, prefixes, form = change(said)
        if are_routes not in (None, form):
            raise Wrong(MIXED)
        check_range(first, last, at, prefixes)
        if at < first:
            append(at, same, same)
        append(first, old, new)
        at, are_routes = last + 1, form

    rows = each(lines(stream), take, "yarib diff")
    if at < END:
        append(at, same, same)
    return Ranges(firsts, {"old ": Answers(olds), "new ": Answers(news)}, hops, feeds, are_routes is True, rows)


def check_range(first, last, at, prefixes):
    """Checks that the range begins at `at` or later, and is within the prefixes of its answers."""
    if last < first:
        raise Wrong(f"the range ends at {address_text(last)}, before it begins")
    if first < at:
        raise Wrong(f"the range begins at {address_text(first)}, before the end of the previous range")
    for base, end in prefixes:
        if not base <= first <= last <= end:
            raise Wrong("the range isn't within the prefix of its answer")

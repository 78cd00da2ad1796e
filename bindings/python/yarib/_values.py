"""Routes, prefixes, addresses and commands as Python has them, and as the library reads and writes them."""
from __future__ import annotations

import ctypes
import functools
import ipaddress
import operator
import struct
from typing import Any, Dict, List, NamedTuple, Optional, Sequence, Tuple, Union

from . import _library as c
from ._library import COMMAND, REPLY, ROUTE, Error, Invalid, Room, check, held, rooms

# A call without conversions accepts only sizes below it.
MANY = 1 << 31
# The library's constants, which a short call reads often.
VIA, LISTED, ROUTE_SIZE = c.VIA, c.LISTED, ROUTE.size
LAST = (1 << 32) - 1
ADDRESS_FROM, PREFIX_FROM, ROUTE_FROM, REPLY_FROM, COUNT_FROM = (
    one.unpack_from for one in (c.ADDRESS, c.PREFIX, ROUTE, REPLY, c.COUNT))
NETWORK, ADDRESS = ipaddress.IPv4Network, ipaddress.IPv4Address
Address = Union[str, int, ipaddress.IPv4Address]
Prefix = Union[str, ipaddress.IPv4Network, Sequence[int]]


class Exists(Error, ValueError):
    """The feed has a route to this prefix; nothing changed."""


class Full(Error, ValueError):
    """The feed is at its limit; nothing changed."""


class Missing(Error, KeyError):
    """The feed has no route to this prefix; nothing changed."""


UNCHANGED: Dict[int, Any] = {c.EXISTS: Exists, c.FULL: Full, c.MISSING: Missing}


class Route(NamedTuple):
    """A feed's route to the addresses of a prefix. `via` is the router, or None if packets are discarded."""
    base: int
    length: int
    feed: int
    pref: int
    via: Optional[int]

    @property
    def prefix(self) -> ipaddress.IPv4Network:
        return NETWORK((self.base, self.length))

    @property
    def next_hop(self) -> Optional[ipaddress.IPv4Address]:
        return None if self.via is None else ADDRESS(self.via)

    def __str__(self) -> str:
        hop = "discard" if self.via is None else str(self.next_hop)
        return f"{self.prefix} feed {self.feed} pref {self.pref} via {hop}"


class Difference(NamedTuple):
    """A range of addresses whose answers differ between two tables. When next hops are compared, an answer is an
    address, None if packets are discarded, or False without a route; when routes are compared, it is a Route or None."""
    first: int
    last: int
    before: object
    after: object


class Change(NamedTuple):
    """A prefix whose best route has changed: its best Route before, and after; None without a route to it."""
    base: int
    length: int
    before: Optional[Route]
    after: Optional[Route]

    @property
    def prefix(self) -> ipaddress.IPv4Network:
        return NETWORK((self.base, self.length))


class Outcome(NamedTuple):
    """The outcome of a command: "added", "exists", "full", "replaced", "withdrawn", "missing", "found", "no route",
    "dumped", "purged", or "unanswered" with the status as the reason."""
    said: str
    count: int  # type: ignore[assignment]
    route: Optional[Route]
    status: Optional[str]


class Entry(NamedTuple):
    """An entry of the journal: a feed's command, as the arguments of `apply`, and its reply."""
    command: Tuple[Any, ...]
    outcome: Outcome


def room_of_call() -> Room:
    try:
        return rooms.pop()
    except IndexError:
        return Room()


def escaped(text: str) -> bytes:
    """Returns a text that isn't ASCII for C."""
    return text.encode("utf-8", "surrogateescape")


def address_of(value: Address) -> int:
    """Returns the number of an address."""
    room = room_of_call()
    found = address_in(room, value)
    rooms.append(room)
    return found


def address_in(room: Room, value: Address) -> int:
    """Returns the number of an address, which is parsed in this room if it is a text."""
    if isinstance(value, str):
        text = value.encode() if value.isascii() else escaped(value)
        if status := held.yarib_address_parse(text, len(text) if len(text) < MANY else ctypes.c_size_t(len(text)), room.at):
            check(status, value)
        return ADDRESS_FROM(room.bytes)[0]  # type: ignore[no-any-return]
    return int(value) if isinstance(value, ADDRESS) else number(value, "an IPv4 address")


@functools.lru_cache(1024)
def router_of(text: str) -> int:
    """Returns the number of an address that many routes have."""
    return address_of(text)


def number(value: object, said: str = "a number", bits: int = 32) -> int:
    """Returns an unsigned number of at most `bits` bits, or raises: ctypes would drop further bits."""
    try:
        found = operator.index(value)  # type: ignore[arg-type]
    except TypeError:
        raise TypeError(f"yarib: {value!r} is not {said}") from None
    if not 0 <= found < 1 << bits:
        raise Invalid(f"yarib: {value!r} is not {said} of {bits} bits")
    return found


def prefix_of(value: Prefix) -> Tuple[int, int]:
    """Returns the base and length of a prefix."""
    room = room_of_call()
    found = prefix_in(room, value)
    rooms.append(room)
    return found


def prefix_in(room: Room, value: Prefix) -> Tuple[int, int]:
    """Returns the base and length of a prefix, which is parsed in this room if it is a text."""
    if isinstance(value, str):
        text = value.encode() if value.isascii() else escaped(value)
        if status := held.yarib_prefix_parse(text, len(text) if len(text) < MANY else ctypes.c_size_t(len(text)), room.at):
            check(status, value)
        return PREFIX_FROM(room.bytes)  # type: ignore[return-value]
    if isinstance(value, NETWORK):
        return int(value.network_address), value.prefixlen
    if not isinstance(value, (tuple, list)) or len(value) != 2:
        raise TypeError(f"yarib: {value!r} is not an IPv4 prefix")
    base, length = address_of(value[0]), number(value[1], "a length")
    if length > c.MAX_LENGTH:
        c.fail(c.BAD_LENGTH, value)
    return base, length


# Faster than a call of Route.
new = tuple.__new__


def route_of(base: int, pref: int, via: int, feed: int, length: int, hop: int) -> Optional[Route]:
    if hop == c.NO_ROUTE:
        return None
    return new(Route, (base, length, feed, pref, via if hop == c.VIA else None))


def routes_of(block: Union[memoryview, bytearray]) -> List[Route]:
    """Returns the elements of a list, which are routes."""
    return [new(Route, (base, length, feed, pref, via if hop == VIA else None))
            for base, pref, via, feed, length, hop in ROUTE.iter_unpack(block)]


def change_of(*fields: int) -> Change:
    *routes, base, length = fields
    return Change(base, length, route_of(*routes[:6]), route_of(*routes[6:]))


def outcome_of(code: int, count: int, *route: int) -> Outcome:
    if code == c.UNANSWERED:
        return Outcome(c.CODES[0], 0, None, c.STATUS[count])
    return Outcome(c.CODES[code], count, route_of(*route), None)


OPERATIONS = {"add": c.ADD, "replace": c.REPLACE, "withdraw": c.WITHDRAW, "lookup": c.LOOKUP, "dump": c.DUMP,
              "purge": c.PURGE}
NAMES = {number: name for name, number in OPERATIONS.items()}
# What a command takes after its feed and its name.
TAKES: Dict[int, Tuple[str, ...]] = {
    c.ADD: ("a prefix", "a preference", "a next hop"), c.REPLACE: ("a prefix", "a preference", "a next hop"),
    c.WITHDRAW: ("a prefix",), c.LOOKUP: ("an address",), c.DUMP: (), c.PURGE: ()}


def command_of(feed: int, name: str, *words: Any) -> bytes:
    """Returns a command from its arguments, such as ("add", prefix, pref, via) or ("lookup", address)."""
    operation = OPERATIONS.get(name)
    if operation is None:
        raise Invalid(f"yarib: {name!r} is not {', '.join(map(repr, OPERATIONS))}")
    if len(words) != len(TAKES[operation]):
        raise Invalid(f"yarib: {name!r} takes {' and '.join(TAKES[operation]) or 'nothing else'}, not {words!r}")
    if operation == c.LOOKUP:
        return packed(operation, feed, address_of(words[0]))
    if operation in (c.DUMP, c.PURGE):
        return packed(operation, feed, 0)
    if operation == c.WITHDRAW:
        return packed(operation, feed, *prefix_of(words[0]))
    prefix, pref, via = words
    room = room_of_call()
    command = put_in(room, operation, feed, prefix, pref, via)
    rooms.append(room)
    return command


def put_in(room: Room, operation: int, feed: int, prefix: Prefix, pref: int, via: Optional[Address]) -> bytes:
    """Returns a command to add or replace a route. The prefix is parsed in this room if it is a text."""
    base, length = prefix_in(room, prefix)
    if via is None:
        return packed(operation, feed, base, length, pref, 0, c.DISCARD)
    try:
        router = router_of(via) if type(via) is str else via if type(via) is int else address_of(via)
        return COMMAND.pack(operation, feed, base, pref, router, length, VIA)
    except struct.error:
        return packed(operation, feed, base, length, pref, address_of(via), VIA)


def feed_of(feed: object) -> int:
    """Returns the number of a feed, or raises."""
    found = number(feed, "a feed")
    if not 1 <= found <= c.MAX_FEED:
        raise Invalid(f"yarib: feed {found} is not 1 to {c.MAX_FEED}")
    return found


def check_command(status: int, command: bytes) -> None:
    """Raises the error that the status of a command means, with its feed or its prefix."""
    _, feed, base, _, _, length, _ = COMMAND.unpack(command)
    if status == c.BAD_NUMBER:
        feed_of(feed)
    check(status, (base, length))


def packed(operation: int, feed: int, base: int, length: int = 0, pref: int = 0, via: int = 0, hop: int = 0) -> bytes:
    return COMMAND.pack(operation, number(feed, "a feed"), base, number(pref, "a preference"), via, length, hop)


def words_of(operation: int, feed: int, base: int, pref: int, via: int, length: int, hop: int) -> Tuple[Any, ...]:
    """Returns the arguments of a command."""
    name = NAMES[operation]
    if operation == c.LOOKUP:
        return feed, name, ADDRESS(base)
    if operation in (c.DUMP, c.PURGE):
        return feed, name
    prefix = NETWORK((base, length))
    if operation == c.WITHDRAW:
        return feed, name, prefix
    return feed, name, prefix, pref, ADDRESS(via) if hop == c.VIA else None


def is_prefix(key: object) -> bool:
    """Returns True if a key of `table[key]` is a prefix, and not an address."""
    return "/" in key if isinstance(key, str) else isinstance(key, (NETWORK, tuple, list))


def hop_of(*fields: int) -> object:
    answer = route_of(*fields)
    return False if answer is None else answer.next_hop

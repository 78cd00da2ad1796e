"""Tables and forwarding tables."""
from __future__ import annotations

import ctypes
import os
from typing import Any, Callable, Dict, Iterable, Iterator, List, NoReturn, Optional, Sequence, Tuple, Union

from . import _files, _library as c
from ._handles import Handle, pointer_to
from ._library import (
    ENTRY, REPLY, ROUTE, Error, Invalid, Room, check, concurrent_freed, concurrent_held, done, freed, held, rooms,
    status_of,
)
from ._values import (
    COUNT_FROM, LAST, LISTED, REPLY_FROM, ROUTE_FROM, ROUTE_SIZE, UNCHANGED, VIA, Address, Change, Difference,
    Entry, Full, Missing, Outcome, Prefix, Route, address_in, address_of, change_of, check_command, command_of,
    feed_of, hop_of, is_prefix, new, number, outcome_of, prefix_in, prefix_of, put_in, room_of_call, route_of,
    routes_of, words_of,
)

PAGE, ENTRIES = 256, 4096
SELECTION_OF, SMALL_PARTS = c.SELECTION.pack, (c.EXACT, c.COVERING)


class Routes(Handle):
    """What a Table and a ConcurrentTable have in common."""

    def apply(self, feed: int, name: str, *words: Any) -> Outcome:
        """Executes a command of the feed and returns its outcome: add or replace with prefix, preference and via, withdraw
        with prefix, lookup with address, dump or purge."""
        room = room_of_call()
        found = outcome_of(*REPLY_FROM(self._execute(room, command_of(feed, name, *words))))
        rooms.append(room)
        return found

    def _execute(self, room: Room, command: bytes) -> bytearray:
        """Executes a command and returns its reply."""
        apply = (self._freed if command[0] == c.PURGE else self._changing).yarib_apply
        if apply(self._at, command, room.at):
            # After a status that isn't 0 nothing has changed, so the call can be made again.
            check_command(self._status(apply, self._at, command, room.at), command)
        return room.bytes

    def apply_each(self, commands: Iterable[Sequence[Any]]) -> List[Outcome]:
        """Executes commands, given as the arguments of `apply`, and returns the list of their outcomes."""
        raw = [command_of(*words) for words in commands]
        if not raw:
            return []
        replies = bytearray(len(raw) * REPLY.size)
        self._change(self._freed.yarib_apply_each, self._at, b"".join(raw), len(raw), pointer_to(replies), len(raw))
        return [outcome_of(*fields) for fields in REPLY.iter_unpack(replies)]

    def apply_changed(self, feed: int, name: str, *words: Any) -> Tuple[Outcome, Optional[Change]]:
        """Executes an add, replace or withdraw, given as the arguments of `apply`. Returns its outcome, and the Change of the
        best route to its prefix, or None if that is the same; the best routes to other prefixes don't change."""
        command = command_of(feed, name, *words)
        reply, change = bytearray(REPLY.size), bytearray(c.CHANGE.size)
        call = self._changing.yarib_apply_changed
        check_command(self._status(call, self._at, command, pointer_to(reply), pointer_to(change)), command)
        found = change_of(*c.CHANGE.unpack(change))
        return outcome_of(*REPLY.unpack(reply)), found if found.before or found.after else None

    def purge_changes(self, feed: int = 1) -> List[Change]:
        """Returns which best routes a purge of the feed would change, sorted by base and length."""
        chosen = feed_of(feed)
        found = self._pages(c.CHANGE.size, 64, lambda *place: self._freed.yarib_purge_changes(self._at, chosen, *place))
        return [change_of(*fields) for fields in c.CHANGE.iter_unpack(found)]

    def _put(self, operation: int, prefix: Prefix, via: Optional[Address], pref: int, feed: int) -> None:
        try:
            room = rooms.pop()
        except IndexError:
            room = Room()
        # A reply begins with its code, which is below 256, and x86-64 stores the lowest byte first.
        code = self._execute(room, put_in(room, operation, feed, prefix, pref, via))[0]
        rooms.append(room)
        if code in UNCHANGED:
            raise UNCHANGED[code](f"feed {feed}: {prefix}")

    def add(self, prefix: Prefix, via: Optional[Address], pref: int = 0, feed: int = 1) -> None:
        """Adds a route; `via` None discards packets. Raises Exists or Full."""
        self._put(c.ADD, prefix, via, pref, feed)

    def put(self, prefix: Prefix, via: Optional[Address], pref: int = 0, feed: int = 1) -> bool:
        """Adds a route, or changes the feed's route to this prefix. Returns True if it was added. Raises Full."""
        while True:
            said = self.apply(feed, "add", prefix, pref, via).said
            if said == "full":
                raise Full(f"feed {feed}: {prefix}")
            # Another thread may withdraw the route between the two commands.
            if said == "added" or self.apply(feed, "replace", prefix, pref, via).said == "replaced":
                return said == "added"

    def replace(self, prefix: Prefix, via: Optional[Address], pref: int = 0, feed: int = 1) -> None:
        """Changes preference and next hop of the feed's route. Raises Missing."""
        self._put(c.REPLACE, prefix, via, pref, feed)

    def withdraw(self, prefix: Prefix, feed: int = 1) -> None:
        """Removes the feed's route. Raises Missing."""
        if self.apply(feed, "withdraw", prefix).said == "missing":
            raise Missing(f"feed {feed}: {prefix}")

    def purge(self, feed: int = 1) -> int:
        """Removes all routes of the feed and returns their number."""
        return self.apply(feed, "purge").count

    def look_up_all(self, address: Address) -> List[Route]:
        """Returns all routes whose prefix covers the address, the best first."""
        room = room_of_call()
        return self._listed(room, self._held.yarib_look_up_all, address_in(room, address))

    def _pages(self, width: int, size: int, call: Callable[..., int]) -> memoryview:
        """Returns a whole list of elements of `width` bytes, in at most two calls while it doesn't change."""
        total = ctypes.c_size_t()
        while True:
            block = bytearray(size * width)
            done(call, 0, pointer_to(block), size, ctypes.byref(total))
            if total.value <= size:
                return memoryview(block)[:total.value * width]
            size = total.value

    def _listed(self, room: Room, call: Callable[..., int], *asked: Union[int, bytes]) -> List[Route]:
        """Returns a list of routes, which is in the room if it is short enough."""
        if call(self._at, *asked, 0, room.list_at, LISTED, room.size_at):
            done(call, self._at, *asked, 0, room.list_at, LISTED, room.size_at)
        total: int = COUNT_FROM(room.bytes, 32)[0]
        if total == 1:
            base, pref, via, feed, length, hop = ROUTE_FROM(room.list)
            found = [new(Route, (base, length, feed, pref, via if hop == VIA else None))]
        elif total <= LISTED:
            found = routes_of(room.list[:total * ROUTE_SIZE])
        else:
            found = routes_of(self._pages(ROUTE.size, total, lambda *place: call(self._at, *asked, *place)))
        rooms.append(room)
        return found

    def __len__(self) -> int:
        total = ctypes.c_size_t()
        done(self._held.yarib_count, self._at, ctypes.byref(total))
        return total.value

    def routes(self, feed: Optional[int] = None, best: bool = False, via: Optional[Address] = "any") -> List[Route]:
        """Returns the routes, sorted by base, length, preference and feed: all, those of a feed, or those via a next hop, which
        is a router or, for routes that discard packets, None. With `best` only the best of each prefix; with a feed or a
        next hop, only those best routes that belong to the feed and use the next hop."""
        if feed is not None or best or via != "any":
            return self._select(c.ALL, (0, 0), feed, best, via)
        found = self._pages(ROUTE.size, len(self) + 1, lambda *place: self._freed.yarib_routes(self._at, *place))
        return routes_of(found)

    def exact(self, prefix: Prefix, feed: Optional[int] = None, best: bool = False, via: Optional[Address] = "any") -> List[Route]:
        """Returns the routes to this prefix, the best first, selected as in `routes`."""
        return self._select(c.EXACT, prefix, feed, best, via)

    def within(self, prefix: Prefix, feed: Optional[int] = None, best: bool = False, via: Optional[Address] = "any") -> List[Route]:
        """Returns the routes to this prefix and to longer prefixes inside it, selected as in `routes`."""
        return self._select(c.WITHIN, prefix, feed, best, via)

    def covering(self, prefix: Prefix, feed: Optional[int] = None, best: bool = False, via: Optional[Address] = "any") -> List[Route]:
        """Returns the routes to this prefix and to shorter prefixes that contain it, selected as in `routes`."""
        return self._select(c.COVERING, prefix, feed, best, via)

    def _select(self, part: int, prefix: Prefix, feed: Optional[int], best: bool, via: Optional[Address]) -> List[Route]:
        room = room_of_call()
        base, length = prefix_in(room, prefix)
        asked = SELECTION_OF(part, 0 if feed is None else feed_of(feed), base, length, 1 if best else 0)
        # At most the routes to 511 prefixes, or else any number.
        calls = self._held if part in SMALL_PARTS or part == c.WITHIN and length >= 24 else self._freed
        if via == "any":
            return self._listed(room, calls.yarib_select, asked)
        hop, router = (c.DISCARD, 0) if via is None else (VIA, address_of(via))
        return self._listed(room, calls.yarib_select_by_hop, asked, hop, router)

    def hop_counts(self) -> Dict[Optional[int], int]:
        """Returns how many best routes use each next hop: None first, for routes that discard packets, then the routers in
        ascending order. A next hop that no best route uses is left out."""
        found = self._pages(c.HOP_COUNT.size, 64, lambda *place: self._freed.yarib_hop_counts(self._at, *place))
        return {router if hop == VIA else None: count for hop, router, count in c.HOP_COUNT.iter_unpack(found)}

    def routes_from(self, prefix: Prefix, pref: int = 0, feed: int = 0) -> Iterator[Route]:
        """Iterates over the routes, in the order of `routes`, from the position of this prefix, preference and feed on.
        Preference and feed 0 are before all routes to the prefix. Allocates memory for one page of routes. The table
        may change during the iteration: a route is included if it exists when its turn comes, and never twice."""
        base, length = prefix_of(prefix)
        return self._pages_from(ROUTE.pack(base, number(pref, "a preference"), 0, number(feed, "a feed"), length, 0))

    def _pages_from(self, place: bytes) -> Iterator[Route]:
        used = ctypes.c_size_t(PAGE)
        while used.value == PAGE:
            page = bytearray(PAGE * ROUTE.size)
            done(self._held.yarib_routes_from, self._at, place, pointer_to(page), PAGE, ctypes.byref(used))
            yield from routes_of(memoryview(page)[:used.value * ROUTE.size])
            base, pref, via, feed, length, hop = ROUTE.unpack_from(page, (PAGE - 1) * ROUTE.size)
            place = ROUTE.pack(base, pref, via, feed + 1, length, hop)

    def fib_is_attached(self) -> bool:
        """Returns True if a forwarding table is attached, which look-ups use. After `fib_attach` this is False only once a
        change found no memory to update it. A ConcurrentTable answers for the published one of its two tables."""
        found = ctypes.c_uint32()
        done(self._held.yarib_fib_is_attached, self._at, ctypes.byref(found))
        return found.value == 1

    def __iter__(self) -> Iterator[Route]:
        """Iterates over all routes, page by page, like `routes_from`."""
        return self.routes_from((0, 0))

    def look_up_prefix(self, prefix: Prefix) -> Optional[Route]:
        """Returns the best route of the longest prefix that contains this prefix, or None."""
        room = room_of_call()
        base, length, found = self._at_base(room, prefix)
        rooms.append(room)
        if found[4] <= length and not base & LAST >> length:
            return route_of(*found)
        # A longer prefix with this base hides it, or the prefix is invalid.
        covering = self.covering((base, length), best=True)
        return covering[-1] if covering else None

    def __getitem__(self, key: Union[Address, Prefix]) -> Route:
        """Returns the best route to exactly this prefix, or the answer to a look-up of this address. Raises Missing."""
        if (route := self._get(key)) is None:
            raise Missing(f"no route to {key}")
        return route

    def _get(self, key: Union[Address, Prefix]) -> Optional[Route]:
        if not is_prefix(key):
            return self.look_up(key)  # type: ignore[arg-type]
        return None if (found := self._best(key)) is None else route_of(*found)  # type: ignore[arg-type]

    def _best(self, prefix: Prefix) -> Optional[Tuple[int, ...]]:
        """Returns the fields of the best route to exactly this prefix, which is the first one in order, or None."""
        room = room_of_call()
        base, length, found = self._at_base(room, prefix)
        if found[4] > length or base & LAST >> length:
            # A longer prefix with this base hides it, or the prefix is invalid.
            place = ROUTE.pack(base, 0, 0, 0, length, 0)
            done(self._held.yarib_routes_from, self._at, place, room.at, 1, room.size_at)
            found = ROUTE_FROM(room.bytes)
        rooms.append(room)
        return found if found[4] == length and found[5] else None

    def _at_base(self, room: Room, prefix: Prefix) -> Tuple[int, int, Tuple[int, ...]]:
        """Returns base and length of a prefix, and the fields of the best route for its base."""
        base, length = prefix_in(room, prefix)
        if self._held.yarib_look_up_one(self._at, base, room.at):
            done(self._held.yarib_look_up_one, self._at, base, room.at)
        return base, length, ROUTE_FROM(room.bytes)

    def get(self, key: Union[Address, Prefix], default: Any = None) -> Any:
        """Returns what `table[key]` returns, or the default without such a route."""
        found = self._get(key)
        return default if found is None else found

    def __delitem__(self, prefix: Prefix) -> None:
        """Removes the routes of all feeds to this prefix. Raises Missing without such a route."""
        removed = [self.apply(route.feed, "withdraw", prefix).said for route in self.exact(prefix)]
        if "withdrawn" not in removed:
            raise Missing(f"no route to {prefix}")

    def __contains__(self, key: object) -> bool:
        """Returns True if the table has exactly this route, if some feed has a route to exactly this prefix, or if some
        prefix covers this address."""
        if type(key) is not str and isinstance(key, Route):
            return key in self.exact(key[:2], feed=key.feed)
        return (self._best(key) if is_prefix(key) else self.look_up(key)) is not None  # type: ignore[arg-type]

    def save(self, path: Union[str, os.PathLike[str]], feed: int = 1) -> None:
        """Writes the feed's routes as a feed file of version 2, which `load` and the program read. A ConcurrentTable writes
        those of one published table."""
        chosen = feed_of(feed)
        text = _files.written(lambda stream: status_of(self._freed.yarib_save, self._at, chosen, stream))
        with open(path, "wb") as file:
            file.write(text)

    def load(self, path: Union[str, os.PathLike[str]], feed: int = 1) -> int:
        """Adds the routes of a feed file that consists of `add` lines, and returns their number. Raises Exists, Full or
        Invalid with the number of the first line that can't be added; the routes of the lines before it stay. The file is
        read whole before. A Table is changed at once, a ConcurrentTable published once, at the end."""
        chosen = feed_of(feed)
        with open(path, "rb") as file:
            text = file.read()
        status, loaded = _files.read(lambda *words: self._status(self._freed.yarib_load, self._at, chosen, *words), text)
        if status != c.DONE:
            place = f"{os.fspath(path)}:{loaded.line}"
            line = (text.split(b"\n", loaded.line) + [b""])[max(loaded.line, 1) - 1][:c.MAX_LINE + 1].decode("utf-8", "backslashreplace")
            if status == c.NOT_ADDED:
                raise UNCHANGED[loaded.code](f"{place}: feed {feed}: {line!r}")
            if status in (c.BAD_TEXT, c.BAD_LENGTH, c.BAD_BITS):
                raise Invalid(f"yarib: {place}: {'not an add line' if status == c.BAD_TEXT else c.STATUS[status]}: {line!r}")
            check(status)
        return loaded.routes  # type: ignore[no-any-return]

    def differences(self, other: Routes, by: str = "hop") -> Iterator[Difference]:
        """Iterates over the ranges whose answers differ between this table and another of its kind, by "hop" or by
        "route". Each range is that of the moment when it is found: copy a ConcurrentTable that changes before."""
        if not isinstance(other, Table if isinstance(self, Table) else ConcurrentTable):
            raise TypeError(f"yarib: not a {type(self).__name__}: {other!r}")
        if other is self:
            return
        if by not in ("hop", "route"):
            raise Invalid(f"yarib: {by!r} is not \"hop\" or \"route\"")
        kinds: Dict[str, Tuple[int, Callable[..., object]]] = {"hop": (0, hop_of), "route": (1, route_of)}
        kind, told = kinds[by]
        raw, place = ctypes.create_string_buffer(c.DIFFERENCE.size), 0
        while place <= LAST:
            status = status_of(self._freed.yarib_first_difference, self._at, other._at, kind, place, raw)
            if status == c.NONE_LEFT:
                return
            check(status)
            first, last, *routes = c.DIFFERENCE.unpack(raw)
            yield Difference(first, last, told(*routes[:6]), told(*routes[6:]))
            place = last + 1


class Table(Routes):
    """A routing table with at most `limit` routes for each feed, 1 to 1,000,000. With `journal` it keeps every
    answered command, 56 bytes each."""

    def __init__(self, limit: int = c.MAX_LIMIT, journal: bool = False) -> None:
        super().__init__()
        self._limit, self._journal = number(limit, "a limit"), bool(journal)
        check(status_of(held.yarib_new, self._at, self._limit, int(self._journal)), limit)

    def __enter__(self) -> Table:
        return self

    def __repr__(self) -> str:
        try:
            return f"<yarib.Table of {len(self)} routes>"
        except Error as error:
            return f"<yarib.Table: {error}>"

    def __reduce__(self) -> Tuple[Any, ...]:
        """Copies and pickles a table by its routes, or by its journal if it keeps one. The copy has no attached forwarding table."""
        if self._journal:
            commands = [entry.command for entry in self.journal()]
        else:
            commands = [(one.feed, "add", one[:2], one.pref, one.via) for one in self.routes()]
        return restored, (self._limit, self._journal, commands)

    def journal(self) -> List[Entry]:
        """Returns each answered command with its outcome. Raises Refused if the table keeps no journal."""
        block = self._pages(ENTRY.size, ENTRIES, lambda *place: freed.yarib_journal(self._at, *place))
        return [Entry(words_of(*fields[:7]), outcome_of(*fields[7:])) for fields in ENTRY.iter_unpack(block)]

    def reserve(self, entries: int) -> None:
        """Reserves capacity for this many journal entries, if there is a journal."""
        self._change(freed.yarib_reserve, self._at, number(entries, "a size", ctypes.sizeof(ctypes.c_size_t) * 8))

    def fib_new(self) -> Fib:
        """Returns a forwarding table with the current answers of this table."""
        return Fib(self)

    def fib_attach(self) -> None:
        """Attaches a forwarding table of 64 MiB or more, if none is attached. From then on every command updates it, and
        look-ups use it. If a command finds no memory for the update, the forwarding table is freed until this is called
        again. Raises Refused if the table keeps a journal."""
        self._change(freed.yarib_fib_attach, self._at)
        # A command may rewrite many entries.
        self._changing = freed

    def _give_way(self) -> None:
        with self._turn:
            pass


class ConcurrentTable(Routes):
    """A routing table that one thread changes while others read it. A reading call never waits for a change, and returns what
    one published table holds. apply_each publishes its commands at once. It takes twice the memory of a Table."""

    _held: Any = concurrent_held
    _freed: Any = concurrent_freed
    _changing: Any = concurrent_freed

    def __init__(self, limit: int = c.MAX_LIMIT) -> None:
        super().__init__()
        check(status_of(held.yarib_concurrent_new, self._at, number(limit, "a limit")), limit)

    def __enter__(self) -> ConcurrentTable:
        return self

    def __repr__(self) -> str:
        try:
            return f"<yarib.ConcurrentTable of {len(self)} routes>"
        except Error as error:
            return f"<yarib.ConcurrentTable: {error}>"

    def __reduce__(self) -> NoReturn:
        raise TypeError("yarib: a concurrent table can't be pickled: use its method copy")

    def copy(self, limit: int = c.MAX_LIMIT) -> Table:
        """Returns a Table with the published routes and this limit. Raises Full if a feed has more routes than the limit."""
        made = Table(limit)
        self._check_limit(status_of(freed.yarib_concurrent_copy, self._at, number(limit, "a limit"), made._at), limit)
        return made

    def replace_all(self, other: Table, limit: int = c.MAX_LIMIT) -> None:
        """Publishes the routes of a Table at once, which was loaded aside, with this limit: each reading call finds those
        before, or the new ones. Raises Full if a feed has more routes than the limit."""
        if not isinstance(other, Table):
            raise TypeError(f"yarib: not a Table: {other!r}")
        self._check_limit(self._status(freed.yarib_concurrent_replace, self._at, number(limit, "a limit"), other._at), limit)

    def _check_limit(self, status: int, limit: int) -> None:
        if status == c.NOT_ADDED:
            raise Full(f"a feed has more than {limit} routes")
        check(status, limit)

    def fib_attach(self) -> None:
        """Attaches a forwarding table of 64 MiB or more to each of its two tables, as Table.fib_attach does."""
        self._change(self._freed.yarib_fib_attach, self._at)


def restored(limit: int, journal: bool, commands: List[Sequence[Any]]) -> Table:
    """Returns a table that executed these commands."""
    table = Table(limit, journal)
    table.reserve(len(commands))
    table.apply_each(commands)
    return table


class Fib(Handle):
    """A table's answers at the time when this was created: 64 MiB or more, for look-ups with two or three memory reads.
    Several threads can query it concurrently."""

    def __init__(self, table: Table) -> None:
        super().__init__()
        if not isinstance(table, Table):
            raise TypeError(f"yarib: not a Table: {table!r}")
        done(freed.yarib_fib_new, table._at, self._at)

    def __enter__(self) -> Fib:
        return self

    def __repr__(self) -> str:
        try:
            return f"<yarib.Fib of {self.memory()} bytes>"
        except Error as error:
            return f"<yarib.Fib: {error}>"

    def __reduce__(self) -> NoReturn:
        raise TypeError("yarib: a forwarding table can't be copied or pickled: copy its table and call fib_new()")

"""Handles of the library: what each has, its answers, and views of forwarding tables."""
from __future__ import annotations

import array
import contextlib
import ctypes
import mmap
import sys
import threading
from typing import Any, Callable, Dict, Iterator, NoReturn, Optional, Tuple, Union

from . import _library as c
from ._library import ROUTE, Invalid, Room, check, done, freed, held, rooms, status_of
from ._values import MANY, ROUTE_FROM, VIA, Address, Route, address_in, address_of, escaped, new, number, route_of


class Answers:
    """The answers to several look-ups, in order: a Route or None each. They are in one block of memory, 20 bytes each,
    which `memory` and `numpy.frombuffer(answers.memory(), answers.dtype)` read without a copy."""

    dtype: Dict[str, Any] = {"names": ["base", "pref", "via", "feed", "len", "hop"], "formats": ["u4", "u4", "u4", "u4", "u1", "u1"],
                             "offsets": [0, 4, 8, 12, 16, 17], "itemsize": ROUTE.size}

    def __init__(self, size: int) -> None:
        self.block = bytearray(size * ROUTE.size)

    def __len__(self) -> int:
        return len(self.block) // ROUTE.size

    def __getitem__(self, index: Any) -> Any:
        if isinstance(index, slice):
            return [self[k] for k in range(*index.indices(len(self)))]
        return route_of(*ROUTE.unpack_from(self.block, range(len(self))[index] * ROUTE.size))

    def __iter__(self) -> Iterator[Optional[Route]]:
        return (route_of(*fields) for fields in ROUTE.iter_unpack(self.block))

    def __repr__(self) -> str:
        return f"<yarib.Answers: {len(self)}>"

    def memory(self) -> memoryview:
        """Returns the block of memory, read-only."""
        return memoryview(self.block).toreadonly()


# The marks of a buffer's form that mean host byte order.
ORDERS = "@=<" if sys.byteorder == "little" else "@=>!"


def addresses_of(addresses: Any) -> Tuple[Any, int]:
    """Returns the addresses as a block for C, without a copy if they are a writable buffer of 32-bit numbers."""
    try:
        view = memoryview(addresses)
    except TypeError:
        block = array.array("I", map(address_of, addresses))
        return (ctypes.c_uint32 * len(block)).from_buffer(block) if block else (ctypes.c_uint32 * 1)(), len(block)
    if view.itemsize != 4 or view.format.lstrip(ORDERS) not in ("I", "L") or view.ndim != 1 or not view.c_contiguous:
        raise Invalid(f"yarib: {addresses!r} is not a contiguous buffer of unsigned 32-bit numbers in host byte order")
    if not len(view):
        return (ctypes.c_uint32 * 1)(), 0
    kind = ctypes.c_uint32 * len(view)
    return (kind.from_buffer_copy(view) if view.readonly else kind.from_buffer(view)), len(view)


def pointer_to(block: Union[bytearray, array.array[int]]) -> Any:
    """Returns a reference to a block, also to an empty one, for C."""
    return (ctypes.c_char * len(block)).from_buffer(block) if block else (ctypes.c_char * 1)()


def bytes_of(handle: Any, calls: Any = held) -> int:
    found = ctypes.c_size_t()
    done(calls.yarib_memory, handle, ctypes.byref(found))
    return found.value


def memory_of(size: int) -> mmap.mmap:
    """Returns memory for this many 32-bit numbers, in huge pages if the kernel has them."""
    try:
        block = mmap.mmap(-1, size * 4, mmap.MAP_PRIVATE | mmap.MAP_ANONYMOUS)
    except OSError:
        c.fail(c.NO_MEMORY, None)
    with contextlib.suppress(OSError):
        block.madvise(mmap.MADV_HUGEPAGE)
    return block


class View:
    """The next hops of a table as numbers: NUMBER_NO_ROUTE, NUMBER_DISCARD, or the index of a router in `routers`. It is
    what the table answered when this was created, and owns its memory, 64 MiB or more: changes, a close of the table and a
    fork don't change it. Its look-ups are the fastest. Any number of threads may use it, and none waits."""

    def __init__(self, table: Handle) -> None:
        """Makes a view of a Fib, or of a table with an attached forwarding table. Raises Refused for another table."""
        if not isinstance(table, Handle):
            raise TypeError(f"yarib: not a table: {table!r}")
        blocks, routers, status = ctypes.c_size_t(), ctypes.c_size_t(), c.BAD_SIZE
        entries, table_at = memory_of(c.VIEW_ENTRIES), table._at
        table._give_way()
        # Another thread may change the table between the two calls.
        while status == c.BAD_SIZE:
            done(table._held.yarib_view_sizes, table_at, ctypes.byref(blocks), ctypes.byref(routers))
            arrays = [(entries, c.VIEW_ENTRIES), (memory_of(blocks.value), blocks.value), (memory_of(routers.value), routers.value)]
            # Each has a reference to its memory.
            self._parts = [(ctypes.c_uint32 * size).from_buffer(block) for block, size in arrays]
            raw = c.RawView(*(word for part in self._parts for word in (ctypes.addressof(part), len(part))))
            status = status_of(table._freed.yarib_view_write, table_at, ctypes.byref(raw))
        check(status)
        self._raw, self._at = raw, ctypes.byref(raw)
        self.routers: memoryview = memoryview(arrays[2][0]).cast("I")[:raw.router_count].toreadonly()

    def look_up(self, address: Address) -> int:
        """Returns the number of the address's next hop."""
        found: int = held.yarib_view_look_up(self._at, address_of(address))
        return found

    def look_up_each(self, addresses: Any) -> array.array[int]:
        """Returns the number of each address's next hop, as an array of 32-bit numbers. The addresses are those of
        Table.look_up_each. Other threads run meanwhile."""
        block, size = addresses_of(addresses)
        found = array.array("I", bytes(4 * size))
        check(freed.yarib_view_look_up_each(self._at, block, size, pointer_to(found), size))
        return found

    def memory(self) -> int:
        """Returns its size in bytes."""
        return sum(map(ctypes.sizeof, self._parts))

    def __repr__(self) -> str:
        return f"<yarib.View of {self.memory()} bytes>"

    def __reduce__(self) -> NoReturn:
        raise TypeError("yarib: a view can't be copied or pickled: copy its table and call view_new()")


class Handle:
    """A handle of the C library, freed with this object."""

    # The library's calls for such a handle: short calls that read, long calls, and changes. A call that may take over a few
    # milliseconds is a long one.
    _held: Any = held
    _freed: Any = freed
    _changing: Any = held

    def __init__(self) -> None:
        self._handle = ctypes.c_void_p()
        self._at = ctypes.byref(self._handle)
        # Held by a change that waits for the calls under way: long calls that only read let it go first. A signal handler of the
        # thread that holds it may make any call.
        self._turn = threading.RLock()

    def _change(self, call: Callable[..., int], *words: Any) -> None:
        """Makes a call that changes the handle, once no other call is on it."""
        check(self._status(call, *words))

    def _status(self, call: Callable[..., int], *words: Any) -> int:
        """Makes a call that changes the handle, once no other call is on it, and returns its status."""
        if (status := call(*words)) == c.BUSY:
            with self._turn:
                status = status_of(call, *words)
        return status

    def _give_way(self) -> None:
        """Waits, before a long call that only reads, until no change waits for such calls."""

    def close(self) -> None:
        """Frees the handle's contents, once no other thread's call uses them. Closing twice is harmless."""
        self._change(self._freed.yarib_free, self._at)

    def look_up(self, address: Address) -> Optional[Route]:
        """Returns the best route of the longest prefix that covers the address, or None."""
        try:
            room = rooms.pop()
        except IndexError:
            room = Room()
        if type(address) is str:
            # One call of the library takes less time than two.
            text = address.encode() if address.isascii() else escaped(address)
            size = len(text) if len(text) < MANY else ctypes.c_size_t(len(text))
            if self._held.yarib_look_up_text(self._at, text, size, room.at):
                check(status_of(self._held.yarib_look_up_text, self._at, text, size, room.at), address)
        else:
            asked = address_in(room, address)
            if self._held.yarib_look_up_one(self._at, asked, room.at):
                done(self._held.yarib_look_up_one, self._at, asked, room.at)
        base, pref, via, feed, length, hop = ROUTE_FROM(room.bytes)
        rooms.append(room)
        return new(Route, (base, length, feed, pref, via if hop == VIA else None)) if hop else None

    def look_up_each(self, addresses: Any) -> Answers:
        """Looks up all these addresses and returns the Answers: for a ConcurrentTable, all from one published table. The
        addresses are any iterable, or a buffer of 32-bit numbers. Other threads run meanwhile."""
        self._give_way()
        block, size = addresses_of(addresses)
        answers = Answers(size)
        done(self._freed.yarib_look_up, self._at, block, size, pointer_to(answers.block), size)
        return answers

    def hops(self, addresses: Any, no_route: int, discard: int) -> array.array[int]:
        """Returns the router for each address, as an array of 32-bit numbers: `discard` if packets are discarded, and
        `no_route` if no prefix covers the address. Choose two numbers that no route has as `via`. The addresses are those
        of `look_up_each`. Other threads run meanwhile."""
        self._give_way()
        block, size = addresses_of(addresses)
        found = array.array("I", bytes(4 * size))
        done(self._freed.yarib_hops, self._at, block, size, number(no_route), number(discard), pointer_to(found), size)
        return found

    def view_new(self) -> View:
        """Returns a view of the current answers. Raises Refused for a table without an attached forwarding table."""
        return View(self)

    def memory(self) -> int:
        """Returns its size in bytes: for a table an estimate, with an attached forwarding table."""
        return bytes_of(self._at, self._held)

    def __del__(self) -> None:
        if hasattr(self, "_at"):
            self._freed.yarib_free(self._at)

    def __exit__(self, *_: object) -> None:
        self.close()

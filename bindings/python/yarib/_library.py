"""The shared library and the declarations of its header."""
from __future__ import annotations

import ctypes
import ctypes.util
import os
import pathlib
import struct
import time
from typing import Any, Callable, Dict, List, NoReturn, Tuple

VERSION = "0.3.0"
NAME = "libyarib.so.0"

# The largest feed, limit and prefix length.
MAX_FEED, MAX_LIMIT, MAX_LENGTH = 64, 1_000_000, 32
# The largest number of bytes of a line of a feed file, without its end.
MAX_LINE = 128

# The header's statuses: what a call returns, by its number.
STATUS = ("done", "nothing", "bad number", "bad command", "no memory", "bad size", "none left", "bad text",
          "bad length", "bad bits", "wrong kind", "busy", "bad file", "not added", "no barrier", "forked")
(DONE, NOTHING, BAD_NUMBER, BAD_COMMAND, NO_MEMORY, BAD_SIZE, NONE_LEFT, BAD_TEXT, BAD_LENGTH, BAD_BITS,
 WRONG_KIND, BUSY, BAD_FILE, NOT_ADDED, NO_BARRIER, FORKED) = range(len(STATUS))
ADD, REPLACE, WITHDRAW, LOOKUP, DUMP, PURGE = range(1, 7)
ALL, WITHIN, COVERING, EXACT = range(4)
NO_ROUTE, VIA, DISCARD = range(3)
(UNANSWERED, ADDED, EXISTS, FULL, REPLACED, WITHDRAWN, MISSING, FOUND, NOT_FOUND, DUMPED, PURGED) = range(11)
CODES = ("unanswered", "added", "exists", "full", "replaced", "withdrawn", "missing", "found", "no route",
         "dumped", "purged")


class RawView(ctypes.Structure):
    _fields_ = [("entries", ctypes.c_void_p), ("entry_count", ctypes.c_size_t), ("blocks", ctypes.c_void_p),
                ("block_count", ctypes.c_size_t), ("routers", ctypes.c_void_p), ("router_count", ctypes.c_size_t)]


class RawLoaded(ctypes.Structure):
    _fields_ = [("routes", ctypes.c_size_t), ("line", ctypes.c_size_t), ("code", ctypes.c_uint32)]


# The number of entries of a view, and the numbers that its look-ups return.
VIEW_ENTRIES, NUMBER_NO_ROUTE, NUMBER_DISCARD, FIRST_ROUTER = 1 << 24, 0, 1, 2

# The header's structures: base, preference, router, feed, length and hop of a route; operation, feed, base, preference, router,
# length and hop of a command; code and count of a reply, and its route; first and last address of a difference, and two routes; part,
# feed, base and length of a selection, and whether it selects only best routes.
ROUTE, COMMAND, REPLY = struct.Struct("=IIIIBBxx"), struct.Struct("=IIIIIBBxx"), struct.Struct("=IIIIIIBBxx")
ENTRY, PREFIX, ADDRESS = struct.Struct("=IIIIIBBxxIIIIIIBBxx"), struct.Struct("=IBxxx"), struct.Struct("=I")
DIFFERENCE, SELECTION, COUNT = struct.Struct("=IIIIIIBBxxIIIIBBxx"), struct.Struct("=IIIBBxx"), struct.Struct("@N")
# Kind, router and number of a count of a next hop.
HOP_COUNT = struct.Struct("=III")
# Two routes, and base and length of a change.
CHANGE = struct.Struct("=IIIIBBxxIIIIBBxxIBxxx")

NUMBER, SIZE, POINTER = ctypes.c_uint32, ctypes.c_size_t, ctypes.c_void_p
CALLS: Dict[str, Tuple[Any, ...]] = {
    "yarib_new": (POINTER, NUMBER, NUMBER),
    "yarib_free": (POINTER,),
    "yarib_apply": (POINTER, POINTER, POINTER),
    "yarib_apply_changed": (POINTER, POINTER, POINTER, POINTER),
    "yarib_apply_each": (POINTER, POINTER, SIZE, POINTER, SIZE),
    "yarib_reserve": (POINTER, SIZE),
    "yarib_look_up": (POINTER, POINTER, SIZE, POINTER, SIZE),
    "yarib_look_up_one": (POINTER, NUMBER, POINTER),
    "yarib_look_up_text": (POINTER, ctypes.c_char_p, SIZE, POINTER),
    "yarib_look_up_all": (POINTER, NUMBER, SIZE, POINTER, SIZE, POINTER),
    "yarib_routes": (POINTER, SIZE, POINTER, SIZE, POINTER),
    "yarib_routes_from": (POINTER, POINTER, POINTER, SIZE, POINTER),
    "yarib_select": (POINTER, POINTER, SIZE, POINTER, SIZE, POINTER),
    "yarib_select_by_hop": (POINTER, POINTER, NUMBER, NUMBER, SIZE, POINTER, SIZE, POINTER),
    "yarib_hop_counts": (POINTER, SIZE, POINTER, SIZE, POINTER),
    "yarib_purge_changes": (POINTER, NUMBER, SIZE, POINTER, SIZE, POINTER),
    "yarib_count": (POINTER, POINTER),
    "yarib_journal": (POINTER, SIZE, POINTER, SIZE, POINTER),
    "yarib_first_difference": (POINTER, POINTER, NUMBER, NUMBER, POINTER),
    "yarib_fib_new": (POINTER, POINTER),
    "yarib_fib_attach": (POINTER,),
    "yarib_fib_is_attached": (POINTER, POINTER),
    "yarib_memory": (POINTER, POINTER),
    "yarib_hops": (POINTER, POINTER, SIZE, NUMBER, NUMBER, POINTER, SIZE),
    "yarib_view_sizes": (POINTER, POINTER, POINTER),
    "yarib_view_write": (POINTER, POINTER),
    "yarib_view_look_up": (POINTER, NUMBER),
    "yarib_view_look_up_each": (POINTER, POINTER, SIZE, POINTER, SIZE),
    "yarib_save": (POINTER, NUMBER, POINTER),
    "yarib_load": (POINTER, NUMBER, POINTER, POINTER),
    "yarib_concurrent_new": (POINTER, NUMBER),
    "yarib_concurrent_copy": (POINTER, NUMBER, POINTER),
    "yarib_concurrent_replace": (POINTER, NUMBER, POINTER),
    "yarib_prefix_parse": (ctypes.c_char_p, SIZE, POINTER),
    "yarib_prefix_print": (POINTER, POINTER, SIZE, POINTER),
    "yarib_address_parse": (ctypes.c_char_p, SIZE, POINTER),
    "yarib_address_print": (NUMBER, POINTER, SIZE, POINTER),
}
# Calls without conversions of their arguments, which take half of a short call's time. Each argument must be a number below 1 << 31
# or, if C reads 32 bits, 1 << 32; a bytes object or a reference.
PLAIN = ("yarib_apply", "yarib_look_up_one", "yarib_look_up_text", "yarib_routes_from", "yarib_prefix_parse", "yarib_address_parse",
         "yarib_view_look_up", "yarib_select", "yarib_look_up_all")
# The calls for a concurrent table that are declared as those for a table.
CONCURRENT = ("free", "apply", "apply_changed", "purge_changes", "apply_each", "look_up", "look_up_one", "look_up_text", "look_up_all",
              "hops", "routes", "routes_from", "select", "select_by_hop", "hop_counts", "count", "fib_attach", "fib_is_attached",
              "memory", "view_sizes", "view_write", "save", "load", "first_difference")
CALLS.update({"yarib_concurrent_" + name: CALLS["yarib_" + name] for name in CONCURRENT})


def file_of_library() -> str:
    """Returns the path of the shared library: YARIB_LIBRARY, in this package's directory, or the one that the system finds."""
    if named := os.environ.get("YARIB_LIBRARY"):
        return named
    beside = pathlib.Path(__file__).with_name(NAME)
    return str(beside) if beside.exists() else ctypes.util.find_library("yarib") or NAME


def load(kind: Callable[[str], Any]) -> Any:
    file = file_of_library()
    try:
        library = kind(file)
        calls = [(name, types, getattr(library, name)) for name, types in CALLS.items()]
    except (OSError, AttributeError) as error:
        raise ImportError(f"yarib: cannot load {NAME} ({error}): set YARIB_LIBRARY to the path of version {VERSION}", path=file) from None
    for name, types, call in calls:
        if name.replace("concurrent_", "") not in PLAIN:
            call.argtypes = types
        call.restype = NUMBER
    return library


# `held` keeps Python's global lock, if there is one, and is for short calls; `freed` lets other threads run meanwhile.
# Neither needs that lock: the library returns BUSY from a call that can't run during another one on its handle.
held, freed = load(ctypes.PyDLL), load(ctypes.CDLL)


def build() -> str:
    """Returns what the library was made of: "sources", the sum of the proved sources, "logic", and that of the unproved C files."""
    call = held.yarib_build
    call.restype = ctypes.c_char_p
    made: bytes = call()
    return made.decode()


class Concurrent:
    """The calls of a library for concurrent tables, by the names of the calls for tables."""

    def __init__(self, library: Any) -> None:
        for name in CONCURRENT:
            setattr(self, "yarib_" + name, getattr(library, "yarib_concurrent_" + name))


concurrent_held, concurrent_freed = Concurrent(held), Concurrent(freed)

# So long, in seconds, a thread waits before it makes a busy call again.
PAUSE = 0.00005


# The number of routes of a list that a call writes into its room: a longer list gets memory of its own.
LISTED = 64


class Room:
    """Memory for the results of a call. A call takes it out of `rooms`, and puts it back when the results are read:
    meanwhile another thread or a signal handler may make a call, which then takes another one."""
    __slots__ = ("bytes", "at", "size_at", "list", "list_at")

    def __init__(self) -> None:
        self.bytes, self.list = bytearray(40), bytearray(LISTED * ROUTE.size)
        self.at = ctypes.byref((ctypes.c_char * 32).from_buffer(self.bytes))
        self.size_at = ctypes.byref(SIZE.from_buffer(self.bytes, 32))
        self.list_at = ctypes.byref((ctypes.c_char * len(self.list)).from_buffer(self.list))


rooms: List[Room] = []


class Error(Exception):
    """The base class of this package's errors. After each of them the table is unchanged, except after one of `load`."""


class Invalid(Error, ValueError):
    """A number is out of range, or a text, a prefix or a buffer is invalid."""


class OutOfMemory(Error, MemoryError):
    """Out of memory."""


class Refused(Error, RuntimeError):
    """The table is closed, or doesn't support the call; or the system doesn't allow it."""


def check(status: int, value: object = None) -> None:
    """Raises the error that a status means, with the value that caused it if there is one."""
    if status != DONE:
        fail(status, value)


REFUSALS = {
    NOTHING: "the table is closed",
    WRONG_KIND: "the table doesn't support this call",
    NO_BARRIER: "the kernel refuses membarrier, which a change needs once other threads have read: allow it in the sandbox",
    FORKED: "a thread of the parent process was changing the table at the fork: make another one",
}


def fail(status: int, value: object) -> NoReturn:
    if status == NO_MEMORY:
        raise OutOfMemory("yarib: out of memory")
    if status in REFUSALS:
        raise Refused(REFUSALS[status])
    raise Invalid(f"yarib: {STATUS[status]}" + ("" if value is None else f": {value!r}"))


def status_of(call: Callable[..., int], *words: Any) -> int:
    """Makes a call, again while it is busy, and returns its status."""
    status = call(*words)
    while status == BUSY:
        time.sleep(PAUSE)
        status = call(*words)
    return status


def done(call: Callable[..., int], *words: Any) -> None:
    """Makes a call, again while it is busy, and raises the error that its status means."""
    if (status := call(*words)) != DONE:
        check(status_of(call, *words) if status == BUSY else status)

"""IPv4 routing tables with proved answers, for Python 3.9 and later.

    import yarib

    with yarib.Table() as table:
        table.add("10.0.0.0/8", via="192.0.2.1", pref=10)
        table.add("10.1.0.0/16", via=None, feed=2)      # packets are discarded
        table.look_up("10.1.2.3")                       # the route to 10.1.0.0/16
        table.look_up("192.0.2.1")                      # None: no prefix covers it.

A prefix is a text ("10.0.0.0/8"), an ipaddress.IPv4Network or a pair (base, length) of numbers. An address is a text,
an ipaddress.IPv4Address or a number. Feeds are 1 to MAX_FEED. The lowest preference number is preferred; between equal
preferences, the lowest feed. Error is the base class of this package's errors: an invalid number, text or prefix raises
Invalid, a ValueError, and OutOfMemory is a MemoryError. An argument of the wrong type raises TypeError. After each of
these the table is unchanged.

Several threads may use a Table, a Fib or a View, also in a Python without a global lock. Calls that only read run at the
same time; a change waits until no other call runs. Long calls (look_up_each, apply_each, fib_attach, fib_new) let other
threads run. One thread may change a ConcurrentTable while others read it without waiting.
"""
from ._library import (
    FIRST_ROUTER, MAX_FEED, MAX_LENGTH, MAX_LIMIT, NUMBER_DISCARD, NUMBER_NO_ROUTE, STATUS, VERSION, Error, Invalid, OutOfMemory,
    Refused, build,
)
from ._handles import Answers, View
from ._sources import Source
from ._tables import ConcurrentTable, Fib, Table
from ._values import Change, Difference, Entry, Exists, Full, Missing, Outcome, Route, address_of, prefix_of

__version__ = VERSION
__all__ = [
    "Answers", "Change", "ConcurrentTable", "Difference", "Entry", "Error", "Exists", "FIRST_ROUTER", "Fib", "Full", "Invalid", "MAX_FEED",
    "MAX_LENGTH", "MAX_LIMIT", "Missing", "NUMBER_DISCARD", "NUMBER_NO_ROUTE", "OutOfMemory", "Outcome", "Refused", "Route", "STATUS",
    "Source", "Table", "View", "address_of", "build", "prefix_of",
]

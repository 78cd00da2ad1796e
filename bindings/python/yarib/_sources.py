"""Sources of more routes than a feed may have."""
from __future__ import annotations

from typing import List, Optional

from . import _library as c
from ._library import Invalid
from ._tables import Routes
from ._values import Address, Prefix, Route, number, prefix_of


class Source:
    """A source of more routes than a feed may have, in consecutive feeds of a table. Each prefix belongs to one of the
    feeds, so the source has at most one route to it, and routes of the source and of other feeds are compared as if the
    source were one feed. With n feeds, n times the limit is reached only approximately: Full is raised as soon as the
    feed of the prefix is at its limit."""

    def __init__(self, table: Routes, first: int = 1, feeds: int = 2) -> None:
        if not 1 <= number(first, "a feed") <= c.MAX_FEED + 1 - number(feeds, "a number of feeds") <= c.MAX_FEED:
            raise Invalid(f"yarib: feeds {first} to {first + feeds - 1} are not consecutive feeds of a table")
        self.table, self.feeds = table, range(first, first + feeds)

    def feed_of(self, prefix: Prefix) -> int:
        """Returns the feed that the prefix belongs to."""
        base, length = prefix_of(prefix)
        mixed = (base + length) * 2_654_435_769 & 0xFFFFFFFF
        return self.feeds[mixed * len(self.feeds) >> 32]

    def add(self, prefix: Prefix, via: Optional[Address], pref: int = 0) -> None:
        """Adds a route; `via` None discards packets. Raises Exists or Full."""
        self.table.add(prefix, via, pref, self.feed_of(prefix))

    def put(self, prefix: Prefix, via: Optional[Address], pref: int = 0) -> bool:
        """Adds a route, or changes the route to this prefix. Returns True if it was added. Raises Full."""
        return self.table.put(prefix, via, pref, self.feed_of(prefix))

    def replace(self, prefix: Prefix, via: Optional[Address], pref: int = 0) -> None:
        """Changes preference and next hop of the route to this prefix. Raises Missing."""
        self.table.replace(prefix, via, pref, self.feed_of(prefix))

    def withdraw(self, prefix: Prefix) -> None:
        """Removes the route to this prefix. Raises Missing."""
        self.table.withdraw(prefix, self.feed_of(prefix))

    def purge(self) -> int:
        """Removes all routes of the source and returns their number."""
        return sum(self.table.purge(feed) for feed in self.feeds)

    def routes(self) -> List[Route]:
        """Returns the routes of the source, sorted by base and length."""
        return sorted(route for feed in self.feeds for route in self.table.routes(feed))

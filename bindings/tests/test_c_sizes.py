"""The library for C at the sizes of the Internet's tables, its memory over many changes, and each allocation that
fails."""
from bindings.tests.library import LibraryCase
from dev.testing import needs_command

NEEDS = {"library"}
PROVED = True


@needs_command("make")
class Sizes(LibraryCase):
    # Catches a call that refuses a reserve over 100,000, a list over 20,000, more than 64 matches or a forwarding table
    # of over 300,000 routes, and a list that writes after its end.
    def test_large(self):
        """Long lists, and what is reserved and built for many routes."""
        self.run_counted(self.build("large"), least=1_000_000)

    # Catches a forwarding table, a copy or a view of one, or an attached one that refuses over 700,000 routes; counts
    # that refuse over 100 next hops; and a copy of over 100,000 routes that lacks one.
    def test_full(self):
        """A table of 1,050,000 routes and 5,000 next hops: its forwarding tables, views and copies."""
        self.run_counted(self.build("full"), least=2_000_000)

    # Catches a purge that walks over the whole table for a few routes, or whose routes that were there before a table
    # became large are found only so.
    def test_purges(self):
        """A purge of few routes of a large table takes as long as what it removes."""
        self.run_counted(self.build("purges"), least=600_000)


@needs_command("make")
class Memory(LibraryCase):
    def test_changes(self):
        """A followed table's memory stays about the same over 10,000,000 changes, and its look-ups stay right."""
        self.run_counted(self.build("changes"), stdout=r"(after .*\n){10}", least=1_000_000)

    def test_rounds(self):
        """A table that is followed by a forwarding table uses the memory again that its changes leave unused."""
        self.run_counted(self.build("rounds"), stdout=r"after .*\nwithout .*\n", least=100_000)

    # Catches a count that leaves out the lists of prefixes with several routes, that doesn't fall when a route is
    # withdrawn or purged, or that counts 48 for each node.
    def test_memory(self):
        """What a handle is said to take is near what the C library's allocator gives for it."""
        self.run_counted(self.build("memory"), stdout=r"(.+\n){49}", least=40)


@needs_command("make")
class Refused(LibraryCase):
    def test_refused(self):
        """Each allocation fails in turn, and leaves all as it was."""
        self.run_counted(self.build("refused"), stdout=r"refused \d{3,}\n", least=1000)

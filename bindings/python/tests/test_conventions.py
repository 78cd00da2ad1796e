"""What a Python programmer expects of a container, of errors, of numbers and of files."""
import copy
import ipaddress
import pathlib
import pickle
import tempfile

from dev.models.table_model import MAX_FEEDS
import yarib
from .cases import (
    ADDRESS, Drawn, ERRORS, Limited, NETWORK, address_in, command_in, outcome_in, route, route_in, routes_in,
    sections,
)

NEEDS = {"library"}


class Conventions(Limited):
    """What a Python programmer expects of a container, of errors and of numbers."""

    def made(self, **words):
        table = yarib.Table(**words)
        table.add("10.0.0.0/8", via="192.0.2.1", pref=5)
        table.add("10.0.0.0/8", via=None, pref=4, feed=2)
        table.add("10.1.0.0/16", via=7, feed=3)
        return table

    def test_keys(self):
        table = self.made()
        two, one, narrow = table.routes()
        self.assert_same([table["10.0.0.0/8"], table["10.0.0.1"], table[10 << 24, 8], table[(10 << 24) + 65536]],
                         [two, two, two, narrow])
        self.assertTrue(all(route in table for route in table))
        self.assertNotIn(one._replace(pref=6), table)
        for key in ("10.0.0.0/9", "0.0.0.0/0", "11.0.0.0", ADDRESS("11.0.0.0"), NETWORK("11.0.0.0/8")):
            self.assertRaises(KeyError, table.__getitem__, key)
            self.assertRaises(yarib.Missing, table.__getitem__, key)
            self.assert_same((table.get(key), table.get(key, 5), key in table), (None, 5, False))
        for call in (table.get, table.__getitem__, table.__contains__, table.look_up_prefix):
            self.assertRaises(yarib.Invalid, call, ((10 << 24) + 1, 8))
        del table["10.0.0.0/8"]
        self.assert_same(table.routes(), [narrow])
        self.assertRaises(KeyError, table.__delitem__, "10.0.0.0/8")
        self.assertRaises(TypeError, table.__delitem__, ADDRESS("10.1.0.0"))
        self.assert_same(table.routes(), [narrow])

    def test_other_types_and_wide_numbers(self):
        table = yarib.Table(10, journal=True)
        for value in (ipaddress.IPv6Address("::1"), ipaddress.IPv6Network("::/127"), 1.0, None, b"10.0.0.1", {1}):
            for call in (table.look_up, table.look_up_all, table.__contains__, lambda one: table.look_up_each([one]),
                         lambda one: table.apply(1, "lookup", one), lambda one: table.exact((one, 8)), table.exact,
                         lambda one: table.add((0, one), None), table.reserve, yarib.Table,
                         lambda one: table.purge(one), lambda one: table.add((0, 8), None, one)):
                with self.assertRaises(TypeError) as caught:
                    call(value)
                if not isinstance(value, (bytes, set)):
                    self.assertIn(repr(value), str(caught.exception))
            if value is not None:
                self.assertRaises(TypeError, table.add, (0, 8), value)
        for value in (1 << 32, 1 << 64, -1, (1 << 32) + 1):
            for call in (table.look_up, table.look_up_all, lambda one: table.look_up_each([one]), table.purge,
                         lambda one: table.exact((one, 32)), lambda one: table.exact((0, one)), yarib.Table,
                         lambda one: table.add((0, 8), one), lambda one: table.add((0, 8), None, one)):
                with self.assertRaisesRegex(yarib.Invalid, str(value)):
                    call(value)
        for value in (1 << 64, 1 << 70, -1):
            with self.assertRaisesRegex(ValueError, str(value)):
                table.reserve(value)
        for text in ("10.0.0.256", "10.0.0.1/8", "::1"):
            with self.assertRaisesRegex(yarib.Invalid, repr(text)):
                table.look_up(text) if "/" not in text else table.exact(text)
        with self.assertRaisesRegex(ValueError, "prefix"):
            next(table.differences(yarib.Table(), by="prefix"))
        self.assert_same((len(table), table.journal()), (0, []))

    def test_one_base_class(self):
        bases = {yarib.Exists: ValueError, yarib.Full: ValueError, yarib.Missing: KeyError, yarib.Invalid: ValueError,
                 yarib.OutOfMemory: MemoryError, yarib.Refused: RuntimeError}
        for error, base in bases.items():
            self.assertTrue(issubclass(error, yarib.Error) and issubclass(error, base), error)

    def test_limits(self):
        self.assert_same((yarib.MAX_FEED, yarib.MAX_LIMIT, yarib.MAX_LENGTH), (MAX_FEEDS, 1_000_000, 32))
        table = yarib.Table(yarib.MAX_LIMIT)
        table.add((0, yarib.MAX_LENGTH), None, feed=yarib.MAX_FEED)
        self.assertRaises(ValueError, yarib.Table, yarib.MAX_LIMIT + 1)
        self.assertRaises(ValueError, table.purge, yarib.MAX_FEED + 1)

    def test_copies_are_tables_of_their_own(self):
        for journal in (False, True):
            for made in (copy.copy, copy.deepcopy, lambda table: pickle.loads(pickle.dumps(table))):
                table = self.made(limit=2, journal=journal)
                other = made(table)
                self.assert_same(list(other), list(table))
                if journal:
                    self.assert_same(other.journal(), table.journal())
                other.withdraw("10.1.0.0/16", feed=3)
                self.assertEqual((len(table), len(other)), (3, 2))
                other.add("11.0.0.0/8", None)
                self.assertRaises(yarib.Full, other.add, "12.0.0.0/8", None)
                table.close()
                self.assertEqual(len(other), 3)
        forwarding = self.made().fib_new()
        for made in (copy.copy, copy.deepcopy, pickle.dumps):
            self.assertRaises(TypeError, made, forwarding)

    def test_with_close_and_repr(self):
        with self.made() as table:
            with table.fib_new() as forwarding:
                self.assertEqual(repr(forwarding), f"<yarib.Fib of {forwarding.memory()} bytes>")
                self.assertEqual(forwarding.look_up("10.1.0.0").via, 7)
            forwarding.close()
            self.assertRaises(yarib.Refused, forwarding.look_up, "10.1.0.0")
            self.assertRaises(yarib.Refused, forwarding.memory)
            self.assertIn("closed", repr(forwarding))
            self.assertEqual(repr(table), "<yarib.Table of 3 routes>")
        self.assertIn("closed", repr(table))
        self.assertRaises(yarib.Refused, table.routes)

    def load_texts(self, path):
        """Loads each text of the test vectors, and compares what is loaded and what the error says."""
        reasons = {"exists": (yarib.Exists, "feed 3: "), "full": (yarib.Full, "feed 3: "), "line": (yarib.Invalid, "not an add line: "),
                   "bits": (yarib.Invalid, "bad bits: "), "length": (yarib.Invalid, "bad length: ")}
        (_, lines), = sections("files")
        for (_, text), (count, number, reason) in lines:
            table = yarib.Table(2)
            path.write_bytes(bytes.fromhex(text[1:]))
            if reason == "-":
                self.assertEqual(table.load(path, 3), int(count))
            else:
                error, said = reasons[reason]
                with self.assertRaisesRegex(error, f"one.feed:{number}: {said}") as caught:
                    table.load(path, 3)
                said = str(caught.exception)
                self.assertTrue(len(said.splitlines()) == 1 and len(said) < len(str(path)) + 200, said)
            self.assertEqual(len(table), int(count), text)

    def test_saved_tables_load(self):
        table, other = self.made(), yarib.Table()
        with tempfile.TemporaryDirectory() as folder:
            path = pathlib.Path(folder, "one.feed")
            for feed in (1, 2, 3, yarib.MAX_FEED, 5):
                table.save(path, feed)
                self.assertEqual(other.load(str(path), feed), len(table.routes(feed)))
            self.assert_same(other.routes(), table.routes())
            path.write_text("version 2\n\n# said\nadd 10.0.0.0/8 1 discard\nadd 11.0.0.0/8 2 192.0.2.1")
            other.purge(5)
            other.load(path, 5)
            self.assert_same(other.routes(5), [yarib.Route(10 << 24, 8, 5, 1, None), yarib.Route(11 << 24, 8, 5, 2, 0xC0000201)])
            with self.assertRaisesRegex(yarib.Exists, "one.feed:4: feed 5: 'add 10.0.0.0/8 1 discard'"):
                other.load(path, 5)
            self.load_texts(path)
            path.write_text("version 2\nadd 1.0.0.0/8 1 discard\nadd 2.0.0.0/8 1 discard\n")
            for kind in (yarib.Table, yarib.ConcurrentTable):
                small = kind(1)
                self.assertRaisesRegex(yarib.Full, "one.feed:3: ", small.load, path)
                self.assert_same(small.routes(), [yarib.Route(1 << 24, 8, 1, 1, None)])

    def test_files_that_are_refused(self):
        """An error of a file is Python's, and one of a feed or a closed table leaves the file as it was."""
        table = self.made()
        closed = yarib.Table()
        closed.close()
        with tempfile.TemporaryDirectory() as folder:
            path = pathlib.Path(folder, "one.feed")
            self.assertRaises(FileNotFoundError, table.load, path)
            self.assertRaises(IsADirectoryError, table.load, folder)
            self.assertRaises(IsADirectoryError, table.save, folder)
            path.write_text("as it was")
            for feed in (0, yarib.MAX_FEED + 1):
                self.assertRaisesRegex(yarib.Invalid, f"feed {feed} is not 1 to", table.save, path, feed)
                self.assertRaisesRegex(yarib.Invalid, f"feed {feed} is not 1 to", table.load, path, feed)
            self.assertRaises(TypeError, table.save, path, "1")
            self.assertRaises(yarib.Refused, closed.save, path)
            self.assertEqual(path.read_text(), "as it was")
            path.write_text("add 1.0.0.0/8 1 192.0.2.1\n")
            self.assertRaises(yarib.Refused, closed.load, path)
            for text, count in (("", 0), ("\n# said\n", 0), ("add 1.0.0.0/8 1 192.0.2.1", 1)):
                path.write_text(text)
                self.assertEqual(yarib.Table(journal=True).load(path), count)

    def test_a_large_file(self):
        """Files are whole beyond any buffer, and readers of a concurrent table get its routes while it is loaded."""
        table, other = yarib.Table(), yarib.ConcurrentTable()
        table.apply_each([(7, "add", (k << 12, 20), k, k) for k in range(50_000)])
        with tempfile.TemporaryDirectory() as folder:
            path = pathlib.Path(folder, "one.feed")
            table.save(path, 7)
            self.assertEqual(other.load(path, 7), 50_000)
            self.assertEqual(other.routes(), table.routes())
            other.save(path, 7)
            lines = path.read_text().split("\n")
            self.assertEqual((len(lines), lines[0], lines[-2:]), (50_002, "version 2", ["add 12.52.240.0/20 49999 0.0.195.79", ""]))

    def deal(self, source, draw, words, answer):
        """Executes a command of a source, and compares what it returns."""
        if words[0] == "purge":
            return self.assert_same(source.purge(), outcome_in(answer).count)
        _, prefix, *offer = draw.command(*command_in(["add" if words[0] == "put" else words[0], *words[1:]]))
        call = getattr(source, words[0])
        if words[0] == "put":
            self.assertIs(call(prefix, *offer[::-1]), answer[-1] == "added")
        elif error := ERRORS.get(answer[0]):
            self.assertRaises(error, call, prefix, *offer[::-1])
        else:
            call(prefix, *offer[::-1])

    def compare_dealt(self, table, source, draw, call, answer):
        """Compares what a call of a source, or of its table, returns. The feeds of the source are its first one."""
        one_feed = lambda route: route and route._replace(feed=source.feeds[0] if route.feed in source.feeds else route.feed)
        name, *words = call
        if name == "deal":
            self.deal(source, draw, words, answer)
        elif name == "apply":
            outcome = table.apply(int(words[0]), *draw.command(*command_in(words[1:])))
            self.assert_same(outcome._replace(route=one_feed(outcome.route)), outcome_in(answer))
        elif name == "look_up":
            self.assert_same(one_feed(table.look_up(draw.address(address_in(*words)))), route_in(*answer))
        else:
            self.assert_same(list(map(one_feed, (table if name == "routes" else source).routes())), routes_in(answer))

    def test_a_source_of_more_routes_than_a_feed_may_have(self):
        for (_, first, feeds), lines in sections("source"):
            draw, table = Drawn(int(first)), yarib.Table(1_000_000)
            source = yarib.Source(table, int(first), int(feeds))
            for call, answer in lines:
                self.compare_dealt(table, source, draw, call, answer)
        for first, feeds in ((0, 2), (yarib.MAX_FEED, 2), (1, 0), (1, yarib.MAX_FEED + 1), (yarib.MAX_FEED - 1, 3)):
            self.assertRaises(ValueError, yarib.Source, table, first, feeds)
        self.assertEqual(yarib.Source(table, 1, yarib.MAX_FEED).feeds, range(1, yarib.MAX_FEED + 1))
        # The feeds of these prefixes are the same in each language's package.
        prefixes = ("0.0.0.0/0", "10.0.0.0/8", "10.1.0.0/16", "192.0.2.0/24", "255.255.255.255/32", "128.0.0.0/1")
        feeds = list(map(yarib.Source(table, 1, yarib.MAX_FEED).feed_of, prefixes))
        self.assertEqual(feeds, [1, 11, 38, 2, 11, 8])

    def test_what_the_library_was_made_of(self):
        self.assertRegex(yarib.build(), r"^sources [0-9a-f]{32} logic [0-9a-f]{16} layer [0-9a-f]{12}$")

    def test_a_source_spreads_its_prefixes(self):
        """Prefixes of every length, one after another, come near equal numbers for each feed; a full feed is an error."""
        source = yarib.Source(yarib.Table(1000), 1, 2)
        for length in range(12, 33):
            feeds = [source.feed_of((k << 32 - length, length)) for k in range(4096)]
            self.assertLess(abs(feeds.count(1) - 2048), 300, length)
        with self.assertRaises(yarib.Full):
            for k in range(2001):
                source.put((k << 12, 20), None)
        self.assertGreater(len(source.routes()), 1900)

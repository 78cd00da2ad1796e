"""What Python's binding does besides the library's own calls: its types, exceptions and buffers."""
import array
import gc
import random

from dev.models import table_model
import yarib
from .cases import ADDRESS, NETWORK, PythonCase, in_order, route

NEEDS = {"library"}


class Tables(PythonCase):
    def test_a_route_is_found_by_every_kind_of_address(self):
        with yarib.Table() as table:
            table.add(NETWORK("10.0.0.0/8"), "192.0.2.1", 10)
            table.add((0x0A010000, 16), via=None, feed=2)
            wide, narrow = route("10.0.0.0/8", 1, 10, "192.0.2.1"), route("10.1.0.0/16", 2, 0, None)
            for address in ("10.1.2.3", 0x0A010203, ADDRESS("10.1.2.3")):
                self.assertEqual(table.look_up(address), narrow)
                self.assertEqual(table.look_up_all(address), [narrow, wide])
            self.assertIsNone(table.look_up("192.0.2.1"))
            self.assertEqual(str(wide), table_model.shown(("10.0.0.0/8", 1, 10, "192.0.2.1")))
            self.assertEqual((narrow.prefix, narrow.next_hop), (NETWORK("10.1.0.0/16"), None))
            self.assertEqual(list(table), [wide, narrow])
            self.assertEqual(len(table), 2)
            self.assertIn("10.1.0.0/16", table)
            self.assertNotIn("10.1.0.0/17", table)

    def test_routes_by_prefix(self):
        table = yarib.Table()
        table.add("10.0.0.0/8", 1, 5)
        table.add("10.0.0.0/8", 2, 4, feed=2)
        table.add("10.0.0.0/16", 3, 1)
        table.add("11.0.0.0/8", via=4, feed=2)
        for k in range(100):
            table.add((0x0B000000 | k, 32), via=k, feed=3)
        one, two, three = route("10.0.0.0/8", 1, 5, 1), route("10.0.0.0/8", 2, 4, 2), route("10.0.0.0/16", 1, 1, 3)
        self.assertEqual(table.exact("10.0.0.0/8"), [two, one])
        self.assertEqual(table.exact("10.0.0.0/8", best=True), [two])
        self.assertEqual(table.exact("10.0.0.0/8", feed=1, best=True), [])
        self.assertEqual(table.exact("10.0.0.0/9"), [])
        self.assertEqual(table.within("10.0.0.0/7"), table.routes())
        self.assertEqual(table.within("10.0.0.0/8", feed=1), [one, three])
        self.assertEqual(table.covering("10.0.0.0/24"), [two, one, three])
        self.assertEqual(table.routes(feed=3), table.within("11.0.0.0/24"))
        self.assertEqual(len(table.routes(best=True)), 103)
        last = table.exact((0x0B000001, 32))
        self.assertEqual(table.routes(via="0.0.0.1"), [one, *last])
        self.assertEqual(table.routes(best=True, via="0.0.0.1"), last)
        self.assertEqual(table.routes(via=None), [])
        self.assertEqual(list(table.hop_counts().items()), [(k, 2 if 2 <= k <= 4 else 1) for k in range(100)])
        for wrong in ("0.0.0", "any other", -1):
            self.assertRaises(yarib.Invalid, table.exact, "10.0.0.0/8", via=wrong)
        for feed in (0, yarib.MAX_FEED + 1, -1):
            self.assertRaises(ValueError, table.exact, "10.0.0.0/8", feed)
        self.assertRaises(ValueError, table.within, "10.0.0.1/8")

    def test_routes_from_a_place_on(self):
        table, draw = yarib.Table(), random.Random(5)
        self.assertEqual((list(table), list(table.routes_from("255.255.255.255/32"))), ([], []))
        for _ in range(10_000):
            length = draw.choice((8, 16, 23, 24, 32))
            table.apply(draw.randrange(1, 5), "add", (draw.randrange(1 << length) << 32 - length, length),
                        draw.randrange(3), None)
        routes = table.routes()
        self.assertEqual(list(table), routes)
        for _ in range(20):
            base, length, *offer = place = in_order(draw.choice(routes))
            self.assertEqual(list(table.routes_from((base, length), *offer)),
                             [one for one in routes if in_order(one) >= place])
            behind = (base | 0x80000000, length, 0, 0)
            self.assertEqual(list(table.routes_from(behind[:2])), [one for one in routes if in_order(one) >= behind])
        for prefix in ("10.0.0.1/8", (0, 33)):
            self.assertRaises(ValueError, lambda: list(table.routes_from(prefix)))
        going = iter(table)
        first = next(going)
        table.purge(feed=first.feed)
        rest = list(going)
        self.assertEqual(rest[255:], [one for one in table.routes() if in_order(one) > in_order(rest[254])])
        table.close()
        self.assertRaises(yarib.Refused, list, table)

    def test_a_followed_table_answers_as_before(self):
        table = yarib.Table()
        table.add("10.0.0.0/8", via=1)
        self.assertIs(table.fib_is_attached(), False)
        table.fib_attach()
        table.fib_attach()
        self.assertIs(table.fib_is_attached(), True)
        self.assertGreaterEqual(table.memory(), 1 << 26)
        table.add("10.1.0.0/16", via=2)
        table.replace("10.0.0.0/8", via=3)
        self.assertEqual([table.look_up(text).via for text in ("10.1.2.3", "10.2.0.0")], [2, 3])
        table.purge()
        self.assertIsNone(table.look_up("10.1.2.3"))
        self.assertRaises(yarib.Refused, yarib.Table(journal=True).fib_attach)

    def test_what_changes_nothing_is_an_exception(self):
        table = yarib.Table(limit=1)
        table.add("10.0.0.0/8", via="192.0.2.1")
        with self.assertRaises(yarib.Exists):
            table.add("10.0.0.0/8", via="192.0.2.2")
        with self.assertRaises(yarib.Full):
            table.add("11.0.0.0/8", via="192.0.2.2")
        with self.assertRaises(yarib.Missing):
            table.withdraw("11.0.0.0/8")
        with self.assertRaises(yarib.Missing):
            table.replace("10.0.0.0/8", via=None, feed=2)
        table.replace("10.0.0.0/8", None, 7)
        self.assertEqual(table.routes(), [route("10.0.0.0/8", 1, 7, None)])
        self.assertEqual(table.purge(), 1)
        table.add("10.0.0.0/8", via=None)
        table.withdraw("10.0.0.0/8")
        self.assertEqual(len(table), 0)

    def test_what_is_no_number_or_text_is_refused(self):
        for limit in (0, 1_000_001, -1, 1 << 32):
            self.assertRaises(ValueError, yarib.Table, limit)
        table = yarib.Table()
        for feed in (0, yarib.MAX_FEED + 1, -1, 1 << 32, (1 << 32) + 1):
            self.assertRaises(ValueError, table.add, "10.0.0.0/8", None, 0, feed)
        for preference in (-1, 1 << 32):
            self.assertRaises(ValueError, table.add, "10.0.0.0/8", None, preference)
        pairs = (1, 8), (0, 33), (0, 256), (1 << 32, 0), (0, -1)
        for prefix in ("10.0.0.0", "10.0.0.0/33", "10.0.0.1/8", "10.0.0.0/8\0", "", *pairs):
            self.assertRaises(ValueError, table.add, prefix, None)
        for address in ("10.0.0.0.", "256.0.0.0", "\udcff", -1, 1 << 32):
            self.assertRaises(ValueError, table.look_up, address)
            self.assertRaises(ValueError, table.look_up_each, [address])
        self.assertRaises(yarib.Invalid, table.apply, 1, "remove", "10.0.0.0/8")
        self.assertEqual(len(table), 0)

    def test_a_closed_table_says_so(self):
        table = yarib.Table()
        table.close()
        table.close()
        for call in (len, list, yarib.Fib):
            self.assertRaises(yarib.Refused, call, table)
        self.assertRaises(yarib.Refused, table.add, "10.0.0.0/8", None)
        self.assertRaises(yarib.Refused, table.look_up, 1)

    def test_outcomes_and_the_journal(self):
        table = yarib.Table(limit=1, journal=True)
        table.reserve(10)
        commands = [(1, "add", "10.0.0.0/8", 5, "192.0.2.1"), (0, "dump"), (2, "lookup", "10.1.1.1"),
                    (1, "purge"), (1, "dump")]
        outcomes = table.apply_each(commands)
        self.assertEqual([one.said for one in outcomes], ["added", "unanswered", "found", "purged", "dumped"])
        found = route("10.0.0.0/8", 1, 5, "192.0.2.1")
        self.assertEqual((outcomes[1].status, outcomes[2].route, outcomes[3].count), ("bad number", found, 1))
        self.assertEqual(table.apply_each([]), [])
        entries = table.journal()
        self.assertEqual([entry.command for entry in entries], [
            (1, "add", NETWORK("10.0.0.0/8"), 5, ADDRESS("192.0.2.1")), (2, "lookup", ADDRESS("10.1.1.1")),
            (1, "purge"), (1, "dump")])
        self.assertEqual([entry.outcome for entry in entries], outcomes[:1] + outcomes[2:])
        self.assertRaises(yarib.Refused, yarib.Table().journal)
        self.assertRaises(MemoryError, table.reserve, (1 << 64) - 1)

    def test_differences(self):
        old, new = yarib.Table(), yarib.Table()
        new.add("10.0.0.0/8", via="192.0.2.1")
        new.add("255.255.255.255/32", via=None)
        first, last = 10 << 24, (11 << 24) - 1
        self.assertEqual(list(old.differences(new)), [
            (first, last, False, ADDRESS("192.0.2.1")), (0xFFFFFFFF, 0xFFFFFFFF, False, None)])
        self.assertEqual(list(new.differences(old, by="route"))[0],
                         (first, last, route("10.0.0.0/8", 1, 0, "192.0.2.1"), None))
        self.assertEqual(list(new.differences(new)), [])


class Buffers(PythonCase):
    def setUp(self):
        super().setUp()
        self.table = yarib.Table()
        self.table.add("10.0.0.0/8", "192.0.2.1", 10)
        self.asked = [0x0A000000, 0x0B000000, 0x0AFFFFFF]
        self.wanted = [route("10.0.0.0/8", 1, 10, "192.0.2.1"), None, route("10.0.0.0/8", 1, 10, "192.0.2.1")]

    def test_lists_arrays_and_bytes(self):
        block = array.array("I", self.asked)
        for addresses in (self.asked, map(int, self.asked), block, memoryview(block),
                          memoryview(bytes(block)).cast("I")):
            answers = self.table.look_up_each(addresses)
            self.assertEqual((list(answers), answers[1:], answers[-1]), (self.wanted, self.wanted[1:], self.wanted[2]))
            self.assertEqual(len(answers), 3)
        for addresses in ([], array.array("I")):
            self.assertEqual(list(self.table.look_up_each(addresses)), [])

    def test_other_buffers_are_refused(self):
        for block in (array.array("i", [1]), array.array("Q", [1]), b"1234",
                      memoryview(array.array("I", range(4)))[::2]):
            self.assertRaises(ValueError, self.table.look_up_each, block)

    def test_answers_are_read_where_they_lie(self):
        answers = self.table.look_up_each(self.asked)
        block = answers.memory()
        self.assertEqual((len(block), block[0:4].cast("I")[0], block[17]), (60, 0x0A000000, 1))
        self.assertTrue(block.readonly)
        del answers
        gc.collect()
        self.assertEqual(block[57], 1)

    def test_numpy_shares_memory(self):
        try:
            import numpy
        except ImportError:
            self.skipTest("numpy is not here")
        answers = self.table.look_up_each(numpy.array(self.asked, dtype=numpy.uint32))
        shown = numpy.frombuffer(answers.memory(), answers.dtype)
        self.assertEqual(shown["via"].tolist(), [0xC0000201, 0, 0xC0000201])

"""Forwarding tables and views of Python's binding."""
import array
import copy
import gc
import os
import textwrap
import threading
from unittest import mock

import yarib
from yarib import _library as c
from .cases import ADDRESS, PythonCase, in_process, route

NEEDS = {"library"}


class Fibs(PythonCase):
    def test_it_stays_as_it_was_made(self):
        table = yarib.Table()
        table.add("10.0.0.0/8", via="192.0.2.1")
        forwarding = table.fib_new()
        table.purge()
        self.assertEqual(forwarding.look_up("10.1.2.3"), route("10.0.0.0/8", 1, 0, "192.0.2.1"))
        self.assertGreaterEqual(forwarding.memory(), 1 << 26)

    def test_threads_ask_it_at_once(self):
        table = yarib.Table()
        for k in range(256):
            table.add((k << 24, 8), via=k)
        forwarding, wrong = table.fib_new(), []
        asked = array.array("I", (k % 256 << 24 | k for k in range(50_000)))

        def look_up():
            for _ in range(5):
                answers = forwarding.look_up_each(asked)
                wrong.extend(k for k in range(0, 50_000, 997) if answers[k].via != k % 256)
            wrong.extend([-1] * (forwarding.look_up(asked[1]).via != 1))

        threads = [threading.Thread(target=look_up) for _ in range(8)]
        for thread in threads:
            thread.start()
        for thread in threads:
            thread.join()
        self.assertEqual(wrong, [])

    def test_threads_change_one_table(self):
        table = yarib.Table()

        def change(feed):
            for k in range(500):
                table.add((k << 12, 20), via=k, feed=feed)
            for k in range(0, 500, 2):
                table.withdraw((k << 12, 20), feed=feed)

        threads = [threading.Thread(target=change, args=(feed,)) for feed in range(1, 9)]
        for thread in threads:
            thread.start()
        for thread in threads:
            thread.join()
        self.assertEqual(len(table), 8 * 250)


class Views(PythonCase):
    def made(self, kind=yarib.Table):
        table = kind()
        table.add("10.0.0.0/8", via="192.0.2.1")
        table.add("10.1.0.0/16", via=None)
        table.fib_attach()
        return table

    def test_memory_for_a_view_that_the_system_refuses(self):
        """The error is the package's, and the table is as it was."""
        code = textwrap.dedent("""
            import resource, yarib
            table = yarib.Table(1)
            table.add("10.0.0.0/8", via="192.0.2.1")
            fib, views = table.fib_new(), []
            resource.setrlimit(resource.RLIMIT_AS, (600 << 20, 600 << 20))
            try:
                while len(views) < 20:
                    views.append(fib.view_new())
            except yarib.OutOfMemory as error:
                print(error, table.look_up("10.1.2.3").pref, views[0].look_up("10.1.2.3"))
            """)
        self.assertEqual(in_process(code), (0, f"yarib: out of memory 0 {yarib.FIRST_ROUTER}\n", ""))

    def test_a_view_stays_as_it_was_made(self):
        """Through changes, a close of the table, its end, and a fork."""
        for kind in (yarib.Table, yarib.ConcurrentTable):
            table = self.made(kind)
            views = [table.view_new(), table.view_new(), *([] if kind is yarib.ConcurrentTable else [table.fib_new().view_new()])]
            table.purge()
            table.add("0.0.0.0/0", via=7)
            later = table.view_new()
            table.close()
            self.assertRaises(yarib.Refused, table.view_new)
            self.assertRaises(yarib.Refused, table.hops, [1], 0, 1)
            del table
            gc.collect()

            def compare():
                for view in views:
                    numbers = list(view.look_up_each(["10.0.0.1", "10.1.0.1", "11.0.0.0"]))
                    self.assertEqual((view.routers[numbers[0]], numbers[1:]), (0xC0000201, [yarib.NUMBER_DISCARD, yarib.NUMBER_NO_ROUTE]))
                    self.assertEqual([view.look_up(text) for text in ("10.0.0.1", 10 << 24 | 1 << 16, ADDRESS("11.0.0.0"))], numbers)
                self.assertEqual(later.routers[later.look_up(1)], 7)

            compare()
            child = os.fork()
            if child == 0:
                try:
                    compare()
                except BaseException:
                    os._exit(1)
                os._exit(0)
            self.assertEqual(os.waitpid(child, 0)[1], 0)

    def test_what_has_no_view(self):
        for table in (yarib.Table(), yarib.Table(journal=True), yarib.ConcurrentTable()):
            self.assertRaisesRegex(yarib.Refused, "support", table.view_new)
            table.close()
            self.assertRaisesRegex(yarib.Refused, "closed", table.view_new)
        self.assertRaises(TypeError, yarib.View, "10.0.0.0/8")
        view = self.made().view_new()
        for made in (copy.copy, copy.deepcopy):
            self.assertRaises(TypeError, made, view)
        self.assertEqual(repr(view), f"<yarib.View of {view.memory()} bytes>")
        for address in ("10.0.0.256", -1, 1 << 32):
            self.assertRaises(yarib.Invalid, view.look_up, address)
        for numbers in ((-1, 0), (0, 1 << 32)):
            self.assertRaises(yarib.Invalid, self.made().hops, [1], *numbers)
        self.assertEqual((list(view.look_up_each([])), list(self.made().hops([], 0, 1))), ([], []))

    def test_views_during_changes(self):
        """Each view, and all hops of a call, are of a single table; a view that doesn't fit any more is made again."""
        for kind in (yarib.Table, yarib.ConcurrentTable):
            table, faults, ended = self.made(kind), [], threading.Event()
            table.apply_each([(2, "add", (k << 24, 8), 0, 0) for k in range(64)])

            def read():
                try:
                    while not ended.is_set():
                        view = table.view_new()
                        seen = {view.routers[number] for number in view.look_up_each([k << 24 for k in range(64) if k != 10])}
                        seen_by_hops = set(table.hops([k << 24 for k in range(64) if k != 10], 8, 9))
                        if len(seen) != 1 or len(seen_by_hops) != 1:
                            faults.append((seen, seen_by_hops))
                except BaseException as fault:
                    faults.append(fault)

            readers = [threading.Thread(target=read) for _ in range(2)]
            for thread in readers:
                thread.start()
            for k in range(1, 16):
                # Each change needs more blocks and more routers than the one before.
                table.apply_each([*((2, "replace", (j << 24, 8), 0, k) for j in range(64)), *((3, "add", (200 << 24 | k * 64 + j << 8, 32), 0, k * 64 + j)
                                                                                            for j in range(64))])
            ended.set()
            for thread in readers:
                thread.join()
            self.assertEqual(faults, [])

    def test_a_view_that_is_too_small_is_made_again(self):
        table, call, sizes = self.made(), c.freed.yarib_view_write, []

        def write(at, raw):
            if not sizes:
                table.apply_each([(1, "add", (k << 16 | 128, 25), 0, k) for k in range(1, 5000)])
            sizes.append(raw._obj.block_count)
            return call(at, raw)

        with mock.patch.object(c.freed, "yarib_view_write", write):
            view = table.view_new()
        self.assertEqual((len(sizes), view.routers[view.look_up(4999 << 16 | 129)]), (2, 4999))

    def test_numpy_reads_hops_and_routers(self):
        try:
            import numpy
        except ImportError:
            self.skipTest("numpy is not here")
        asked, view = numpy.array([10 << 24, 0], dtype=numpy.uint32), self.made().view_new()
        numbers = numpy.frombuffer(view.look_up_each(asked), numpy.uint32)
        self.assertEqual(numpy.frombuffer(view.routers, numpy.uint32)[numbers].tolist()[:1], [0xC0000201])
        self.assertEqual(numpy.frombuffer(self.made().hops(asked, 1, 2), numpy.uint32).tolist(), [0xC0000201, 1])

"""Threads that share a table of Python's binding."""
import array
import copy
import threading

import yarib
from .cases import ADDRESS, PythonCase, route

NEEDS = {"library"}


class Threads(PythonCase):
    """Four threads that look up and one that changes, on one table. The next hop to 10.0.0.0/8 goes up with each change."""
    CHANGES = 100

    def meet(self, table):
        asked, faults, ended = array.array("I", [0x0A010203, 0x0B000001, 0xC0000200] * 40), [], threading.Event()

        def guarded(work):
            try:
                work()
            except BaseException as fault:
                faults.append(fault)

        def read():
            last = 0
            while not ended.is_set():
                best, answers, size = table.look_up(asked[0]), table.look_up_each(asked), len(table)
                all_of, exact, pages = table.look_up_all(asked[0]), table.exact("10.0.0.0/8"), list(table)
                seen = [last, best.via, answers[0].via, all_of[0].via, exact[0].via, pages[0].via]
                if seen != sorted(seen) or (answers[1], answers[2].via, size) != (None, 9, 2) or table.memory() < 124:
                    faults.append(seen)
                last = seen[-1]

        def change():
            for k in range(1, self.CHANGES + 1):
                table.replace("10.0.0.0/8", via=k)

        readers = [threading.Thread(target=guarded, args=(read,)) for _ in range(4)]
        for thread in readers:
            thread.start()
        guarded(change)
        ended.set()
        for thread in readers:
            thread.join()
        self.assertEqual((faults, len(table), table.look_up("10.0.0.1").via), ([], 2, self.CHANGES))

    def made(self):
        table = yarib.Table()
        table.add("10.0.0.0/8", via=0)
        table.add("192.0.2.0/24", via=9)
        return table

    def test_they_meet_under_the_global_lock(self):
        self.meet(self.made())

    def test_they_meet_without_the_global_lock(self):
        """Every call lets other threads run, as all do in a Python that has no such lock."""
        handle, freed = yarib._handles.Handle, yarib._library.freed
        kept = handle._held, handle._changing
        handle._held = handle._changing = freed
        try:
            for is_followed in (False, True):
                table = self.made()
                if is_followed:
                    table.fib_attach()
                self.meet(table)
        finally:
            handle._held, handle._changing = kept

    def test_calls_between_a_call_and_its_results(self):
        """A signal handler, or another thread, makes calls when C has returned and before Python reads what C wrote."""
        table, other, inside = self.made(), self.made(), []
        other.add("11.0.0.0/8", 7, 5, feed=3)

        class Interrupted:
            def __init__(self, library):
                self.library = library

            def __getattr__(self, name):
                def call(*words):
                    status = getattr(self.library, name)(*words)
                    if not inside:
                        inside.append(True)
                        other.look_up("11.1.1.1")
                        other.get("11.0.0.0/8")
                        other.apply(3, "dump")
                        inside.clear()
                    return status
                return call

        values, handle = yarib._values, yarib._handles.Handle
        kept = values.held, handle._held, handle._changing
        values.held = handle._held = handle._changing = Interrupted(kept[0])
        try:
            table.add("12.0.0.0/8", via="192.0.2.1")
            found = [table.look_up("12.0.0.1"), table.look_up(12 << 24), table.get("12.0.0.0/8"), table["12.0.0.1"],
                     *table.routes()[1:2]]
            self.assertEqual(found, [route("12.0.0.0/8", 1, 0, "192.0.2.1")] * 5)
            self.assertEqual((table.apply(1, "purge").count, table.get("12.0.0.0/8"), table.look_up("12.0.0.1")), (3, None, None))
        finally:
            values.held, handle._held, handle._changing = kept

    def test_they_read_one_published_table(self):
        """All answers of a call are from one published table, the last one or a later one, and no reader waits or fails."""
        table, asked, faults, ended = yarib.ConcurrentTable(), [k << 24 | 5 for k in range(64)], [], threading.Event()
        published = [0]

        def publish(k):
            name = "replace" if k else "add"
            table.apply_each([(1, name, (j << 24, 8), 0, k) for j in range(64)])
            published[0] = k

        def read():
            try:
                while not ended.is_set():
                    least = published[0]
                    for found in (table.look_up_each(asked), table.routes(), table.within("0.0.0.0/2"), [table.look_up("9.0.0.1")]):
                        seen = {one.via for one in found}
                        if len(seen) != 1 or min(seen) < least or len(found) not in (1, 64) or len(table) != 64:
                            faults.append((least, seen))
            except BaseException as fault:
                faults.append(fault)

        publish(0)
        self.assertIs(table.fib_is_attached(), False)
        table.fib_attach()
        self.assertIs(table.fib_is_attached(), True)
        self.assertGreaterEqual(table.memory(), 2 << 26)
        readers = [threading.Thread(target=read) for _ in range(4)]
        for thread in readers:
            thread.start()
        for k in range(1, self.CHANGES + 1):
            if not faults:
                publish(k)
        ended.set()
        for thread in readers:
            thread.join()
        self.assertEqual((faults, table.look_up("9.0.0.1").via), ([], self.CHANGES))
        table.close()
        self.assertRaises(yarib.Refused, len, table)

    def test_copies_of_a_concurrent_table(self):
        """A copy has the published routes, and a table replaces another at once. Both have their own limit."""
        table, ten, nine = yarib.ConcurrentTable(5), route("10.0.0.0/8", 1, 0, 7), route("9.0.0.0/8", 2, 3, None)
        table.apply_each([(1, "add", "10.0.0.0/8", 0, 7), (2, "add", "9.0.0.0/8", 3, None)])
        copied = table.copy(2)
        table.add("8.0.0.0/8", 5)
        self.assertEqual((copied.routes(), len(table)), ([nine, ten], 3))
        copied.add("11.0.0.0/8", 1)
        self.assertRaises(yarib.Full, copied.add, "12.0.0.0/8", 1)
        self.assertRaises(yarib.Full, table.copy, 1)
        for limit in (0, yarib.MAX_LIMIT + 1):
            self.assertRaises(yarib.Invalid, table.copy, limit)
            self.assertRaises(yarib.Invalid, table.replace_all, copied, limit)
        self.assertRaises(yarib.Full, table.replace_all, copied, 1)
        self.assertRaises(TypeError, table.replace_all, table)
        self.assertEqual(len(table), 3)
        faults, ended = [], threading.Event()

        def read():
            while not ended.is_set():
                if (seen := tuple(one.via for one in table.look_up_each(["10.0.0.1", "8.0.0.1", "11.0.0.1"]) if one)) not in ((7, 5), (7, 1)):
                    faults.append(seen)

        reader = threading.Thread(target=read)
        reader.start()
        for k in range(50):
            table.replace_all(copied, limit=2)
            other = table.copy()
            other.withdraw("11.0.0.0/8")
            other.add("8.0.0.0/8", 5)
            table.replace_all(other, limit=2)
        ended.set()
        reader.join()
        self.assertEqual(faults, [])
        table.replace_all(copied, limit=2)
        self.assertRaises(yarib.Full, table.add, "12.0.0.0/8", 1)
        newer = yarib.ConcurrentTable()
        newer.replace_all(copied)
        newer.replace("10.0.0.0/8", 8)
        found = [(10 << 24, (11 << 24) - 1, ADDRESS(7), ADDRESS(8))]
        self.assertEqual((list(table.differences(newer)), list(table.differences(table))), (found, []))
        self.assertEqual(list(newer.differences(table, by="route"))[0].after, ten)
        for older, other in ((table, copied), (copied, table)):
            self.assertRaises(TypeError, list, older.differences(other))
        copied.close()
        self.assertRaises(yarib.Refused, table.replace_all, copied)
        table.close()
        for call in (table.copy, lambda: list(table.differences(newer))):
            self.assertRaises(yarib.Refused, call)

    def test_a_concurrent_table_is_no_table(self):
        with yarib.ConcurrentTable(3) as table:
            self.assertEqual(repr(table), "<yarib.ConcurrentTable of 0 routes>")
            self.assertRaises(TypeError, yarib.Fib, table)
            self.assertRaises(TypeError, list, yarib.Table().differences(table))
            self.assertRaises(TypeError, copy.copy, table)
            self.assertRaises(yarib.Invalid, yarib.ConcurrentTable, 0)
        self.assertEqual(repr(table), "<yarib.ConcurrentTable: the table is closed>")

    def test_a_close_waits(self):
        table, faults = self.made(), []
        asked = array.array("I", [0x0A010203]) * 1_000_000

        def read():
            try:
                while True:
                    table.look_up_each(asked)
            except yarib.Refused:
                faults.append("closed")

        thread = threading.Thread(target=read)
        thread.start()
        table.close()
        thread.join()
        self.assertEqual(faults, ["closed"])
        self.assertRaises(yarib.Refused, len, table)

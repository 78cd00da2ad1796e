"""Python's binding in daemons: signals, forks, sandboxes and other threads."""
import array
import os
import signal
import textwrap
import threading
import time
from unittest import mock

import yarib
from yarib import _library as c
from .cases import PythonCase, in_process

NEEDS = {"library"}


class Daemons(PythonCase):
    """Signals, forks and other threads."""

    def test_a_signal_handler_may_make_any_call(self):
        """Also in a thread that waits for its turn to change the table, which it holds then."""
        for kind in (yarib.Table, yarib.ConcurrentTable):
            table, handled = kind(), []
            table.add("10.0.0.0/8", 1)
            handler = lambda *_: handled.append((table.put("10.0.0.0/8", 5), table.look_up_each(["10.0.0.1"])[0].via))
            call, busy = table._changing.yarib_apply, [c.BUSY]

            def pause(_):
                busy.clear()
                signal.raise_signal(signal.SIGUSR1)

            def end(*_):
                raise TimeoutError("the handler waits")

            old, before = signal.signal(signal.SIGUSR1, handler), signal.signal(signal.SIGALRM, end)
            signal.alarm(20)
            try:
                with mock.patch.object(c.time, "sleep", pause):
                    table._change(lambda *words: busy[0] if busy else call(*words), table._at,
                                  yarib._values.command_of(1, "add", "11.0.0.0/8", 0, 1), yarib._library.Room().at)
            finally:
                signal.alarm(0)
                signal.signal(signal.SIGUSR1, old)
                signal.signal(signal.SIGALRM, before)
            self.assertEqual((handled, len(table)), ([(False, 5)], 2))

    def in_child(self, call):
        """Whether a call in a forked process ends, and well."""
        child = os.fork()
        if child == 0:
            signal.alarm(20)
            try:
                call()
            except BaseException:
                os._exit(1)
            os._exit(0)
        self.assertEqual(os.waitpid(child, 0)[1], 0)

    def test_a_table_that_others_read_works_in_a_fork(self):
        for kind in (yarib.Table, yarib.ConcurrentTable):
            table, stop, block = kind(), threading.Event(), array.array("I", range(0, 1 << 32, 1 << 13))
            table.apply_each([(1, "add", (k << 12, 20), 0, k) for k in range(20000)])

            def read():
                while not stop.is_set():
                    table.look_up_each(block)

            def change():
                for via in (1, 2, 3):
                    table.put("203.0.113.0/24", via)
                    self.assertEqual(table.look_up("203.0.113.1").via, via)
                table.close()

            thread = threading.Thread(target=read)
            thread.start()
            try:
                for _ in range(20):
                    self.in_child(change)
            finally:
                stop.set()
                thread.join()

    def test_a_refusal_of_the_system_is_an_error(self):
        table = yarib.Table()
        for status, said in ((c.NO_BARRIER, "membarrier"), (c.FORKED, "fork")):
            with self.assertRaisesRegex(yarib.Refused, said):
                table._change(lambda: status)
            with self.assertRaisesRegex(yarib.Refused, said):
                c.done(lambda: status)

    def test_a_sandbox_that_forbids_the_barrier(self):
        """Real changes after seccomp, in a process of its own, are errors and don't wait."""
        code = textwrap.dedent("""\
            import ctypes, struct, sys, threading, yarib
            tables = [yarib.Table(), yarib.ConcurrentTable()]
            for table in tables:
                table.add("10.0.0.0/8", 1)
            stop, ready = threading.Event(), threading.Event()
            def read():
                for table in tables:
                    table.look_up("10.0.0.1")
                ready.set()
                stop.wait()
            threading.Thread(target=read, daemon=True).start()
            ready.wait()
            libc = ctypes.CDLL(None, use_errno=True)
            steps = struct.pack("=HBBIHBBIHBBIHBBI", 0x20, 0, 0, 0, 0x15, 0, 1, 324, 6, 0, 0, 0x50001, 6, 0, 0, 0x7FFF0000)
            block = ctypes.create_string_buffer(steps)
            filter = ctypes.create_string_buffer(struct.pack("@HP", 4, ctypes.addressof(block)))
            if libc.prctl(38, 1, 0, 0, 0) or libc.syscall(317, 1, 1, filter):
                sys.exit()
            for table in tables:
                try:
                    table.put("10.0.0.0/8", 2), table.put("10.0.0.0/8", 3)
                    sys.exit("changed")
                except yarib.Refused as error:
                    assert "membarrier" in str(error)
            """)
        self.assertEqual(in_process(code), (0, "", ""))

    def test_long_calls_let_other_threads_run(self):
        """Another thread runs several times during each call of over some milliseconds."""
        table, beats = yarib.Table(), []
        table.apply_each([(1, "add", (k << 12, 20), 0, k) for k in range(150000)])
        table.fib_attach()
        stop = threading.Event()

        def beat():
            while not stop.wait(0.0002):
                beats.append(time.perf_counter())

        thread = threading.Thread(target=beat)
        thread.start()
        calls = {"default route": lambda: table.add("0.0.0.0/0", 1), "its withdrawal": lambda: table.withdraw("0.0.0.0/0"),
                 "purge": lambda: table.purge(1)}
        try:
            for name, call in calls.items():
                beats.clear()
                start = time.perf_counter()
                call()
                taken = time.perf_counter() - start
                if taken > 0.02:
                    self.assertGreater(sum(start < one < start + taken for one in beats), 3, name)
        finally:
            stop.set()
            thread.join()

    def test_calls_that_keep_the_global_lock_are_short(self):
        """Which calls may take over 5 ms: those of a followed table, purges, whole lists and ends."""
        table, other = yarib.Table(journal=True), yarib.Table()
        other.fib_attach()
        wide = {"yarib_routes": lambda: table.routes(), "yarib_select": lambda: table.routes(feed=1),
                "yarib_hop_counts": lambda: table.hop_counts(),
                "yarib_reserve": lambda: table.reserve(5), "yarib_journal": lambda: table.journal(),
                "yarib_first_difference": lambda: list(table.differences(other)), "yarib_free": yarib.Table,
                "yarib_hops": lambda: table.hops([1], 0, 1), "yarib_view_write": lambda: other.view_new(),
                "yarib_save": lambda: table.save(os.devnull), "yarib_load": lambda: table.load(os.devnull),
                "yarib_view_look_up_each": lambda: other.view_new().look_up_each([1]),
                "yarib_apply": lambda: (table.purge(1), other.put("10.0.0.0/24", 1), other.withdraw("10.0.0.0/24"))}
        keeping = []

        def keep(*words):
            # What an end raises isn't seen.
            keeping.append(words)
            raise AssertionError("this call keeps the lock")

        for name, call in wide.items():
            with mock.patch.object(c.held, name, keep):
                call()
        self.assertEqual(keeping, [])

    def test_commands_that_are_none(self):
        table = yarib.Table()
        for words, said in ((("nope",), "'nope'"), (("add",), "takes a prefix and a preference and a next hop"),
                            (("add", "10.0.0.0/8", 1), "10.0.0.0/8"), (("withdraw",), "takes a prefix"),
                            (("lookup", 1, 2), "takes an address"), (("purge", 1), "nothing else"), (("dump", 1), r"\(1,\)")):
            with self.assertRaisesRegex(yarib.Invalid, said) as caught:
                table.apply(1, *words)
            self.assertNotIn("\n", str(caught.exception))
            self.assertRaisesRegex(yarib.Invalid, said, table.apply_each, [(1, *words)])
        for call in (lambda: table.add("10.0.0.0/8", 1, feed=65), lambda: table.purge(65), lambda: table.apply(65, "dump")):
            self.assertRaisesRegex(yarib.Invalid, "^yarib: feed 65 is not 1 to 64$", call)
        self.assertRaisesRegex(yarib.Invalid, r"bad command: \(167772161, 8\)", table.add, ((10 << 24) + 1, 8), 1)

    def test_a_library_that_is_not_there(self):
        status, _, said = in_process("import yarib", YARIB_LIBRARY="/nowhere/libyarib.so.0")
        self.assertEqual(status, 1)
        self.assertRegex(said.splitlines()[-1], "^ImportError: yarib: cannot load .*/nowhere/libyarib.so.0.*YARIB_LIBRARY")
        code = "try:\n    import yarib\nexcept ImportError as error:\n    print(error.path)"
        self.assertEqual(in_process(code, YARIB_LIBRARY="libc.so.6"), (0, "libc.so.6\n", ""))

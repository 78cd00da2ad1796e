"""Tests of the processes that convert pieces: how many there are, and what happens if they end, stop, or can't be made."""
import contextlib
import os
import pathlib
import signal
import subprocess
import time
import unittest.mock

from convert.tests.converting import add_tests, heed_signals, sample
from convert.tests.inside.constants import InsideCase, pieces, start
from convert.tests.inside.test_pieces import JOINED

import pieces as pieces_module

BIRD = "debian-13/ranks/bird.txt"
DYING = """
pieces.serve = lambda *_: os._exit(9)
"""
ANSWERING_ONCE = """
serve_all, reads = pieces.serve, []
def serve_one(requests, results, work):
    def work_once(data, state):
        if reads:
            os._exit(9)
        reads.append(None)
        return work(data, state)
    serve_all(requests, results, work_once)
pieces.serve = serve_one
"""
# The first process that is made stops itself: before it reads, or when it has written a part of an answer.
STOPPED = """
serve_all, made = pieces.serve, []
fork_here = pieces.os.fork
def fork_counted():
    made.append(None)
    return fork_here()
pieces.os.fork = fork_counted
def stop_first(*given):
    if len(made) == 1:
        pieces.os.kill(pieces.os.getpid(), pieces.signal.SIGSTOP)
    serve_all(*given)
def stop_within(requests, results, work):
    write = pieces.write
    def write_half(descriptor, data):
        if len(made) == 1 and len(data) > 100:
            write(descriptor, data[:50])
            pieces.os.kill(pieces.os.getpid(), pieces.signal.SIGSTOP)
        write(descriptor, data)
    pieces.write = write_half
    serve_all(requests, results, work)
pieces.serve, pieces.BLOCK, pieces.TIMES, pieces.WAIT = {}, 4096, 3, 20
"""
# as on BSD and on macOS
WITHOUT_AFFINITY = """
del pieces.os.sched_getaffinity
"""
WITHOUT_FORK = """
def no_fork():
    raise BlockingIOError(11, "Resource temporarily unavailable")
pieces.os.fork = no_fork
"""


def is_of_session(process, session):
    """Returns true if a process belongs to this session."""
    with contextlib.suppress(OSError):
        return pathlib.Path(f"/proc/{process}/stat").read_text().rpartition(")")[2].split()[3] == str(session)
    return False


def children(process):
    """Returns the numbers of a process's children."""
    with contextlib.suppress(FileNotFoundError):
        return pathlib.Path(f"/proc/{process}/task/{process}/children").read_text().split()
    return []


def is_there(process):
    """Returns true if a process hasn't ended."""
    with contextlib.suppress(FileNotFoundError):
        return pathlib.Path(f"/proc/{process}/stat").read_text().rpartition(")")[2].split()[0] != "Z"
    return False


def is_so_at_last(what):
    """Returns true as soon as it is so, or false after half a minute."""
    for _ in range(600):
        if what():
            return True
        time.sleep(0.05)
    return False


class Number(InsideCase):
    """How many processes there are."""

    def test_quotas(self):
        """No more processes are made than the control group, or one above it, has the processors' time for."""
        self.write({"groups/above/own/none": "", "own": "1:cpu:/other\n0::/above/own\n"})
        processors = len(os.sched_getaffinity(0))
        for own, above, number in (("max 100000", "max 100000", processors), ("150000 100000", "max 100000", 2),
                                   ("max 100000", "50000 100000", 1), ("", "700000 100000", 7), ("none", "", processors)):
            self.write({"groups/above/own/cpu.max": own, "groups/above/cpu.max": above})
            groups = {"OWN_GROUP": self.folder / "own", "GROUPS": self.folder / "groups"}
            with self.subTest(f"{own!r} and {above!r}"), unittest.mock.patch.multiple(pieces_module, **groups):
                self.assertEqual(pieces_module.processors(), min(number, processors))

    def test_one_processor(self):
        """On one processor no other process is made."""
        refused = pieces(2000, 0) + WITHOUT_FORK.replace("raise BlockingIOError", "os.write(2, b'fork')\n    raise BlockingIOError")
        one_processor = lambda: os.sched_setaffinity(0, [min(os.sched_getaffinity(0))])
        ended = self.convert_with(refused, "bird-to-feeds", sample(BIRD), preexec_fn=one_processor)
        self.assertEqual((ended.returncode, "fork" in ended.stderr), (0, False), ended.stderr)


class Stopped(InsideCase):
    """A process that was stopped doesn't hold up the others, and is ended; the pieces don't fit into a pipe."""

    def test_closed_standard_error(self):
        """Without standard error a pipe to another process could have its number, and no other process is made."""
        _, _, feeds = self.assert_same("bird-to-feeds", sample(BIRD), 2000)
        ended = self.convert_with(pieces(2000), "bird-to-feeds", sample(BIRD), preexec_fn=lambda: os.close(2))
        self.assertEqual(ended.result, (0, "", feeds))


def check_stopped(test, stop):
    """The feeds are those of one process, and none is left."""
    data = b"".join(sample("ranks/frr-dump.txt").replace(b"|10.", b"|%d." % number) for number in range(11, 41))
    one = test.convert_with(pieces(1 << 20, 1), "bgpdump-to-feeds", data).result
    changed = pieces(20000) + STOPPED.format(stop)
    test.assertEqual(test.convert_with(changed, "bgpdump-to-feeds", data).result, one)
    process = start("bgpdump-to-feeds", changed, test.folder / "left", stderr=subprocess.DEVNULL, start_new_session=True)
    process.communicate(data, timeout=60)
    test.assertEqual([name for name in os.listdir("/proc") if name.isdecimal() and is_of_session(name, process.pid)], [])


def check_processes(test, command, name):
    """Processes that end, or can't be made, leave their pieces to this one; and a system that doesn't say which processors
    may be used makes no difference."""
    one = test.convert_with(pieces(1 << 20, 1), command, sample(name)).result
    for kind, changed in (("end", pieces(2000) + DYING), ("end later", pieces(2000) + ANSWERING_ONCE),
                          ("can't be made", pieces(2000) + WITHOUT_FORK), ("are of another system", pieces(2000, 0) + WITHOUT_AFFINITY)):
        with test.subTest(kind):
            test.assertEqual(test.convert_with(changed, command, sample(name)).result, one)


def check_signal(test, number):
    """A signal ends all processes, and leaves nothing; the message comes once."""
    process = start("bird-to-feeds", pieces(2000), test.folder / "ended", start_new_session=True, preexec_fn=heed_signals)
    process.stdin.write(sample(BIRD))
    process.stdin.flush()
    test.assertTrue(is_so_at_last(lambda: children(process.pid)), "no other process is made")
    others = children(process.pid)
    os.killpg(process.pid, number)
    notes = process.stderr.read().decode()
    process.stdin.close()
    process.stderr.close()
    test.assertEqual((process.wait(), notes), (128 + number, f"bird-to-feeds: ended by {number.name}\n"))
    test.assertTrue(is_so_at_last(lambda: not any(map(is_there, others))), "other processes are left")
    test.assertEqual(list(test.folder.iterdir()), [])


add_tests(Stopped, "", check_stopped, {stop: (stop,) for stop in ("stop_first", "stop_within")})
add_tests(Stopped, "processes", check_processes, {f"{command} {name}": (command, name) for command, name, _ in JOINED})
add_tests(Stopped, "", check_signal, {number.name: (number,) for number in (signal.SIGTERM, signal.SIGINT)})

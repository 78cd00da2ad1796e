"""The progress line on a terminal, which is first written after a second."""
import contextlib
import os
import pty
import select
import subprocess
import time
import tty

from dev.models.table_model import E1, MAX_FEEDS
from dev.testing import program
from tests.cases import ProgramCase, route, table
from tests.lock_tree import Tree
from tests.schedules import loaded
from tests.texts import ROW, ROW_OUT

NEEDS = {"program"}

ERASED = "\r" + " " * 32 + "\r"
# What the library of schedules prints for each wait that it ends.
TICK = "[1000 ms]"
NONE_READ = "yarib: files read: 0 of 1"
RUNNING = f"yarib: feeds running: {MAX_FEEDS}"
# Lines that may come before the one that a test waits for.
OTHERS = {
    NONE_READ, "yarib: files read: 1 of 2",
    *(f"yarib: files read: {read} of {files}" for files in (MAX_FEEDS // 2, MAX_FEEDS) for read in range(files)),
    *(f"yarib: feeds running: {feeds}" for feeds in (1, 2, MAX_FEEDS)), "yarib: writing",
}


def received(screen):
    """What the terminal has received and wasn't read yet; empty if nobody can write to it any more, or after two
    minutes."""
    try:
        return os.read(screen, 65_536) if select.select([screen], [], [], 120)[0] else b""
    except OSError:
        return b""


class TerminalCase(ProgramCase):
    def start(self, words, **settings):
        """Starts the program with a terminal as standard error, and returns it with the terminal's other end."""
        screen, terminal = pty.openpty()
        self.addCleanup(os.close, screen)
        tty.setraw(terminal)
        settings = {name: terminal if setting == "terminal" else setting for name, setting in settings.items()}
        child = subprocess.Popen([program(), *words.split()], stderr=terminal, cwd=self.folder, **settings)
        os.close(terminal)
        return child, screen

    def on_terminal(self, words, waits_for=None, go_on=lambda: None, out_too=False, is_short=False, is_long=False,
                    is_ticked=False):
        """Returns the status, standard output, and what a terminal as standard error receives besides the progress
        line; the terminal may be standard output too. If the run is held up, the line has to be `waits_for` before
        `go_on` is called, and may also be one of `OTHERS`. In a short run there may be a line only if the run took over
        a second, in a long one only before its output. In a ticked run the line's seconds take milliseconds until it is
        `waits_for`."""
        began = time.monotonic()
        waits, ticks = os.pipe()
        ticked = {"env": loaded(self, TICKS_IN=waits), "pass_fds": [waits]} if is_ticked else {}
        child, screen = self.start(words, stdout="terminal" if out_too else subprocess.PIPE, **ticked)
        os.close(waits)
        sent = b""
        while waits_for and waits_for.encode() not in sent:
            if is_ticked:
                time.sleep(0.01)
                with contextlib.suppress(BrokenPipeError):  # it has ended
                    os.write(ticks, b"t")
            if not (piece := received(screen)):
                break
            sent += piece
        os.close(ticks)
        go_on()
        out = b"" if out_too else child.communicate(timeout=120)[0]
        while piece := received(screen):
            sent += piece
        child.wait(timeout=120)
        *lines, rest = sent.decode().replace(TICK, "").split(ERASED)
        is_told = waits_for in lines if waits_for else not lines or is_long or is_short and time.monotonic() - began > 1
        rest = rest if is_told and OTHERS.issuperset(lines) else f"{lines}, and then {rest}"
        return child.returncode, out.decode(), rest

    def assert_shows(self, name, words, stdout, stderr="", returncode=0, **how):
        """Compares the status, standard output and the rest of standard error of a call on a terminal."""
        with self.subTest(name):
            self.assertEqual(self.on_terminal(words, **how), (returncode, stdout, stderr))


# Catches a progress line in a run of less than a second, or in one that isn't on a terminal.
# Catches a progress line that isn't erased before another text and at the end, or isn't written after a second.
class Progress(TerminalCase):
    # Catches status 0 instead of 1 on a terminal: `a difference`.
    def test_short_runs(self):
        self.assert_shows("a run", "run row.feed", ROW_OUT, is_short=True)
        self.assert_shows("a run on a terminal alone", "run row.feed", "", ROW_OUT, out_too=True, is_short=True)
        self.assert_shows("a missing file", "run missing", "", "yarib: cannot read missing\n", 4, is_short=True)
        self.assert_shows("a difference", "diff row.feed -- empty.feed",
                          "10.0.0.0-10.255.255.255 via 192.0.2.1 -> no route\n", "", 1, is_short=True)
        self.assert_shows("a fault of a replay", "replay --levels 0", "", "yarib: fault P2\n", 3, is_short=True)

    # Catches a call on a terminal that lasts until the progress line's next second.
    def test_call_ends_in_half_a_second(self):
        def seconds():
            began = time.monotonic()
            self.on_terminal("run row.feed", is_short=True)
            return time.monotonic() - began

        self.assertTrue(any(seconds() < 0.5 for _ in range(10)))

    def test_slow_files(self):
        os.mkfifo(self.folder / "slow.feed")
        fault = f"yarib: slow.feed: faulty lines: 1, the first is line 1: {E1}\n"
        goes_on = lambda text: lambda: (self.folder / "slow.feed").write_text(text)
        none_read = {"waits_for": NONE_READ, "go_on": goes_on(ROW)}
        self.assert_shows("a run", "run slow.feed", ROW_OUT, **none_read)
        self.assert_shows("a run on a terminal alone", "run slow.feed", "", ROW_OUT, out_too=True, **none_read)
        self.assert_shows("a second file, and a fault", "table row.feed slow.feed", route(1), fault, 2,
                          waits_for="yarib: files read: 1 of 2", go_on=goes_on("frob\n"))
        self.assert_shows("a look-up", "lookup --address 10.0.0.1 slow.feed", "10.0.0.1 no route\n", fault, 2,
                          waits_for=NONE_READ, go_on=goes_on("frob\n"))

    def test_slow_file_without_a_terminal(self):
        os.mkfifo(self.folder / "slow.feed")
        child = subprocess.Popen([program(), "run", "slow.feed"], stdout=subprocess.PIPE, stderr=subprocess.PIPE,
                                 text=True, cwd=self.folder)
        time.sleep(1.5)
        (self.folder / "slow.feed").write_text(ROW)
        self.assertEqual(child.communicate(timeout=120), (ROW_OUT, ""))

    # Catches a line that is written each 200 ms, or every other second: `second 1`.
    def test_line_each_second(self):
        """A delayed run prints its progress each second. This test ends each wait of the program, which then prints its
        length."""
        os.mkfifo(self.folder / "slow.feed")
        waits, ticks = os.pipe()
        child, screen = self.start("run slow.feed", stdout=subprocess.DEVNULL, env=loaded(self, TICKS_IN=waits),
                                   pass_fds=[waits])
        os.close(waits)
        with open(self.folder / "slow.feed", "w") as feed:  # the program has opened it for reading
            for second in range(1, 6):
                sent = b""
                os.write(ticks, b"t")
                while not sent.endswith(NONE_READ.encode()) and (piece := received(screen)):
                    sent += piece
                with self.subTest(f"second {second}"):
                    self.assertEqual(sent.decode(), f"{TICK}{ERASED if second > 1 else ''}{NONE_READ}")
            os.close(ticks)
            feed.write(ROW)
        self.assertEqual(child.wait(timeout=120), 0)


# Catches another text than the run's progress, or a previous one that isn't erased.
# Catches a progress line that is written again after its final erasure.
class LongRuns(TerminalCase):
    """Runs whose output isn't read for over a second, which holds them up, and runs that work for many ticks."""

    # Catches a progress line on a terminal that has output already: `on a terminal alone`.
    def test_long_output(self):
        self.write({"long.feed": ROW * 100_000})
        added = "1:1 added\n" + "".join(f"1:{number} exists\n" for number in range(2, 100_001)) + table(route(1))
        self.assert_shows("to a pipe", "run long.feed", added, waits_for="yarib: writing")
        self.assert_shows("on a terminal alone", "run long.feed", "", added, go_on=lambda: time.sleep(1.5),
                          out_too=True, is_long=True)

    # Catches a progress line before a run has begun.
    def test_long_replay(self):
        picks = [5] * 20_000
        self.assert_shows("20,000 picks", f"replay --levels 6 {' '.join(map(str, picks))}", Tree(6).text(picks),
                          go_on=lambda: time.sleep(1.5))

    # Catches a progress line that only counts the old feeds of a comparison: `as many on both sides`.
    def test_busy_feeds(self):
        """Each purge goes over all routes of the first feed."""
        rows = "".join(f"add 10.{place >> 8}.{place & 255}.0/24 1 192.0.2.1\n" for place in range(20_000))
        purges = "add 255.0.0.0/8 1 192.0.2.1\npurge\n" * 250
        self.write({"rows.feed": f"version 2\n{rows}", "purges.feed": f"version 2\n{purges}"})
        ticked, side = {"waits_for": RUNNING, "is_ticked": True}, "rows.feed" + " purges.feed" * (MAX_FEEDS // 2 - 1)
        all_feeds = "rows.feed" + " purges.feed" * (MAX_FEEDS - 1)
        self.assert_shows("MAX_FEEDS feeds", f"table --feed 2 {all_feeds}", "", **ticked)
        self.assert_shows("as many on both sides", f"diff {side} -- {side}", "", **ticked)

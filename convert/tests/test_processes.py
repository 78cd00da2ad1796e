"""Tests of converters as processes: signals, two at once, closed descriptors, and what a terminal shows."""
import contextlib
import os
import pty
import re
import signal
import stat
import subprocess
import time

from convert.tests import commands
from convert.tests.converting import OTHERWISE, SAMPLES, ConverterCase, call, heed_signals, sample, table_of, words_of
from convert.tests.test_folder import BIRD, DUMP, OTHER_DUMP, names_in

DEVICES = "--device 192.0.2.0/24=uplink --device 198.51.100.0/24=uplink"


def start(words, **settings):
    """Starts a process that reads what is written to it."""
    settings = {"stdin": subprocess.PIPE, "stderr": subprocess.PIPE, "cwd": SAMPLES, "env": commands.environment()} | settings
    return subprocess.Popen(list(map(os.fspath, words)), **settings)


class Started(ConverterCase):
    """A converter that has begun and waits for more input."""

    def setUp(self):
        self.feeds = self.folder / "a" / "feeds"

    def started(self):
        """Starts a converter, and waits until it has begun the directory."""
        process = start([*words_of("bgpdump-to-feeds"), self.feeds], preexec_fn=heed_signals)
        self.addCleanup(self.end, process)
        process.stdin.write(DUMP)
        process.stdin.flush()
        for _ in range(1000):
            if (self.feeds.parent / ".feeds.new/.written").exists():
                return process
            time.sleep(0.02)
        self.fail("the directory isn't begun")

    @staticmethod
    def end(process):
        process.kill()
        process.communicate()

    def test_signals(self):
        """A signal leaves nothing next to the directory, and is reported once."""
        for ending in (signal.SIGTERM, signal.SIGHUP, signal.SIGINT):
            with self.subTest(ending.name):
                process = self.started()
                process.send_signal(ending)
                notes = process.communicate()[1]
                self.assertEqual((process.returncode, notes.decode()), (128 + ending, f"bgpdump-to-feeds: ended by {ending.name}\n"))
                self.assertFalse(self.feeds.parent.exists())

    def test_kill(self):
        """What a killed converter leaves is removed by the next one."""
        process = self.started()
        process.kill()
        process.communicate()
        self.assertEqual(names_in(self.feeds.parent), [".feeds.new"])
        self.converted("bgpdump-to-feeds", OTHER_DUMP, folder="a/feeds")
        self.assertEqual((names_in(self.feeds.parent), names_in(self.feeds)), (["feeds"], [".written", "127.0.0.2.feed"]))
        self.assertEqual((self.feeds / "127.0.0.2.feed").read_text(), "version 2\nadd 10.0.0.0/8 1 192.0.2.1\n")

    def test_two_at_once(self):
        """If two write to a directory at once, the second is refused and the first succeeds."""
        first = self.started()
        second = self.converted("bird-to-feeds", BIRD, folder="a/feeds", returncode=1)
        self.assertIn(f"another converter is writing to {self.feeds}", second.stderr)
        first.communicate()
        self.assertEqual((first.returncode, names_in(self.feeds)), (0, [".written", "127.0.0.1.feed"]))
        self.assertEqual(names_in(self.feeds.parent), ["feeds"])

    def test_privacy(self):
        """While a directory is written nobody else may look into it."""
        mask = os.umask(0o002)
        try:
            process = self.started()
        finally:
            os.umask(mask)
        self.assertEqual(stat.S_IMODE((self.feeds.parent / ".feeds.new").stat().st_mode), 0o700)
        process.communicate()
        self.assertEqual(stat.S_IMODE(self.feeds.stat().st_mode), 0o775)


class Descriptors(ConverterCase):
    """A reader that closes its end, and closed standard input, output or error."""

    def setUp(self):
        reading, self.broken = os.pipe()
        os.close(reading)
        self.addCleanup(os.close, self.broken)

    def test_table_without_a_reader(self):
        ended = call(f"table-to-bird {DEVICES}", sample("table/run.txt"), stdout=self.broken)
        self.assertEqual((ended.returncode, ended.stderr.count("\n")), (1, 1))
        self.assertIn("Broken pipe", ended.stderr)

    def test_closed(self):
        """None of them causes a traceback."""
        for closed, name in enumerate(("standard input", "standard output", "standard error")):
            for command in ("bgpdump-to-feeds", "gobgp-to-feeds", f"table-to-ip {DEVICES}"):
                with self.subTest(f"{command.split()[0]} without {name}"):
                    ended = self.convert(command, sample("table/run.txt"), preexec_fn=lambda: os.close(closed))
                    self.assertEqual(ended.returncode, 0 if command.startswith("table") and closed == 2 else 1)
                    self.assertNotIn("Traceback", ended.stderr)
                    self.assertLessEqual(ended.stderr.count("\n"), 1)

    def test_directory_without_standard_output(self):
        ended = self.converted("bird-to-feeds --one-hop", sample("bird/static-routes.txt"), preexec_fn=lambda: os.close(1))
        self.assertEqual(ended.stderr[:18], "accepted 14 routes")
        self.assertIn("upstream_a.feed", ended.feeds)

    def test_notes_without_a_reader(self):
        ended = self.convert("bird-to-feeds --one-hop", sample("bird/static-routes.txt"), stderr=self.broken)
        self.assertEqual((ended.returncode, "upstream_a.feed" in ended.feeds), (0, True))

    def test_help_without_a_reader(self):
        """argparse may keep to itself that its help wasn't written."""
        ended = call("bird-to-feeds --help", None, stdout=self.broken)
        self.assertIn(ended[::2], ((0, ""), (1, "bird-to-feeds: standard output: Broken pipe\n")))

    def test_messages_and_routes(self):
        """Messages for standard error don't appear among the routes."""
        rows = table_of("by-hand/outside.txt").removesuffix(b"total 5\n")
        ended = self.convert("table-to-ip --device uplink", b"1:1 full\ntable 5\n" + rows, preexec_fn=lambda: os.close(2))
        self.assertEqual(ended.returncode, OTHERWISE)
        for word in ("connected", "full"):
            self.assertNotIn(word, ended.stdout)


class Progress(ConverterCase):
    """What a terminal shows."""

    def test_line_of_each_second(self):
        """A line is written over each second and erased before the report."""
        terminal, standard_error = pty.openpty()
        process = start([*words_of("bgpdump-to-feeds"), self.folder / "shown"], stderr=standard_error)
        os.close(standard_error)
        process.stdin.write(sample("bgpdump/rib.txt"))
        process.stdin.flush()
        shown = ""
        # a line is written each second; the first may come before all was read
        for _ in range(60):
            if "17 lines" in shown:
                break
            shown += os.read(terminal, 1000).decode()
        process.stdin.close()
        process.wait()
        # all messages can still be read, and no writer is left that could add one
        with contextlib.suppress(OSError):
            while more := os.read(terminal, 1000).decode():
                shown += more
        os.close(terminal)
        self.assertTrue(re.search(r"\r\x1b\[K17 lines, 3 sources, \d+ routes", shown), repr(shown))
        self.assertIn("\r\x1b[Kaccepted 16 routes", shown)

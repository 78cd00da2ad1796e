"""Tests of input that is read in small blocks, of lines that are written in small parts, and of limits."""
import contextlib
import os
import pty
import re
import signal
import time

from convert.tests.conversions import CONVERSIONS
from convert.tests.converting import add_tests, heed_signals, many, prefixes, sample
from convert.tests.inside.constants import InsideCase, start
from convert.tests.test_folder import DUMP
from convert.tests.test_input import DUMPED, LINES, gobgp
from dev.models.table_model import MAX_FEEDS, route_text

FEW = "BLOCK, MOST_WAITING, MOST_TEXT = 4096, 50, 1000"
NEEDS_LIMIT = "a feed has {0} routes: `yarib run` needs --limit {0}, as in yarib run --batch 256 --limit {0} {1}/*.feed"


class Blocks(InsideCase):
    """Input in small blocks, and lines in small parts."""

    def test_crlf(self):
        """With CRLF instead of LF a sample gives the same result, even if a block ends between the two."""
        for command, name in LINES:
            with self.subTest(command.split()[0]):
                ended, crlf = (self.convert_with(constants, command, sample(name).replace(b"\n", end))
                               for end, constants in ((b"\n", ""), (b"\r\n", "BLOCK = 7")))
                self.assertEqual((crlf.stdout, crlf.result), (ended.stdout, ended.result))

    def test_many(self):
        """No line is lost if there are many, or many peers: neither between two blocks nor between two writes."""
        for name, peers, each, constants in (
            ("lines", 1, 310000, "MOST_WAITING, MOST_TEXT = 2000, 100000"), ("blocks", 3, 700, FEW), ("peers", 2100, 1, FEW),
            ("more peers than files", MAX_FEEDS + 6, 30, FEW),
        ):
            with self.subTest(name):
                data = "".join(DUMPED.format(f"127.0.{peer >> 8}.{peer & 255}", prefix) for prefix in prefixes(each) for peer in range(peers))
                ended = self.convert_with(constants, "bgpdump-to-feeds", data)
                self.assertEqual((ended.returncode, ended.stderr.split(";")[0]),
                                 (3 if peers > MAX_FEEDS else 0, f"accepted {peers * each} routes"))
                wrong = [peer for peer in range(peers) if (ended.folder / f"127.0.{peer >> 8}.{peer & 255}.feed").read_text()
                         != "version 2\n" + "".join(f"add {prefix} {peer + 1} 192.0.2.1\n" for prefix in prefixes(each))]
                self.assertEqual((len(ended.files), wrong), (peers, []))

    def test_json_of_many(self):
        self.assertEqual(self.convert_with(FEW, "gobgp-to-feeds", gobgp(5000))[:3], (0, "", "accepted 5000 routes; omitted nothing\n"))

    def test_endless_value(self):
        ended = self.convert_with("BLOCK, LONGEST = 64, 1000", "gobgp-to-feeds", b'{"10.0.0.0/8":"' + b"a" * 5000)
        self.assertEqual(ended.returncode, 1)
        self.assertIn("a value is too long for a table at line 1", ended.stderr)


def check_small_blocks(test, case):
    """Input that is read in other pieces, which end within a line, a number or a character, gives the same result."""
    ended = test.convert_with("BLOCK = 7", case.command, sample(case.sample))
    test.assertEqual(ended.returncode, case.returncode, ended.stderr)
    test.assertEqual(ended.stderr + ended.text, sample(case.feeds).decode())


def at_a_time(last):
    """Returns updates of a peer that has three routes at most, before the last."""
    line = "BGP4MP|1|{}|127.0.0.1|1|10.{}.0.0/16|1|IGP|192.0.2.1|0|0||NAG||\n"
    changes = "".join(line.format(*change) for change in ("A0", "A1", "W0", "A2", "A3"))
    return f"BGP4MP|0|STATE|127.0.0.1|1|5|6\n{changes}BGP4MP|2|{last}\n"


class Limits(InsideCase):
    """The routes that a run accepts in a feed."""

    def test_routes_at_a_time(self):
        """For updates, the needed limit is that for the routes that a feed has at a time."""
        for last in ("W|127.0.0.1|1|10.1.0.0/16", "STATE|127.0.0.1|1|6|1"):
            for limit, is_told in ((3, False), (2, True)):
                with self.subTest(f"limit {limit} before {last[0]}"):
                    ended = self.convert_with(f"USUAL_LIMIT = {limit}", "bgpdump-to-feeds", at_a_time(last))
                    self.assertEqual(ended.stderr.splitlines()[1:], [NEEDS_LIMIT.format(3, ended.folder)] * is_told)

    def test_more_than_any_limit(self):
        ended = self.convert_with("GREATEST_LIMIT = 2", "bgpdump-to-feeds", at_a_time("STATE|127.0.0.1|1|6|1"))
        self.assertEqual(ended.stderr.splitlines()[1:], [
            "127.0.0.1 has 4 routes, and a feed can have at most 2: it is in 127.0.0.1-1of2.feed, 127.0.0.1-2of2.feed, each prefix in "
            "one of them"])


class Progress(InsideCase):
    """The lines of progress of a converter that reads a file in small blocks and shows them often."""

    def shown_of(self, command, file):
        """Returns the lines that a terminal shows."""
        terminal, standard_error = pty.openpty()
        folder = [self.folder / f"shown-{command}"] if command.endswith("feeds") else []
        with open(file) as read, open(os.devnull, "w") as nothing:
            process = start(command, "BLOCK, EACH = 64, 0.001", *folder, stdin=read, stdout=nothing, stderr=standard_error)
        os.close(standard_error)
        shown = ""
        with contextlib.suppress(OSError):
            while more := os.read(terminal, 1000).decode():
                shown += more
        os.close(terminal)
        self.assertEqual(process.wait(), 0, repr(shown))
        return shown.split("\r\x1b[K")

    def test_files(self):
        """For a file the part that was read is shown; each progress line is shorter than a terminal's line."""
        lines, percent, routes = r"[\d,]+ lines", r"\d+ % of the input", r"1 sources, [\d,]+ routes"
        bird = "Table master4:\n" + many("{} unicast [a 09:20:39.677] * (150)\n\tvia 192.0.2.1 on uplink\n")
        gobgp_table = "{" + many('"{}":[{{"best":true,"attrs":[{{"type":3,"nexthop":"192.0.2.1"}}]}}],\n')[:-2] + "}"
        for command, text, parts in (
            ("bgpdump-to-feeds", many(DUMPED.format("127.0.0.1", "{}")), (lines, percent, routes)),
            ("bird-to-feeds", bird, (lines, percent, routes)),
            ("gobgp-to-feeds", gobgp_table, (lines, percent, routes)),
            ("table-to-frr --onlink uplink", many(route_text("{}") + "\n") + "total 5000\n", (lines, percent)),
        ):
            with self.subTest(command.split()[0]):
                self.write({"many.txt": text})
                shown = self.shown_of(command, self.folder / "many.txt")
                self.assertTrue(any(re.fullmatch(", ".join(parts), line) for line in shown), shown)
                self.assertLess(max(map(len, shown)), 80)


class Signals(InsideCase):
    """A signal, and a second one at once or in the milliseconds while the converter clears away and Python ends, leaves
    nothing next to the directory."""

    def started(self, folder):
        """Starts a converter, and waits until it has written some lines."""
        process = start("bgpdump-to-feeds", "BLOCK, MOST_WAITING, MOST_TEXT = 64, 0, 0", folder, preexec_fn=heed_signals)
        process.stdin.write(DUMP + DUMP.replace(b"10.0.0.0/8", b"10.1.0.0/16"))
        process.stdin.flush()
        for _ in range(1000):
            if (folder.parent / f".{folder.name}.new/0").exists():
                return process
            time.sleep(0.02)
        process.kill()
        process.communicate()
        self.fail("nothing is written")


def check_signals(test, ending, delay, second):
    """Of two signals that come at once either may be the first."""
    folder = test.folder / "a" / "feeds"
    process = test.started(folder)
    process.send_signal(ending)
    time.sleep(delay)
    process.send_signal(second or ending)
    notes = process.communicate()[1].decode()
    ended = signal.Signals(process.returncode - 128).name if process.returncode > 128 else process.returncode
    test.assertIn(ended, (ending.name, second and second.name))
    test.assertEqual((notes, folder.parent.exists()), (f"bgpdump-to-feeds: ended by {ended}\n", False))


ENDINGS = {f"{ending.name} and SIGINT at once": (ending, 0, signal.SIGINT) for ending in (signal.SIGTERM, signal.SIGHUP, signal.SIGINT)}
ENDINGS |= {f"{ending.name} twice in {delay} ms": (ending, delay / 1000, None)
            for ending in (signal.SIGTERM, signal.SIGHUP, signal.SIGINT) for delay in (2, 5, 8, 12, 18)}
add_tests(Signals, "", check_signals, ENDINGS)
add_tests(Blocks, "of 7 bytes", check_small_blocks, {f"{case.command.split()[0]} {case.name}": (case,) for case in CONVERSIONS})

"""Tests of memory that runs out, and of a directory that goes away meanwhile."""
import resource
import subprocess
import sys

from convert.tests.converting import add_tests, many
from convert.tests.inside.constants import InsideCase
from convert.tests.test_folder import DUMP, names_in
from dev.models.table_model import route_text

DUMPED = "TABLE_DUMP2|1|B|127.0.0.1|1|{}|1|IGP|192.0.2.1|0|0||NAG||\n"
# No memory is left when lines are written first.
NOTHING_LEFT = """
import resource
PROCESSES, kept = 1, []
def nothing_left(files):
    size = int(open("/proc/self/statm").read().split()[0]) * resource.getpagesize()
    resource.setrlimit(resource.RLIMIT_AS, (size, size))
    for number in (100000, 5000, 1000, 500, 300, 200, 100, 60, 40, 20, 1):
        with contextlib.suppress(MemoryError):
            while True:
                kept.append(bytearray(number))
    raise MemoryError
FeedFiles.settle = nothing_left
"""
# The new directory is moved away right after its record was locked for the first time.
MOVED_AWAY = """
import folders
lock, locked = folders.fcntl.flock, []
def lock_and_move(descriptor, how):
    lock(descriptor, how)
    if not locked:
        locked.append(descriptor)
        os.rename({new!r}, {aside!r})
folders.fcntl.flock = lock_and_move
"""
# The record in the new directory is removed and made again right after it was opened for the first time.
MADE_AGAIN = """
import folders
lock, locked = folders.fcntl.flock, []
def lock_and_make(descriptor, how):
    lock(descriptor, how)
    if not locked:
        locked.append(descriptor)
        os.unlink({record!r})
        open({record!r}, "w").close()
folders.fcntl.flock = lock_and_make
"""


class Memory(InsideCase):
    """Wherever memory runs out, there is a single line and status 1, and no files are left."""

    def is_python_there(self, limited):
        """Returns true if Python itself starts within this limit."""
        loaded = [sys.executable, "-c", "import argparse, ipaddress, json, pathlib, shutil"]
        return subprocess.run(loaded, capture_output=True, preexec_fn=limited).returncode == 0

    def test_no_memory_for_lines(self):
        """The files are removed even if no memory is left at all."""
        ended = self.convert_with(NOTHING_LEFT, "bgpdump-to-feeds", DUMPED.format("10.0.0.0/8"), folder="none-left/feeds")
        self.assertEqual(ended[:3], (1, "", "bgpdump-to-feeds: out of memory for this input\n"))
        self.assertFalse((self.folder / "none-left").exists())


def check_limits(test, command, data):
    """A converter with more and more memory."""
    test.varies()
    refused = 0
    for mebibytes in range(16, 512, 4):
        limited = lambda: resource.setrlimit(resource.RLIMIT_AS, (mebibytes << 20,) * 2)
        if not test.is_python_there(limited):
            continue
        ended = test.convert(command, data, folder="memory", preexec_fn=limited)
        test.assertIn(ended.returncode, (0, 1))
        lines = 1 if ended.returncode or command.endswith("feeds") else 0
        test.assertEqual(("Traceback" in ended.stderr, ended.stderr.count("\n")), (False, lines), f"{mebibytes} MiB: {ended.stderr}")
        refused += "out of memory for this input" in ended.stderr
        test.assertIn([path.name for path in test.folder.iterdir()], ([], ["memory"]), f"{mebibytes} MiB")
        if ended.returncode == 0:
            break
    test.assertEqual((ended.returncode, refused > 0), (0, True), f"{refused} times out of memory")


class Directory(InsideCase):
    """What happens to the directory while it is begun."""

    def test_new_directory_that_is_moved_away(self):
        """A new directory that another converter moved to its place meanwhile is begun again, and not written to."""
        new, aside = self.folder / ".feeds.new", self.folder / "aside"
        ended = self.convert_with(MOVED_AWAY.format(new=str(new), aside=str(aside)), "bgpdump-to-feeds", DUMP, folder="feeds")
        self.assertEqual(ended[:3], (0, "", "accepted 1 routes; omitted nothing\n"))
        self.assertEqual((names_in(self.folder), names_in(self.folder / "feeds"), names_in(aside)),
                         (["aside", "feeds"], [".written", "127.0.0.1.feed"], [".written"]))
        self.assertEqual((aside / ".written").read_text(), "")

    def test_record_that_is_made_again(self):
        """A record that another converter made anew meanwhile is the one that is locked and written."""
        changed = MADE_AGAIN.format(record=str(self.folder / ".feeds.new/.written"))
        ended = self.convert_with(changed, "bgpdump-to-feeds", DUMP, folder="feeds")
        self.assertEqual(ended[:3], (0, "", "accepted 1 routes; omitted nothing\n"))
        self.assertIn("127.0.0.1.feed", (self.folder / "feeds/.written").read_text())


add_tests(Memory, "limits", check_limits, {
    "feeds": ("bgpdump-to-feeds", many(DUMPED, 60000)),
    "table": ("table-to-frr --onlink uplink", many(route_text("{}") + "\n", 100000) + "total 100000\n")})

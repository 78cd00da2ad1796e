"""A test that waits forever is told from one that goes on, however busy the machine is."""
import sys
import unittest

from dev.build.watched import WAITS, watched
from dev.testing import TestCase

WAIT = "import threading; lock = threading.Lock(); lock.acquire(); lock.acquire()"
LOOPS = "while :; do :; done"
# Commands, each with its status, WAITS, or None if there is no verdict in time.
COMMANDS = {
    "ends": (["sh", "-c", "exit 3"], 3),
    "passes after a while": (["sleep", "1"], 0),
    "is killed": (["sh", "-c", "kill -9 $$"], -9),
    "waits": ([sys.executable, "-c", WAIT], WAITS),
    "goes on": (["sh", "-c", LOOPS], None),
    "has a child that goes on": (["sh", "-c", f"({LOOPS}); exit 1"], None),
}


# Catches a time limit that counts as a verdict, or a wait that doesn't.
class Watched(TestCase):
    def test_ends(self):
        for name, (command, ending) in COMMANDS.items():
            with self.subTest(name):
                # The limit decides only about what has no verdict.
                self.assertEqual(watched(command, seconds=8 if ending is None else 300), ending)

    def test_one_that_polls_what_waits(self):
        poller = f"import subprocess, time\nchild = subprocess.Popen([{sys.executable!r}, '-c', {WAIT!r}])\n" \
                 "while child.poll() is None:\n    time.sleep(0.01)\n"
        lines = []
        self.assertEqual(watched([sys.executable, "-c", poller], seconds=300, pollers=[name()], say=lines.extend), WAITS)
        self.assertIn(WAIT, lines[-1])


def name():
    """Returns the name by which the kernel knows Python."""
    with open("/proc/self/comm") as file:
        return file.read().rstrip()


if __name__ == "__main__":
    unittest.main()

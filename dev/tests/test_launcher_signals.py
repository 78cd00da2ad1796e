"""A signal ends ./yarib and what it builds at once, without a traceback, and nothing of the build remains. The prover is a
stub (dev/tests/stub_toolchain.py)."""
import contextlib
import os
import signal
import subprocess
import time
import unittest

from dev.build.watched import commands, processes
from dev.tests.stub_toolchain import LauncherTest, begun, is_alive, wait_until

# Has bash report each command of the launcher before it runs it, and interrupt the launcher before the command of a number.
EACH_COMMAND = """
at=0
note() {
  if [ "$BASHPID" != "$$" ]; then return; fi
  printf '%s\\n' "$1" >>"$COMMANDS"
  if [ "$((at++))" = "$STOP" ]; then kill -INT "$$"; fi
}
trap 'note "${BASH_COMMAND%%$'"'\\n'"'*}"' DEBUG
set -T
"""


class Signals(LauncherTest):
    def assert_ended_by(self, number):
        """Interrupts a build, and fails if something of it remains, or if it isn't continued by the next one."""
        self.change("crates/rt_trie/src/lib.rt")
        with self.begun_build("rt_rib") as (running, prover):
            self.assertEqual(len([*self.work.iterdir()]), 1, "the build's files are in $TMPDIR")
            if number == signal.SIGKILL:
                os.kill(next(pid for pid in processes(running.pid)[1:] if "dev/build/build" in "".join(commands(pid)[:1])), number)
            else:
                os.kill(running.pid, number)
            status = running.wait()
        self.assertEqual(status, 128 + number)
        if number == signal.SIGKILL:
            os.killpg(prover, signal.SIGKILL)
        wait_until(lambda: not is_alive(prover))
        self.assertEqual([*(self.top / "out/build").glob("*.new")], [])
        for name in ("rt_trie.new", "rt_trie.new.sha256"):
            (self.top / "out/build" / name).write_text("half of a product\n")
        crates = begun(self.assert_starts())
        self.assertEqual([*(self.top / "out/build").glob("*.new*")], [])
        self.assertEqual(("rt_trie" in crates, "rt_app" in crates), (False, True))
        self.assertEqual([*self.work.iterdir()], [])

    # Catches a signal after which a prover goes on, or a temporary file of the build, half a product or a lock remains; a
    # build that has its files elsewhere than in $TMPDIR; and another status of an ended build.
    def test_ended(self):
        for number in (signal.SIGTERM, signal.SIGINT, signal.SIGHUP, signal.SIGKILL):
            with self.subTest(number.name):
                self.assert_ended_by(number)

    # Catches a signal in the first second that is reported with a traceback. The build doesn't end by itself: a program that
    # it made, which is Python here, would print a traceback.
    def test_interrupted_while_it_starts(self):
        self.change("crates/rt_app/src/main.rt")
        for delay in range(0, 400, 20):
            with self.subTest(f"after {delay} ms"), subprocess.Popen(
                    [self.top / "yarib", "run", "x"], **self.waiting("rt_app")) as running:
                time.sleep(delay / 1000)
                with contextlib.suppress(ProcessLookupError):
                    os.killpg(running.pid, signal.SIGINT)
                stdout, stderr = running.communicate()
                self.assertEqual((b"Traceback" in stderr, stdout), (False, b""), stderr)

    # Catches a launcher that is interrupted between two of its commands and leaves its builder running, goes on, or starts the
    # program.
    def test_interrupted_before_each_command(self):
        self.change("crates/rt_app/src/main.rt")
        hook, noted = self.work / "each_command", self.work / "commands"
        hook.write_text(EACH_COMMAND)
        names, wrong = {"BASH_ENV": hook, "COMMANDS": noted, "STOP": "none"}, []
        with self.begun_build("rt_app", **names):
            before = noted.read_text().splitlines()
        self.assertEqual(before[-1], 'wait "$!"')
        for number, command in enumerate(before):
            names["STOP"] = str(number)
            with subprocess.Popen([self.top / "yarib", "run", "x"], **self.waiting("rt_app", **names)) as running:
                try:
                    ended = running.communicate(timeout=60)
                except subprocess.TimeoutExpired:
                    os.killpg(running.pid, signal.SIGKILL)
                    ended = "the builder still runs"
            # Before the first trap bash has its own way.
            if running.returncode not in (130, -signal.SIGINT) or ended != (b"", b""):
                wrong.append((command, running.returncode, ended))
        self.assertEqual(wrong, [])


if __name__ == "__main__":
    unittest.main()

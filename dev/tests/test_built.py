"""What counts as built was proved: dev/build/build with the real prover, on a repository with a single crate of one file. Needs
the toolchain, and about half a minute of processor time. The tests of the launcher use a stub of the prover."""
import os
import pathlib
import shutil
import signal
import subprocess
import time
import unittest

from dev.crates import TOP
from dev.testing import TestCase, needs_command

PROVED = True
RIGHT = """\
#![tactic(auto)]
ghost use Rattle.std.specs.Prelude.{◌≡◌};

/// Returns its argument.
#[unsafe(no_mangle)]
pub extern "C" fn one_same(number: u32) -> u32
    ensures { result ≡ number }
{
    number
}
"""
WRONG = RIGHT.replace("    number\n", "    0\n")
CALLER = "unsigned one_same(unsigned); int main(void) { return one_same(7); }\n"


@needs_command("rt", "gcc", "taskset", "setpriv")
class Built(TestCase):
    def setUp(self):
        self.top = self.folder / "repository"
        shutil.copytree(TOP / "dev", self.top / "dev", ignore=shutil.ignore_patterns("__pycache__", "tests"))
        self.source, self.log = self.top / "crates/one/src/lib.rt", self.top / "out/build/one.log"
        self.write({"repository/crates.txt": "one staticlib:\n", "repository/crates/one/src/lib.rt": RIGHT})
        self.build = self.top / "dev/build/build"

    def begin(self):
        """Returns a build whose prover is at work, and the prover's number."""
        build = subprocess.Popen([self.build, "one"], stdout=subprocess.PIPE, stderr=subprocess.PIPE, text=True)
        self.addCleanup(build.communicate)
        while build.poll() is None:
            for child in self.call("cat", *pathlib.Path(f"/proc/{build.pid}/task").glob("*/children")).stdout.split():
                if "rattle\0build" in self.call("cat", f"/proc/{child}/cmdline").stdout:  # it may have ended
                    return build, int(child)
            time.sleep(0.01)
        self.fail(build.communicate())

    def assert_ready(self, path):
        """Fails unless this product counts as built, or none if it is None."""
        self.assert_ended(self.call(self.build, "--ready", "one"), f"{path}\n" if path else "", "", 0 if path else 3)

    # Catches a build that counts a source as proved that is saved while its crate is proved, uses what was built of another
    # text, or loses it before the text is restored.
    def test_source_saved_meanwhile(self):
        build, _ = self.begin()
        self.source.write_text(WRONG)
        stdout, stderr = build.communicate()
        self.assertEqual(build.returncode, 0)
        self.assertIn("one is proved", stderr)
        self.write({"caller.c": CALLER})
        self.assert_ended(self.call("gcc", "caller.c", stdout.strip(), "-o", "caller"))
        self.assert_ended(self.call(self.folder / "caller"), returncode=7)
        self.assert_ready(None)
        ended = self.call(self.build, "one")
        self.assert_ended(ended, "", None, 1)
        self.assertIn("one is not proved", ended.stderr)
        self.assertIn("ensures", self.log.read_text())
        self.assert_ready(None)
        self.source.write_text(RIGHT)
        self.assert_ready(stdout.strip())

    # Catches a build that counts as built what a killed prover leaves.
    def test_killed_prover(self):
        build, prover = self.begin()
        os.kill(prover, signal.SIGKILL)
        stdout, stderr = build.communicate()
        self.assertEqual((build.returncode, stdout), (1, ""))
        self.assertIn("one is not proved", stderr)
        self.assert_ready(None)

    # Catches a build whose bytes depend on the directory, the user, the umask, the time zone or the processors.
    def test_the_same_bytes_elsewhere(self):
        first = pathlib.Path(self.call(self.build, "one").stdout.strip())
        elsewhere = self.folder / "another place"
        shutil.copytree(self.top, elsewhere, ignore=shutil.ignore_patterns("out"))
        again = ["taskset", "-c", str(min(os.sched_getaffinity(0))), elsewhere / "dev/build/build", "one"]
        if os.geteuid() == 0:
            for path in (elsewhere, *elsewhere.rglob("*")):
                os.chown(path, 65534, 65534)
            self.folder.chmod(0o755)
            again = ["setpriv", "--reuid=65534", "--regid=65534", "--clear-groups", *again]
        ended = self.call(*again, env=os.environ | {"TZ": "Asia/Tokyo", "LANG": "C", "TMPDIR": "/tmp"},
                          preexec_fn=lambda: os.umask(0o077))
        self.assertEqual(ended.returncode, 0, ended.stderr)
        self.assertIn("one is proved", ended.stderr)
        second = pathlib.Path(ended.stdout.strip())
        self.assertEqual((second.name, second.read_bytes()), (first.name, first.read_bytes()))


if __name__ == "__main__":
    unittest.main()

"""Queries and comparisons of 64 files on 1, 16 and 64 processors, most of which aren't there: all print the same.

The machine's processors decide how many tables a query has. On four there are at most four, and no other test would
notice a union of tables that refuses its tenth table."""
import random
import re
import tempfile
import unittest

from dev.models.table_model import dotted
from dev.testing import is_unproved
from tests.cases import ProgramCase, prefix_of

NEEDS = {"program"}
PROVED = True

FILES, ROUTES = 64, 1_500
# A further thread pays for this many bytes of feed files: to execute them, and to read them or compare their tables
# (crates/rt_app/src/program/threads.rt).
BYTES_TO_EXECUTE, BYTES_TO_READ = 1 << 18, 1 << 20
NAMES = " ".join(f"f{feed}.feed" for feed in range(1, FILES + 1))
# Sides share the processors by their bytes: the old one has over nine of sixteen.
NEW = "f1.feed f2.feed f4.feed f61.feed f62.feed f63.feed"
SIDES = " ".join(f"f{feed}.feed" for feed in range(1, FILES - 3)) + f" -- {NEW}"
OF_TABLE = ("", "--best", "--json", "--csv", "--names", "--count", "--best --total", "--within 10.20.0.0/14",
            "--covering 10.20.30.0/24", "--exact 10.0.7.0/24", "--feed 64 --feed 3 --best", "--without 64 --without 5")
OF_LOOKUP, OF_DIFF = ("", "--all", "--all --json", "--names"), ("", "--by route --names", "--count", "--prefixes --csv")
QUERIES = [*((f"table {options}", NAMES) for options in OF_TABLE),
           *((f"lookup {options}", f"--addresses asked.txt {NAMES}") for options in OF_LOOKUP),
           *((f"diff {options}", SIDES) for options in OF_DIFF)]


def feed_text(choice, feed):
    """Returns a feed of random routes, with comments up to a little more than a thread's share."""
    lines, prefixes = [], set()
    while len(prefixes) < ROUTES:
        length = choice.choice((8, 12, 14, 16, 20, 24, 24, 24, 28, 32))
        prefix = prefix_of((10 << 24) + (choice.randrange(64) << 16) + choice.randrange(1 << 16), length)
        if prefix not in prefixes:
            prefixes.add(prefix)
            lines.append(f"add {prefix} {choice.randrange(4)} 192.0.2.{choice.randrange(1, 6)}\n")
    comments = (BYTES_TO_EXECUTE - sum(map(len, lines))) // 128 + 2
    return "".join(lines) + ("#" * 127 + "\n") * comments


class Processors(ProgramCase):
    @classmethod
    def setUpClass(cls):
        """Makes the files once for all tests."""
        if is_unproved():
            raise unittest.SkipTest("nothing can be loaded before a program with AddressSanitizer")
        choice = random.Random(64)
        cls.files = {f"f{feed}.feed": feed_text(choice, feed) for feed in range(1, FILES + 1)}
        addresses = (dotted((10 << 24) + choice.randrange(1 << 22)) for _ in range(2_000))
        cls.files["asked.txt"] = "".join(f"{address}\n" for address in addresses)

    def ended_on(self, processors, words):
        """Returns how a call ends on this many processors, and how many threads it starts."""
        with tempfile.TemporaryFile() as threads:
            settings = {"PROCESSORS": str(processors), "THREADS_TO": str(threads.fileno())}
            ended = self.yarib(*words.split(), env=self.preloaded("tests/processors.c") | settings,
                               pass_fds=[threads.fileno()])
            return ended, threads.tell()

    def assert_same(self, words):
        """Compares a call on more processors with that on one, which starts no thread, and its threads with the shares:
        each share of the files has a table."""
        self.write(self.files)
        wanted, threads = self.ended_on(1, words)
        self.assertEqual((threads, wanted.stderr), (0, ""))
        self.assertIn(wanted.returncode, (0, 1))
        self.assertNotEqual(wanted.stdout, "")
        of_all = FILES * BYTES_TO_EXECUTE
        for processors in (16, 64):
            with self.subTest(f"{processors} processors"):
                ended, threads = self.ended_on(processors, words)
                self.assert_ended(ended, wanted.stdout, "", wanted.returncode)
                share = BYTES_TO_READ if words.startswith("diff") else BYTES_TO_EXECUTE
                reading, executing = (min(processors, of_all // each) - 1 for each in (BYTES_TO_READ, share))
                self.assertGreaterEqual(threads, reading + executing)


for query, files in QUERIES:
    setattr(Processors, "test_" + "_".join(re.findall(r"\w+", query)),
            lambda self, words=f"{query} {files}": self.assert_same(words))

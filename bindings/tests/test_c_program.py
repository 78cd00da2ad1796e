"""The library for C beside the program: random feeds have the same output, and the same lines load."""
import re

from bindings.tests.library import COUNT, LibraryCase, library
from bindings.tests.random_feeds import random_feed, random_lines
from dev.testing import needs_command

NEEDS = {"library", "program"}

SEEDS = range(12)
LIMITS = (1, 5, 1_000_000)


@needs_command("make")
class Reports(LibraryCase):
    """Random feeds through C, with and without a journal, print what the program prints."""

    def compare(self, test, limit, kind, program, **settings):
        """Runs a feed through C, whose output is the program's and the number of comparisons."""
        ended = self.call(test, "a.feed", str(limit), kind, **settings)
        found = COUNT.search(ended.stdout)
        self.assertIsNotNone(found, "no number of comparisons")
        self.assert_ended(ended._replace(stdout=ended.stdout[: found.start()]), program.stdout, "", program.returncode)
        self.count(int(found[1]))

    def test_static(self):
        test = self.build("report")
        for seed in SEEDS:
            self.write({"a.feed": random_feed(seed)})
            limit = LIMITS[seed % len(LIMITS)]
            program = self.yarib("run", "--limit", str(limit), "a.feed")
            for kind, name in (("0", "plain"), ("1", "journaled")):
                with self.subTest(f"seed {seed}, {name}"):
                    self.compare(test, limit, kind, program)

    def test_shared(self):
        test = self.build("report", words=["OPTIONS_report=", f'LINKED_report="{library() / "libyarib.so"}"'])
        self.write({"a.feed": random_feed(99)})
        self.compare(test, 65536, "0", self.yarib("run", "a.feed"), env={"LD_LIBRARY_PATH": str(library())})


@needs_command("make")
class Lines(LibraryCase):
    """The program finds no fault in exactly the lines that load."""

    def compare(self, version, first):
        lines = random_lines(8, 3000)
        self.write({"a.feed": first + "".join(f"{line}\n" for line in lines)})
        replies = re.findall(r"^1:\d+ (.*)$", self.yarib("run", "a.feed").stdout, re.M)
        self.assertEqual(len(replies), len(lines))
        expected = "".join(f"{int(not reply.startswith('fault'))}\n" for reply in replies)
        text = "".join(f"{line}\n" for line in lines)
        found = self.run_counted(self.build("files"), "lines", version, input=text, stdout=r"([01]\n)*", least=3000)
        self.assertEqual(found, expected)

    def test_version_1(self):
        self.compare("1", "")

    def test_version_2(self):
        self.compare("2", "version 2\n")

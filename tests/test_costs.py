"""The costs of a run: how its feeds wait for each other, and its processor time compared with a baseline in the same
run.

No clause says how long anything takes. Waits are counted (tests/waits.c); other work on the machine changes these
counts little. Processor time is compared with a baseline in the same run, which other work slows down by the same
factor: passages of a mutex in C, or what the same call has used before its first output. Each bound is one and a half
to three times the measured value, and holds for the best of some rounds; a mutant stays below it in none."""
import random
import struct
import subprocess
import tempfile
from typing import NamedTuple

from dev.models.table_model import dotted
from dev.testing import TestCase, compiled, environment, needs_command

NEEDS, PROVED, ALONE = {"program"}, True, True
WORDS = 1000
# A word's counts in tests/waits.c: its address, the counts of Waits, and its thread.
COUNTS = struct.Struct("q4Qq")
ROUNDS = 30


class Waits(NamedTuple):
    """The waits of a word, a place's bell: short ones at the door, longer ones in the lock, and how often it rang; and
    the strange ones: a place waits only at its own bell, and wakes only others."""
    naps: int
    sleeps: int
    wakes: int
    strange: int


class Costs(NamedTuple):
    """The waits of each place that waited at all, in the order of the places, and nanoseconds of processor time."""
    waits: list
    before_output: int
    of_output: int


@needs_command("gcc")
class CostCase(TestCase):
    def setUp(self):
        self.varies()

    def costs(self, *words, returncode=0, **settings):
        """Returns the costs of a call, with a counter of its waits, which has these settings."""
        with tempfile.TemporaryFile() as kept:
            kept.truncate(16 + COUNTS.size * WORDS)
            variables = environment() | self.preloaded("tests/waits.c") | {"COUNT_IN": str(kept.fileno())} | settings
            ended = self.yarib(*words, stdout=subprocess.DEVNULL, env=variables, pass_fds=[kept.fileno()])
            kept.seek(0)
            data = kept.read()
        self.assert_ended(ended, "", "", returncode)
        first, last = struct.unpack_from("2Q", data)
        rows = sorted(row for row in COUNTS.iter_unpack(data[16:]) if row[0])
        waits = [Waits(*row[1:-1]) for row in rows]
        # Waits at another bell or for another number, and wakes at the own bell.
        self.assertEqual(sum(place.strange for place in waits), 0, "strange waits")
        return Costs(waits, first, last - first)

    def dumps(self, files, lines):
        """Runs `files` files with `lines` `dump`s each, one command at a time."""
        self.write({"dumps.feed": "dump\n" * lines})
        return self.costs("run", "--batch", "1", *["dumps.feed"] * files)

    def assert_at_most(self, name, found, bound):
        with self.subTest(name):
            self.assertLessEqual(found, bound)


class WaitsOfFiles(CostCase):
    # Catches a place that naps although nobody else is there.
    def test_one_file_waits_for_nobody(self):
        self.assertEqual(self.dumps(1, 100_000).waits, [])

    # Catches a place that sleeps or naps at another's bell, or while its bell has another number than 1 or 0: `strange
    # waits`.
    def test_each_place_has_its_own_bell(self):
        """Files that meet one another at each entry, and a crowd: each thread waits at a single word of its own. Some
        nap, some sleep, and some are woken."""
        self.write_meeting(dumps=100_000, seldom=0)
        for _ in range(ROUNDS):
            meeting = self.costs("run", "--batch", "1", "meeting.feed", "adds.feed", HOLD_UP="1").waits
            waits = meeting + self.dumps(8, 4_000).waits
            kinds = [sum(place[kind] for place in waits) for kind in range(3)]
            if min(kinds) > 0:
                break
        self.assertGreater(min(kinds), 0, kinds)

    # Catches a place that naps inside, or at each entry.
    def test_a_crowd_seldom_naps(self):
        """Eight files that enter all the time. After a nap a file finds the door free for as long as others nap: at
        most one of 20 entries naps."""
        naps = min(sum(place.naps for place in self.dumps(8, 4_000).waits) for _ in range(3))
        self.assertLessEqual(naps, 32_000 / 20)

    # Catches a lock whose places never nap, or look only at one side of the root: `file 1`, `file 2`.
    def test_each_file_naps_at_the_door(self):
        """Each of two files naps at some time if it meets the other one again and again."""
        self.write_meeting(dumps=1_000_000, seldom=0)
        for file, names in ((1, ["meeting.feed", "adds.feed"]), (2, ["adds.feed", "meeting.feed"])):
            with self.subTest(f"file {file}"):
                self.assertTrue(any(self.met(file, *names, HOLD_WAKES="1").naps for _ in range(ROUNDS)), "no naps")

    # Catches a place that never forgets contention.
    def test_contention_is_forgotten(self):
        """A file that has met the other one 20 times in a row meets it now and then, and doesn't nap for that."""
        self.write_meeting(dumps=3_000_000, seldom=70)
        # Other work can keep the files apart, or hold one up at the door. Who never forgets naps at each meeting, in
        # every round.
        for _ in range(8):
            waits = self.met(1, "meeting.feed", "adds.feed")
            if waits.naps < 40 and waits.sleeps >= 60:
                return
        self.fail(f"file 1 hasn't forgotten the crowd: in the last round {waits}")

    def write_meeting(self, dumps, seldom):
        """Writes a long file of `dump`s, and one of `add`s. The `add`s are 20 in a row and then some more, so rarely
        that the other file executes over a thousand commands in between."""
        adds = [f"add 10.{at >> 8}.{at & 255}.0/24 1 192.0.2.1\n" for at in range(20 + seldom)]
        self.write({"meeting.feed": "dump\n" * dumps,
                    "adds.feed": "".join(adds[:20]) + "".join("#\n" * 100_000 + add for add in adds[20:])})

    def met(self, file, *names, **settings):
        """Returns the waits of one of two files, with each `add` held up inside until the other file waits."""
        waits = self.costs("run", "--batch", "1", *names, HOLD_UP="1", **settings).waits
        return waits[file - 1] if len(waits) == 2 else Waits(0, 0, 0, 0)


class ProcessorTime(CostCase):
    # Catches an entry that takes microseconds more, asleep or not: `a passage alone`.
    def test_passages_of_one_file(self):
        """The passages of one file are what its commands one at a time take beyond the same in batches of 1,024. They
        are compared with passages of a mutex."""
        lines, passages, batches = 200_000, [], []
        self.write({"dumps.feed": "dump\n" * lines})
        mutexes = compiled(self.folder, "tests/mutex.c", "-pthread")
        for _ in range(5):
            one, batched = (self.costs("run", "--batch", batch, "dumps.feed").before_output / lines
                            for batch in ("1", "1024"))
            mutex = float(self.call(mutexes, "1000000").stdout)
            passages.append((one - batched) / mutex)
            batches.append(batched / mutex)
        self.assert_at_most("a passage alone", min(passages), 20)
        self.assert_at_most("a line in a batch", min(batches), 25)

    # Catches a comparison whose cursors start again at each answer: `the answers of a comparison`.
    def test_outputs(self):
        """The time that a call takes from its first output on, divided by the time before: the runs of its files."""
        choice = random.Random(56)
        low = [dotted(at << 9) for at in range(3_000)]
        high = [dotted(0x0100_0000 + (place << 8)) for place in choice.sample(range(1 << 20), 100_000)]
        for side in (1, 2):
            adds = [f"add {base}/24 1 192.0.2.{side}\n" for base in low]
            adds += [f"add {base}/24 1 192.0.2.1\n" for base in high]
            self.write({f"side{side}.feed": "".join(adds)})
        self.write({"addresses.txt": "".join(f"{base}\n" for base in choice.sample(high, len(high)))})
        for name, returncode, words, bound in (
            # The first output has some of the low routes that differ; none of the others does, so nothing is printed.
            ("the answers of a comparison", 1, ["diff", "side1.feed", "--", "side2.feed"], 0.4),
            ("the answers of look-ups", 0, ["lookup", "--addresses", "addresses.txt", "side1.feed"], 0.8),
            ("the rows of a table", 0, ["table", "side1.feed"], 0.18),
            ("what a run prints", 0, ["run", "--batch", "256", "side1.feed"], 0.2),
        ):
            costs = [self.costs(words[0], "--limit", "200000", *words[1:], returncode=returncode) for _ in range(3)]
            self.assert_at_most(name, min(one.of_output / one.before_output for one in costs), bound)

    # Catches a program that builds a forwarding table for a single address, or builds one again for each of a few: `1
    # addresses`, `1000 addresses`.
    def test_few_addresses(self):
        """The time of look-ups of few addresses in few routes, with the run, divided by the time of listing a single
        prefix. They use no forwarding table; building one takes the time of many such runs."""
        self.write({"few.feed": "".join(f"add {dotted(at << 12)}/24 1 192.0.2.1\n" for at in range(1_000))})
        listed = self.least_time("table", "--exact", "0.0.0.0/24", "few.feed")
        for count, bound in ((1, 2), (1_000, 4)):
            self.write({"addresses.txt": "".join(f"{dotted(at << 12)}\n" for at in range(count))})
            found = self.least_time("lookup", "--addresses", "addresses.txt", "few.feed")
            self.assert_at_most(f"{count} addresses", found / listed, bound)

    def least_time(self, *words):
        return min(sum(self.costs(*words)[1:]) for _ in range(5))

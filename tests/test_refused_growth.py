"""Refuses each memory request of `yarib` in turn, and compares the output with a plain model. It runs for minutes, so
it is left out unless YARIB_LARGE is set.

The whole output is compared with a model that leaves out what was refused, and each call must have met its kinds of
refusal. The requests are refused before the C library sees them, so the launchers' settings change nothing here. ./test
refuses a few requests of some runs (tests/test_refused_few.py), and each of the libraries' calls
(tests/test_refused_calls.py)."""
import os
import unittest

from dev.models.table_model import MAX_FEEDS
from dev.testing import needs_command
from tests.refusing import OUT_OF_MEMORY, SIX_COMMANDS, RefusedCase, agree, check_run, check_same, check_shown
from tests.texts import own_text

NEEDS, PROVED = {"program"}, True
RUN, SHOWN = {"run_texts", "a line of a run"}, {"lookup or table", "a command of a look-up or list"}
TEXTS = {"one_file": [SIX_COMMANDS], "three_files": [own_text(feed) for feed in range(1, 4)],
         "most_files": [own_text(feed) for feed in range(1, MAX_FEEDS + 1)]}
ADDRESSES = "10.0.0.1\nfrob\n" + "".join(f"{feed}.2.3.4\n" for feed in range(1, MAX_FEEDS + 1))


def check_refused_words(ending, ample, kinds):
    """A command line that is refused anyway."""
    if ending[:3] != OUT_OF_MEMORY:
        agree(ending[:3], ample[:3], "all of it")


@unittest.skipUnless(os.environ.get("YARIB_LARGE"), "it runs for minutes; YARIB_LARGE=1 includes it")
@needs_command("gcc")
class Growth(RefusedCase):
    def assert_refused(self, words, compare, kinds):
        self.assert_each_refused(words, compare)
        self.assertEqual(self.kinds, kinds)

    def assert_texts(self, name, words, others=(), *, compare=check_shown, kinds=SHOWN):
        """Calls the program with these words, the files of the texts with this name, and others."""
        self.write({"addresses.txt": ADDRESSES, "other1.feed": SIX_COMMANDS})
        self.assert_refused([*words, *self.write_feeds("own", TEXTS[name]), *others], compare, kinds)

    def test_a_replay(self):
        self.assert_refused(["replay", "--levels", "1", "0", "0", "0", "0"], check_same, {"fault F3", "fault P3"})

    def test_a_replay_of_6_levels(self):
        self.assert_refused(["replay", "--levels", "6", *["5", "63"] * 30], check_same, {"fault F3", "fault P3"})

    def test_the_help(self):
        self.assert_refused(["run", "--help"], check_same, {"fault F3"})

    def test_a_refused_command_line(self):
        self.assert_refused(["walk"], check_refused_words, set())


def of_texts(*words, **settings):
    return lambda self: self.assert_texts(*words, **settings)


for texts in TEXTS:
    for call, words, others in (
        ("a_look_up_in", ["lookup", "--addresses", "addresses.txt"], []),
        ("all_that_covers_in", ["lookup", "--all", "--addresses", "addresses.txt"], []),
        ("the_table_of", ["table", "--best"], []),
        ("a_comparison_with_one_of", ["diff"], ["--", "other1.feed"]),
    ):
        setattr(Growth, f"test_{call}_{texts}", of_texts(texts, words, others))
    for batch in ("1", "3"):
        setattr(Growth, f"test_{texts}_in_batches_of_{batch}",
                of_texts(texts, ["run", "--batch", batch], compare=check_run(TEXTS[texts]), kinds=RUN))

"""Calls with failing allocations, each request in turn, and comparisons of their output."""
import collections
import itertools
import os
import re

from dev.models.table_model import run_text
from dev.testing import TestCase, environment, program

# How a call ended, whether one of its requests was refused, and the number of threads that it wasn't given.
Ending = collections.namedtuple("Ending", "returncode stdout stderr refused threads")
OUT_OF_MEMORY = (5, "", "yarib: fault F3\n")
SIX_COMMANDS = """add 10.0.0.0/8 10 192.0.2.1
add 10.1.0.0/16 10 192.0.2.2
add 10.2.0.0/16 10 192.0.2.3
withdraw 10.1.0.0/16
lookup 10.1.2.3
dump
"""


class Wrong(Exception):
    """A call printed something that the model doesn't explain."""


def agree(found, wanted, what):
    if found != wanted:
        raise Wrong(f"{what}: {found!r} in place of {wanted!r}")


class RefusedCase(TestCase):
    """Calls of the program, or of another one, with refused requests. `self.kinds` are the kinds of refusal so far."""

    def setUp(self):
        self.kinds = set()

    def write_feeds(self, name, texts):
        """Writes a file for each text, and returns their names."""
        names = [f"{name}{place}.feed" for place in range(1, len(texts) + 1)]
        self.write(dict(zip(names, texts)))
        return names

    def refused(self, words, at, rest=False, threads=True, command=None):
        """Returns how a call ends that gets no memory for the request with this number and, if `rest`, for all later
        ones; 0 refuses none. Without `threads` it gets no thread either. `command` replaces the program."""
        reading, writing = os.pipe()
        variables = {"REFUSE_AT": str(at), "REFUSE_REST": str(int(rest)), "REFUSE_TELL": str(writing),
                     "REFUSE_THREADS": str(int(not threads))}
        try:
            ended = self.call(command or program(), *words, pass_fds=[writing],
                              env=environment() | self.preloaded("tests/refuse.c") | variables)
        finally:
            os.close(writing)
            with open(reading, "rb") as pipe:
                letters = pipe.read()
        return Ending(*ended, b"r" in letters, letters.count(b"t"))

    def refuse_each(self, words, compare, rest, numbers=itertools.count, command=None):
        """Refuses the requests with these numbers in turn (and if `rest`, all later ones), until a call has no request
        with the number. Fails unless `compare` agrees with each ending. Returns how many were refused."""
        ample = self.refused(words, 0, command=command)
        for tried, at in enumerate(numbers(1)):
            ending = self.refused(words, at, rest, command=command)
            try:
                compare(ending, ample, self.kinds)
            except Wrong as wrong:
                self.fail(f"request {at} refused{' and all later ones' if rest else ''}: {wrong}\n{ending}")
            if not ending.refused:
                return tried

    def assert_each_refused(self, words, compare, numbers=itertools.count, command=None):
        """Refuses each request by itself, and then with all later ones."""
        for rest in (False, True):
            self.assertGreater(self.refuse_each(words, compare, rest, numbers, command), 0)


def answered_addresses(stdout):
    """Returns the addresses that a look-up has answered, in order, each once for all its lines."""
    lines = re.findall(r"^([\d.]+) (?:route|no route|also)\b", stdout, re.MULTILINE)
    return [addr for at, addr in enumerate(lines) if at == 0 or addr != lines[at - 1]]


def check_shown(ending, ample, kinds):
    """A look-up or list of the table: the output is unchanged, or nothing is printed or reported, or commands were
    refused."""
    if ending[:3] == OUT_OF_MEMORY:
        kinds.add("lookup or table")
        return
    if ending.returncode != 5:
        agree(ending[:3], ample[:3], "all of it")
        return
    agree(answered_addresses(ending.stdout), answered_addresses(ample.stdout), "the addresses that are answered")
    reported = re.search(r"^yarib: .*: commands failed, out of memory: [1-9]\d*$", ending.stderr, re.M)
    agree(reported is not None, True, "that refused commands are reported")
    kinds.add("a command of a look-up or list")


def check_run(texts):
    """A run of the program over these texts. The replies to a text don't depend on the other feeds."""
    faulty = 2 if any("frob" in text for text in texts) else 0

    def compare(ending, ample, kinds):
        if ending[:3] == OUT_OF_MEMORY:
            kinds.add("run_texts")
            return
        agree(ending.stderr, "", "standard error")
        refused = {tuple(map(int, pair)) for pair in re.findall(r"^(\d+):(\d+) refused$", ending.stdout, re.MULTILINE)}
        agree(ending.returncode, 5 if refused else faulty, "the status")
        agree(ending.stdout, run_text(texts, refused), "the run's text")
        if refused:
            kinds.add("a line of a run")

    return compare


def check_same(ending, ample, kinds):
    """A call of the program that has all or nothing."""
    if (ending.returncode, ending.stdout) == (5, "") and ending.stderr in ("yarib: fault F3\n", "yarib: fault P3\n"):
        kinds.add(ending.stderr[7:-1])
        return
    agree(ending[:3], ample[:3], "all of it")

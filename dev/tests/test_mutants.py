"""Tests of dev/mutants/mutants on mutants of a small crate: its verdict on each. Among them are equivalent ones, by an
answer and by a named goal, one that can't be read and is in a round with another, and one whose function calls another
that is refused in the same round. A proof that names what a mutant took away doesn't refuse it, even if the prover
breaks the line that says so. No listed mutant depends on the text of another function, and no public clause is without
a page, a mutant or a caller. dev/tests/test_kept.py is about kept verdicts."""
import functools
import os
import pathlib
import re
import tempfile
import threading
from importlib.machinery import SourceFileLoader
from importlib.util import module_from_spec, spec_from_loader
from unittest import mock

from dev.crates import CRATES, TOP, all_crates
from dev.mutants.mutant_lists import listing_crates, mutants_of
from dev.rust_sources import Source
from dev.statements import clauses
from dev.testing import TestCase, call, needs_command

# It calls the prover.
PROVED = True

MUTANTS_SCRIPT = TOP / "dev/mutants/mutants"
SOURCE = """\
//! A number twice, and four times.
#![tactic(auto)]

ghost use Rattle.std.specs.Prelude.{◌≡◌, ◌+◌, ◌*◌, ◌<◌};

/// Twice the number.
pub fn twice(n: u64) -> u64
    requires { n < 1000 }
    ensures { result ≡ n + n }
{
    n + n
}

/// Four times the number.
pub fn four_times(n: u64) -> u64
    requires { n < 100 }
    ensures { result ≡ (n + n) + (n + n) }
{
    twice(twice(n))
}

/// Four times the number, by a name with which the prover breaks the lines of its report.
pub fn four_times_the_number_as_twice_the_number_and_then_twice_what_that_is(n: u64) -> u64
    requires { n < 100 }
    ensures { result ≡ (n + n) + (n + n) }
{
    let once = twice(n);
    twice(once)
}

/// Twice the number, by the same text as `twice`.
pub fn double(n: u64) -> u64
    requires { n < 1000 }
    ensures { result ≡ n + n }
{
    n + n
}

/// The least number.
pub const LEAST: u64 = 1;

/// A number.
#[derive(Clone, Copy)]
pub struct Number(pub u64);

impl Number {
    /// Twice the number, by the same text as `double`.
    pub fn twice(self) -> u64
        requires { self.0 < 1000 }
        ensures { result ≡ self.0 + self.0 }
    {
        let n = self.0;
        n + n
    }

    /// The least number.
    pub fn least() -> u64
        ensures { result ≡ 1 }
    {
        LEAST
    }
}

/// What has a number.
pub trait Counted {
    /// The number.
    fn count(&self) -> u64
        ensures { result ≡ 1 };
}

impl<T> Counted for T {
    /// One, for any type.
    fn count(&self) -> u64
        ensures { result ≡ 1 }
    {
        1
    }
}

/// Twice the number of any type.
pub fn twice_counted<T>(one: &T) -> u64
    ensures { result ≡ 2 }
{
    twice(one.count())
}
"""
# An answer to a goal that the prover would prove by itself.
ANSWERS = """\
use Rattle.std.proofs.Common.{rules}
use Rattle.small.proofs.four_times.Goals as goal

pub returns : goal.returns
returns c = search rules
"""
LONG = "four_times_the_number_as_twice_the_number_and_then_twice_what_that_is"
# Answers that name a call, and answer a goal of another.
LONG_ANSWERS = f"""\
use Rattle.std.proofs.Common.{{arith}}
use Rattle.small.proofs.{LONG}.Goals as goal

pub twice-requires : goal.twice-requires
twice-requires c = omega (arith, c.twice-once.ensures, c.requires)

pub returns : goal.returns
returns c = rw c.twice-once.ensures at c.twice.ensures
"""
REFUSED, OLD = "refused, as it must be: ", "BAD MUTANT: an 'old:' text is in"
GONE = "BAD MUTANT: a proof names what it took away"
BODY, HALF = "{⏎    n + n⏎}", "{⏎    n⏎}"
# For each mutant: its old and new text, the function that has to refuse it, and the beginning of its line in the
# output.
MUTANTS = {
    "answers-the-number": (BODY, HALF, "twice", REFUSED),
    "answers-the-number-by-its-goal": (BODY, HALF, "twice: returns", REFUSED),
    "calls-a-method-of-any-type": ("twice(one.count())", "2000 + one.count()", "twice_counted: returns", REFUSED),
    "changes-another-function": ("twice(twice(n))", "twice(n)", "twice", f"{OLD} twice 0 times"),
    "four-times-given-up": ("twice(twice(n))", "twice(n)", "four_times", REFUSED),
    "has-no-function": (BODY, HALF, "thrice", f"{OLD} thrice 0 times"),
    "in-a-method-of-the-same-name": ("        n + n⏎", "        n⏎", "Number::twice", REFUSED),
    "in-the-second-of-two-equal-texts": ("    n + n⏎", "    n⏎", "double", REFUSED),
    "leaves-no-function": ("pub fn twice", "pub fn thrice", "twice", "BAD MUTANT: it leaves no function twice"),
    "names-a-call-that-is-gone": ("let once = twice(n);⏎    twice(once)", "twice(n)", f"{LONG}: returns", GONE),
    "names-only-calls-that-are-there": ("    twice(once)", "    twice(n)", f"{LONG}: returns", REFUSED),
    "outside-functions": ("LEAST: u64 = 1", "LEAST: u64 = 2", "Number::least", f"{OLD} Number::least 0 times"),
    "refused-by-a-goal-that-is-gone": ("    twice(once)", "    once", f"{LONG}: twice-requires", GONE),
    "right": ("twice(twice(n))", "twice(n) + twice(n)", "four_times", "NOT REFUSED in four_times"),
    "right-by-its-goal": (BODY, "{⏎    let other = n; n + other⏎}", "twice: returns", "NOT REFUSED in twice"),
    "standing-twice": ("n + n", "n", "twice", f"{OLD} twice 2 times"),
    "unreadable": ("    n + n⏎", "    n +⏎", "twice", "BAD MUTANT: the prover gave no verdict"),
}
# The one that is also tried during an `rt ci` that has proved the crate.
LATE = "answers-the-number"
ALL_FAILED = f"\n0 passed, {len(MUTANTS)} failed\n"


def write_small_crate(folder):
    sections = [f"## {name}\n\n```\nfile: src/lib.rt\nold: {old}\nnew: {new}\nrefused in: {function}\n```\n"
                for name, (old, new, function, _) in sorted(MUTANTS.items())]
    for name, text in {"src/lib.rt": SOURCE, "proofs/four_times/Answers.antt": ANSWERS,
                       f"proofs/{LONG}/Answers.antt": LONG_ANSWERS,
                       "must-fail/mutants.md": "\n".join(["# Mutants\n", *sections])}.items():
        (folder / name).parent.mkdir(parents=True, exist_ok=True)
        (folder / name).write_text(text)


@functools.cache
def tried():
    """Returns how a call ended that tried all mutants of the small crate, and what it said of each."""
    with tempfile.TemporaryDirectory(prefix="small-") as room:
        write_small_crate(pathlib.Path(room) / "small")
        ended = call([MUTANTS_SCRIPT, "--of", room])
    return ended, dict(re.findall(r"^mutant small/([\w-]+): (.*)", ended.stdout, re.M))


@needs_command("rt")
class Verdicts(TestCase):
    """What is said of each mutant of the small crate."""

    def test_each_mutant(self):
        for name, (*_, verdict) in sorted(MUTANTS.items()):
            with self.subTest(name):
                self.assertEqual(tried()[1].get(name, "")[:len(verdict)], verdict)

    def test_their_number(self):
        refused = sum(verdict.startswith("refused") for *_, verdict in MUTANTS.values())
        self.assertEqual(tried()[0].returncode, 1)
        self.assertEqual(tried()[0].stdout.splitlines()[-1], f"{refused} passed, {len(MUTANTS) - refused} failed")

    def during(self, proved, *names):
        """Returns how a call ended, for all mutants or those of these names, during an `rt ci` that has ended and
        printed this of the crate."""
        write_small_crate(self.folder / "small")
        self.write({"printed": proved + "1 passed, 0 failed\n"})
        return self.call(MUTANTS_SCRIPT, *names, "--of", self.folder, "--during", self.folder / "printed")

    # Catches a run during `rt ci` that passes over the mutants of a crate which isn't proved, or never ends.
    def test_during_a_run_that_does_not_prove_the_crate(self):
        ended = self.during("")
        self.assertEqual(ended.stdout.count("NOT TRIED"), len(MUTANTS))
        self.assertTrue(ended.stdout.endswith(ALL_FAILED))

    def test_during_a_run_that_proves_the_crate(self):
        ended = self.during("rt: small proved\n", LATE)
        self.assertEqual(ended.stdout.splitlines()[-2:],
                         [f"mutant small/{LATE}: {tried()[1][LATE]}", "1 passed, 0 failed"])


class Lists(TestCase):
    """The lists of the crates."""

    # Catches mutants whose texts are searched in the whole file, so that an equal loop in another function breaks them.
    def test_function_twice_in_its_file(self):
        for crate in listing_crates():
            with self.subTest(crate):
                for mutant in mutants_of(crate):
                    self.assert_function_may_be_there_twice(mutant)

    def assert_function_may_be_there_twice(self, mutant):
        """Fails if a mutant breaks, or changes another text, with a copy of its function above or below it in the
        file."""
        text = (CRATES / mutant.crate / mutant.file).read_text()
        item = Source(None, text).named(mutant.function)
        start = Source(None, text).offset(item.start)
        copy = "\n".join(item.written()).replace(f"fn {item.name}", f"fn {item.name}_again") + "\n"
        wanted = mutant.changed(text)
        above = wanted[:start] + copy + wanted[start:]
        self.assertEqual(mutant.changed(text[:start] + copy + text[start:]), above, mutant.name)
        self.assertEqual(mutant.changed(text + "\n" + copy), wanted + "\n" + copy, mutant.name)

    def test_list_prints_each_name_once(self):
        for name in ("mutants", "definitions"):
            with self.subTest(name):
                listed = call([TOP / "dev/mutants" / name, "--list"]).stdout.splitlines()
                headings = [f"{name[:-1]} {crate}/{heading}" for crate in all_crates()
                            for file in CRATES.glob(f"{crate}/must-fail/{name}.md")
                            for heading in re.findall(r"^## (.*)", file.read_text(), re.M)]
                self.assertEqual(sorted(listed), sorted(headings))


class Order(TestCase):
    # Catches mutants of the crate that is proved last which wait for those of all others.
    def test_crate_proved_last_is_tried_first(self):
        """Of three crates for a single worker, two are proved while it tries the first."""
        loader = SourceFileLoader("mutants", str(MUTANTS_SCRIPT))
        module = module_from_spec(spec_from_loader("mutants", loader))
        loader.exec_module(module)
        is_begun, are_proved, order = threading.Event(), threading.Event(), []

        def crates_as_proved():
            yield "first"
            is_begun.wait()
            yield from ("second", "last")
            are_proved.set()

        def tried_one(crate):
            order.append(crate)
            is_begun.set()
            are_proved.wait()
            return f"of {crate}"

        with mock.patch.dict(os.environ, RT_JOBS="1"):
            found = module.tried_each(crates_as_proved(), tried_one)
        self.assertEqual(found, {crate: f"of {crate}" for crate in order})
        self.assertEqual(order, ["first", "last", "second"])


@needs_command("rt")
class Clauses(TestCase):
    """What is said of public clauses that nothing has (dev/statements/clauses.py)."""

    def assert_missing(self, *names):
        self.assertEqual([line.partition(": no page")[0] for line in clauses.faults()], list(names))

    # Catches a clause that only a mutant has, and that is lost with it.
    def test_mutant_that_is_dropped(self):
        left = lambda crate: [mutant for mutant in mutants_of(crate) if mutant.name != "shape-of-one-level"]
        with mock.patch.object(clauses, "mutants_of", left):
            self.assert_missing("ya_core::Shape::new.value")

    def test_example_that_is_dropped(self):
        found = clauses.needed()[0] - {"rt_rib::Book::journal.feeds"}
        with mock.patch.object(clauses, "needed", lambda: (found, [])):
            self.assert_missing("rt_rib::Book::journal.feeds")

    def test_export_with_a_requires(self):
        with mock.patch.object(clauses, "REQUIRES", re.compile("fn yarib_hop_counts")):
            said = [line.partition(" and has")[0] for line in clauses.faults()]
        self.assertEqual(said, ["yarib_c::hop_counts::yarib_hop_counts is exported to C,"])

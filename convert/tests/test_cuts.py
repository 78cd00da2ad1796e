"""Tests of samples that are cut: each is refused, or gives the same for each remaining prefix."""
import random
import re

from convert.tests.conversions import CONVERSIONS
from convert.tests.converting import DONE, OTHERWISE, ConverterCase, add_tests, sample

# how often a sample is cut within lines, and at ends of lines
CUTS = 3


class Cuts(ConverterCase):
    """Samples that are cut at random places."""

    def assert_cut(self, command, data, whole):
        """Fails unless cut input is refused, or gives the same routes for each remaining prefix."""
        ended = self.convert(command, data)
        if ended.returncode == DONE and whole:
            taken = choices_of(ended)
            self.assertTrue(taken and all(route == whole.get(prefix) for prefix, route in taken.items()),
                            f"cut behind {data[-60:]!r}: {ended.stderr}")
        else:
            self.assertEqual((ended.returncode, ended.stderr.count("\n")), (1, 1), f"cut behind {data[-60:]!r}: {ended.stderr}")


def choices_of(ended):
    """Returns the lowest preference of each prefix, and its next hop."""
    best = {}
    for text in ended.feeds.values():
        for _, prefix, preference, hop in map(str.split, text.splitlines()[1:]):
            best[prefix] = min(best.get(prefix, (1 << 32, "")), (int(preference), hop))
    return best


def check_cuts_within_lines(test, case):
    """Cut within a line, the input is refused, or what is left is complete."""
    data, draw = sample(case.sample), random.Random(f"within {case.name}")
    ends = {found.end() for found in re.finditer(b"\n", data)}
    whole = choices_of(test.convert(case.command, data)) if has_choices(case) else None
    for _ in range(CUTS):
        test.assert_cut(case.command, data[: draw.choice([at for at in range(1, len(data)) if at not in ends])], whole)


def check_cuts_at_ends_of_lines(test, case):
    """The first route to a prefix is the daemon's choice, so a cut between two lines changes no choice."""
    data, draw = sample(case.sample), random.Random(f"at ends {case.name}")
    ends = [found.end() for found in re.finditer(b"\n", data)]
    whole = choices_of(test.convert(case.command, data))
    for _ in range(CUTS):
        test.assert_cut(case.command, data[: draw.choice(ends[:-1] or [1])], whole)


def has_choices(case):
    """Returns true if the first route to a prefix is the daemon's choice. Elsewhere an input cut after a route is a shorter
    table with another choice."""
    return not (case.command.startswith("bgpdump") or "--exported" in case.command or "--by" in case.command)


USUAL = {f"{case.command.split()[0]} {case.name}": (case,) for case in CONVERSIONS if case.returncode != OTHERWISE}
add_tests(Cuts, "within lines", check_cuts_within_lines, USUAL)
add_tests(Cuts, "at ends of lines", check_cuts_at_ends_of_lines, {name: values for name, values in USUAL.items() if has_choices(*values)})

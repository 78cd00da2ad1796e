"""Tests of BGP's choice by handmade samples, each of which one of the standard's steps decides."""
from convert.tests import choice_samples
from convert.tests.converting import ConverterCase, add_tests, rows_of


class Bgpdump(ConverterCase):
    """The choice that is made of table dumps and updates."""


class Frr(ConverterCase):
    """What follows FRR's choice."""


class Gobgp(ConverterCase):
    """What GoBGP's routes have."""


class Bird(ConverterCase):
    """What follows BIRD's choice."""


def check_sample(test, sample):
    """The sample gives its table, as the standard says."""
    ended = test.converted(sample.command, sample.text)
    table = {}
    for prefix, _, _, _, preference, _, hop in map(str.split, rows_of(ended.files)):
        table.setdefault(prefix, []).append(preference if sample.numbers else hop.removeprefix("192.0.2."))
    test.assertEqual({prefix: " ".join(hops) for prefix, hops in table.items()}, sample.table, f"{sample.standard}; {ended.stderr}")
    test.assertIn(sample.note, ended.stderr)


def add_samples(*cases):
    """Adds a test method for each sample of the daemon that the class is named after."""
    for case in cases:
        add_tests(case, "", check_sample, {sample.name: (sample,) for sample in getattr(choice_samples, case.__name__.upper())})


add_samples(Bgpdump, Frr, Gobgp, Bird)

"""Calls of the program with the memory settings that the launchers make for each subcommand, and feeds for them. With
the C library's default, many threads share several arenas, which matters with many threads and if large pages are
filled."""
from dev.models.table_model import csv_of, dotted
from dev.testing import TestCase, environment, launched


def single_routes(places, next_hop="192.0.2.1"):
    """Returns the text of a feed with a route to each of these addresses."""
    return "".join(f"add {place}/32 1 {next_hop}\n" for place in places)


def apart(count, distance=2):
    """Returns this number of addresses, no two of them adjacent."""
    return [dotted(0x0A00_0000 + distance * at) for at in range(count)]


def printed(form, places, *words):
    """Returns the lines of this form for these places: each place is put between the parts of the form. With --csv the
    header of the command of these words comes first."""
    parts = f"{form}\n".split("{0}")
    return "".join([csv_of(words, ()) if "--csv" in words else "", *(place.join(parts) for place in places)])


class LaunchedCase(TestCase):
    """Each comparison of a call is a subTest with this name."""

    def launched(self, *words, **settings):
        return self.yarib(*map(str, words), env=environment() | launched(words[0]), **settings)

    def assert_prints(self, name, words, stdout, stderr="", returncode=0):
        with self.subTest(name):
            self.assert_ended(self.launched(*words), stdout, stderr, returncode)

    def assert_prints_twice(self, name, words, stdout):
        """Also calls the program with the C library's default memory."""
        self.assert_prints(name, words, stdout)
        with self.subTest(f"{name}, with the C library's default memory"):
            self.assert_ended(self.yarib(*map(str, words), env=environment()), stdout)

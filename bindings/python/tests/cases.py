"""What the tests of Python's binding share: arguments and results of the test vectors, which
dev/models/table_vectors.py describes, and cases that fail if a call never ends."""
import array
import functools
import ipaddress
import os
import pathlib
import random
import signal
import subprocess
import sys
import tempfile
import warnings

from dev.testing import TestCase
import yarib

NETWORK, ADDRESS = ipaddress.IPv4Network, ipaddress.IPv4Address
LAST = (1 << 32) - 1
# The sizes of a binding's pages and lists, and their neighbours.
BORDERS = [size + more for size in (64, 256, 4096) for more in (-1, 0, 1)]


def in_order(route):
    return route.base, route.length, route.pref, route.feed


def sections(kind):
    """Returns the sections of this kind: the words of the first line, and of each other line the words of its call and
    of its answer. dev/models/table_vectors.py describes them."""
    found = []
    for line in pathlib.Path(os.environ["YARIB_VECTORS"]).read_text().splitlines():
        call, is_call, answer = line.partition(" =")
        if is_call:
            found[-1][1].append((call.split(), answer.split()))
        else:
            found.append((call.split(), []))
    return [section for section in found if section[0][0] == kind]


def address_in(word):
    return int(ADDRESS(word))


def prefix_in(word):
    base, length = word.split("/")
    return address_in(base), int(length)


def via_in(word):
    return None if word == "discard" else address_in(word)


@functools.cache
def route_in(word):
    if word == "-":
        return None
    prefix, feed, pref, hop = word.split(",")
    return yarib.Route(*prefix_in(prefix), int(feed), int(pref), via_in(hop))


def routes_in(words):
    return list(map(route_in, words))


def command_in(words):
    """Returns the name of a command and its arguments, as numbers."""
    name, *fields = words
    kinds = [address_in] if name == "lookup" else [prefix_in, int, via_in]
    return name, *(read(field) for read, field in zip(kinds, fields))


def outcome_in(words):
    said, *values = words
    if said == "range":
        return yarib.Outcome("unanswered", 0, None, "bad number")
    if said == "found":
        return yarib.Outcome("found", 0, route_in(*values), None)
    return yarib.Outcome("no route" if said == "none" else said, int(values[0]) if values else 0, None, None)


def commands_in(call, answer):
    """Returns the commands that a call executes, each with its feed and its outcome."""
    name, feed, *words = call
    if name == "apply":
        return [(int(feed), command_in(words), outcome_in(answer))]
    return [(int(feed), command_in([part, *words]), outcome_in([said])) for part, said in zip(("add", "replace"), answer)]


def entry_of(feed, command, outcome):
    """Returns the entry of the journal."""
    name, *fields = command
    kinds = [ADDRESS] if name == "lookup" else [NETWORK, int, lambda via: None if via is None else ADDRESS(via)]
    return yarib.Entry((feed, name, *(form(field) for form, field in zip(kinds, fields))), outcome)


class Drawn(random.Random):
    """Arguments in a random one of the forms that a call accepts."""

    def prefix(self, prefix):
        return self.choice((prefix, list(prefix), NETWORK(prefix), str(NETWORK(prefix))))

    def address(self, address):
        return None if address is None else self.choice((address, ADDRESS(address), str(ADDRESS(address))))

    def command(self, name, *fields):
        forms = [self.address] if name == "lookup" else [self.prefix, int, self.address]
        return name, *(form(field) for form, field in zip(forms, fields))


def route(prefix, feed, preference, via):
    base, length = yarib.prefix_of(prefix)
    return yarib.Route(base, length, feed, preference, None if via is None else int(ADDRESS(via)))


def in_process(code, **environment):
    """Status and outputs of Python code that imports the package, in a process of its own."""
    ended = subprocess.run([sys.executable, "-c", code], env=os.environ | environment, cwd=pathlib.Path(yarib.__file__).parents[1],
                           capture_output=True, text=True, timeout=60)
    return ended.returncode, ended.stdout, ended.stderr


class PythonCase(TestCase):
    """A test in which a warning of Python is an error."""

    def setUp(self):
        self.enterContext(warnings.catch_warnings())
        warnings.simplefilter("error")


class Limited(PythonCase):
    """A test that takes over 10 seconds of processor time fails: a call that never ends is a failure, too."""

    def setUp(self):
        super().setUp()

        def ended(*_):
            raise AssertionError("a call doesn't end")

        self.addCleanup(signal.signal, signal.SIGVTALRM, signal.signal(signal.SIGVTALRM, ended))
        self.addCleanup(signal.setitimer, signal.ITIMER_VIRTUAL, 0)
        self.limit_time()

    def limit_time(self):
        """Gives the test 10 seconds of processor time from now on."""
        signal.setitimer(signal.ITIMER_VIRTUAL, 10)

    def assert_same(self, found, wanted):
        """Compares types, too: 0 is not False, and a route is not a tuple of its fields."""
        found, wanted = repr(found), repr(wanted)
        self.count(1)  # assertEqual would take longer than the call
        if found != wanted:
            self.assertEqual(found, wanted)

    def compare(self, table, draw, call, answer):
        """Compares what a call that reads returns, and calls that follow from it."""
        name, *words = call
        getattr(self, f"compare_{name}")(table, draw, answer, *words)

    def compare_count(self, table, draw, answer):
        self.assert_same(len(table), int(*answer))

    def compare_routes(self, table, draw, answer):
        self.assert_same(table.routes(), routes_in(answer))
        self.assert_same(list(table), routes_in(answer))

    def compare_look_up(self, table, draw, answer, word):
        address, best = address_in(word), route_in(*answer)
        self.assert_same(table.look_up(draw.address(address)), best)
        self.assert_same(draw.address(address) in table, best is not None)
        self.assert_same(table.get(draw.address(address)), best)

    def compare_look_up_all(self, table, draw, answer, word):
        self.assert_same(table.look_up_all(draw.address(address_in(word))), routes_in(answer))

    def compare_look_up_prefix(self, table, draw, answer, word):
        self.assert_same(table.look_up_prefix(draw.prefix(prefix_in(word))), route_in(*answer))

    def compare_select(self, table, draw, answer, part, word, feed, hop, best):
        prefix, routes = prefix_in(word), routes_in(answer)
        chosen = {"feed": int(feed) or None, "best": best == "1", "via": hop if hop == "any" else draw.address(via_in(hop))}
        call = table.routes if part == "all" else functools.partial(getattr(table, part), draw.prefix(prefix))
        self.assert_same(call(**chosen), routes)
        if part == "exact" and chosen == {"feed": None, "best": False, "via": "any"}:
            self.assert_same(draw.prefix(prefix) in table, bool(routes))
            self.assert_same(table.get(draw.prefix(prefix), 7), routes[0] if routes else 7)

    def compare_hop_counts(self, table, draw, answer):
        counts = {via_in(hop): int(count) for hop, count in zip(answer[::2], answer[1::2])}
        self.assert_same(table.hop_counts(), counts)

    def compare_routes_from(self, table, draw, answer, word, pref, feed):
        self.assert_same(list(table.routes_from(draw.prefix(prefix_in(word)), int(pref), int(feed))), routes_in(answer))

    def compare_save(self, table, draw, answer, word):
        """Compares the file of a feed's routes, and what another table loads of it. The last line may lack its end."""
        feed, routes, other = int(word), routes_in(answer), type(table)()
        lines = [f"add {NETWORK(one[:2])} {one.pref} {'discard' if one.via is None else ADDRESS(one.via)}" for one in routes]
        with tempfile.TemporaryDirectory() as folder:
            path = pathlib.Path(folder, "one.feed")
            table.save(path, feed)
            self.assertEqual(path.read_text(), "".join(f"{line}\n" for line in ["version 2", *lines]))
            path.write_text("\n".join(["version 2", *lines]))
            self.assert_same(other.load(path, feed), len(routes))
        self.assert_same(other.routes(), routes)

    def compare_look_up_each(self, table, draw, answer, *words):
        """Compares look-ups of many addresses, by elements, slices and the memory that they lie in."""
        asked, wanted = list(map(address_in, words)), routes_in(answer)
        for addresses in (asked, array.array("I", asked), memoryview(array.array("I", asked)).toreadonly(),
                          map(draw.address, asked)):
            answers = table.look_up_each(addresses)
            self.assert_same([len(answers), list(answers), answers[:]], [len(asked), wanted, wanted])
            self.assert_same([answers[k] for k in range(len(asked))], wanted)
            self.assert_same(shown_in(answers), [fields_of(route) for route in wanted])
            self.compare_hops(table, wanted, asked, addresses if addresses is not asked else iter(asked))

    def compare_hops(self, table, wanted, asked, addresses):
        """Compares the routers of these answers with those that the table, and a view of it, give as numbers."""
        hops = [8 if route is None else 9 if route.via is None else route.via for route in wanted]
        if not isinstance(addresses, map):
            self.assert_same(list(table.hops(addresses, no_route=8, discard=9)), hops)
            self.assert_same(list(table.hops(asked, 9, 8)), [17 - hop if hop in (8, 9) else hop for hop in hops])
        if not isinstance(table, yarib.Fib) and not table.fib_is_attached():
            return self.assertRaises(yarib.Refused, table.view_new)
        view = table.view_new()
        numbers = view.look_up_each(asked)
        self.assert_same([view.look_up(address) for address in asked], list(numbers))
        self.assert_same([self.router_in(view, number) for number in numbers], [8, 9, *hops][2:])
        self.assertTrue(view.routers.readonly)
        self.assertGreaterEqual(view.memory(), (1 << 26) + 4 * len(view.routers))

    def router_in(self, view, number):
        return {yarib.NUMBER_NO_ROUTE: 8, yarib.NUMBER_DISCARD: 9}[number] if number < yarib.FIRST_ROUTER else view.routers[number]


def fields_of(route):
    """Returns the fields of an answer as they lie in memory."""
    if route is None:
        return dict.fromkeys(("base", "pref", "via", "feed", "len", "hop"), 0)
    return {"base": route.base, "pref": route.pref, "via": route.via or 0, "feed": route.feed, "len": route.length,
            "hop": 2 if route.via is None else 1}


def shown_in(answers):
    """Returns what numpy reads of the answers, from the description that it gets."""
    kinds, memory = answers.dtype, answers.memory()
    fields = list(zip(kinds["names"], kinds["formats"], kinds["offsets"]))
    return [{name: int.from_bytes(memory[first + at:first + at + int(form[1:])], sys.byteorder)
             for name, form, at in fields} for first in range(0, len(memory), kinds["itemsize"])]


ERRORS = {"exists": yarib.Exists, "full": yarib.Full, "missing": yarib.Missing}

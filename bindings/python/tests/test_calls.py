"""Compares every call of Python's binding, with arguments in every form, with test vectors: every field of every element, both
sides of each difference, every journal entry, and lists at every page boundary."""
import array
import ctypes
import itertools
import os
import pathlib
import subprocess
import sys

import yarib
from .cases import (
    ADDRESS, BORDERS, Drawn, ERRORS, Limited, NETWORK, address_in, command_in, commands_in, entry_of, in_order,
    outcome_in, route, route_in, routes_in, sections,
)

NEEDS = {"library"}


class Calls(Limited):
    def execute(self, table, draw, feed, command, outcome):
        """Executes a command by a call of its own, or by `apply`, and compares what it returns."""
        name, *fields = command
        if outcome.said == "unanswered":
            return self.assertRaises(yarib.Invalid, table.apply, feed, *draw.command(*command))
        if name in ("lookup", "dump") or draw.random() < 0.3:
            return self.assert_same(table.apply(feed, *draw.command(*command)), outcome)
        if name == "purge":
            return self.assert_same(table.purge(feed), outcome.count)
        prefix, *offer = draw.command(*command)[1:]
        if error := ERRORS.get(outcome.said):
            return self.assertRaises(error, getattr(table, name), prefix, *offer[::-1], feed=feed)
        self.assertIsNone(getattr(table, name)(prefix, *offer[::-1], feed=feed))

    def put(self, table, draw, feed, command, said):
        """Executes `put`; `said` is the reply to the last of its commands."""
        _, prefix, pref, via = draw.command(*command)
        if said == "full":
            return self.assertRaises(yarib.Full, table.put, prefix, via, pref, feed)
        self.assertIs(table.put(prefix, via, pref, feed), said == "added")

    def step(self, table, draw, call, answer):
        """Executes a call, compares what it returns, and returns the entries that it appends to a journal."""
        if call[0] not in ("apply", "put"):
            self.compare(table, draw, call, answer)
            return []
        commands = commands_in(call, answer)
        if call[0] == "put":
            self.put(table, draw, *commands[0][:2], answer[-1])
        else:
            self.execute(table, draw, *commands[0])
        return [entry_of(*one) for one in commands if one[2].said != "unanswered"]

    def test_each_call_answers_as_the_model(self):
        for at, ((_, limit), lines) in enumerate(sections("table")):
            self.limit_time()
            draw, table, entries = Drawn(at), yarib.Table(int(limit), journal=at % 2 == 0), []
            if at % 8 == 3:
                table.fib_attach()
            for call, answer in lines:
                entries += self.step(table, draw, call, answer)
            for call, answer in lines:
                if at % 4 == 0 and call[0] == "look_up_each":
                    self.compare(table.fib_new(), draw, call, answer)
            if at % 2 == 0:
                self.assert_same(table.journal(), entries)

    def test_each_call_of_a_concurrent_table_answers_as_the_model(self):
        for at, ((_, limit), lines) in enumerate(sections("table")[2:6]):
            self.limit_time()
            draw, table = Drawn(at), yarib.ConcurrentTable(int(limit))
            if at == 1:
                table.fib_attach()
            for name, group in itertools.groupby(lines, lambda line: line[0][0]):
                group = list(group)
                if name == "apply" and len(group) > 1:
                    self.execute_each(table, draw, [commands_in(*line)[0] for line in group])
                else:
                    for call, answer in group:
                        self.step(table, draw, call, answer)

    def execute_each(self, table, draw, commands):
        """Executes commands in one call, and compares their outcomes."""
        given = [(feed, *draw.command(*command)) for feed, command, _ in commands]
        self.assert_same(table.apply_each(given), [outcome for *_, outcome in commands])

    def test_which_best_routes_change(self):
        for at, ((_, limit), lines) in enumerate(sections("changes")):
            draw, limit = Drawn(at), int(limit)
            table = yarib.ConcurrentTable(limit) if at % 3 == 2 else yarib.Table(limit, journal=at % 3 == 1)
            for (_, feed, *words), answer in lines:
                feed, given, size = int(feed), draw.command(*command_in(words)), 2 if words == ["purge"] else 1
                if answer == ["refused"]:
                    self.assertRaises(yarib.Error, table.apply_changed, feed, *given)
                    continue
                outcome, sides = outcome_in(answer[:size]), routes_in(answer[size:])
                changes = [yarib.Change(*(before or after)[:2], before, after) for before, after in zip(sides[::2], sides[1::2])]
                if words == ["purge"]:
                    self.assert_same((table.purge_changes(feed), table.purge(feed)), (changes, outcome.count))
                else:
                    self.assert_same(table.apply_changed(feed, *given), (outcome, *(changes or [None])))
        for feed in (0, yarib.MAX_FEED + 1):
            with self.assertRaisesRegex(yarib.Invalid, f"feed {feed} is not 1 to {yarib.MAX_FEED}"):
                table.purge_changes(feed)
        self.assertRaises(yarib.Error, table.apply_changed, 1, "purge")
        self.assert_same(yarib.Change(10 << 24, 8, None, None).prefix, NETWORK("10.0.0.0/8"))

    def test_many_commands_in_one_call(self):
        """Then the calls that read, which are last in a section."""
        for at, ((_, limit), lines) in enumerate(sections("table")):
            self.limit_time()
            draw, table = Drawn(100 + at), yarib.Table(int(limit), journal=at % 2 == 1)
            last = max(k for k, (call, _) in enumerate(lines) if call[0] in ("apply", "put"))
            changing = [line for line in lines[:last + 1] if line[0][0] in ("apply", "put")]
            commands = [command for line in changing for command in commands_in(*line)]
            self.execute_each(table, draw, commands)
            for call, answer in lines[last + 1:]:
                self.compare(table, draw, call, answer)
            if at % 2:
                self.assert_same(table.journal(), [entry_of(*one) for one in commands if one[2].said != "unanswered"])

    def test_a_command_without_an_answer_says_why(self):
        table = yarib.Table()
        outcomes = table.apply_each([(0, "dump"), (yarib.MAX_FEED + 1, "purge"), (1, "add", (0, 0), 0, None), (1, "dump")])
        self.assert_same(outcomes, [
            yarib.Outcome("unanswered", 0, None, "bad number"), yarib.Outcome("unanswered", 0, None, "bad number"),
            yarib.Outcome("added", 0, None, None), yarib.Outcome("dumped", 1, None, None)])

    def test_both_sides_of_each_difference(self):
        hop_in = lambda word: False if word == "-" else None if word == "discard" else ADDRESS(word)
        for at, (_, lines) in enumerate(sections("pair")):
            tables = {"old": yarib.Table(99), "new": yarib.Table(99, journal=at % 2 == 1)}
            for (name, *words), answer in lines:
                if name != "differences":
                    self.assert_same(tables[name].apply(int(words[0]), *command_in(words[1:])), outcome_in(answer))
                    continue
                old, new, by = words
                answer_in = hop_in if by == "hop" else route_in
                wanted = [yarib.Difference(address_in(first), address_in(last), answer_in(before), answer_in(after))
                          for first, last, before, after in zip(*(answer[k::4] for k in range(4)))]
                self.assert_same(list(tables[old].differences(tables[new], by)), wanted)
                if by == "hop":
                    self.assert_same(list(tables[old].differences(tables[new])), wanted)


class Borders(Limited):
    """Lists with the number of elements of a page, and with one fewer and one more."""

    def filled(self, size):
        """Returns a table with this number of routes to prefixes inside 10.0.0.0/8, of several feeds, and these routes in order."""
        routes = [yarib.Route((10 << 24) + 4 * (k // 2), 30, 1 + k % 3, k % 5, k) for k in range(size)]
        table = yarib.Table()
        outcomes = table.apply_each([(one.feed, "add", one[:2], one.pref, one.via) for one in routes])
        self.assertEqual({outcome.said for outcome in outcomes}, {"added"})
        return table, sorted(routes, key=in_order)

    def bests(self, routes):
        return [next(group) for _, group in itertools.groupby(routes, lambda one: one[:2])]

    def test_lists_of_routes(self):
        for size in BORDERS:
            table, wanted = self.filled(size)
            for found in (table.routes(), list(table), table.within("10.0.0.0/8"), list(table.routes_from((0, 0)))):
                self.assert_same(found, wanted)
            for feed in (1, 3):
                self.assert_same(table.routes(feed=feed), [route for route in wanted if route.feed == feed])
            last = [route for route in wanted if route.base == wanted[-1].base]
            self.assert_same(list(table.routes_from((wanted[-1].base, 30), 0, 0)), last)

    def test_lists_of_answers(self):
        table, routes = self.filled(100)
        best = {route.base: route for route in self.bests(routes)}
        for size in [0, 1, 31, 32, 33, *BORDERS]:
            asked = [(10 << 24) + 3 * k % 250 for k in range(size)]
            answers = table.look_up_each(array.array("I", asked))
            self.assert_same(list(answers), [best.get(address & -4) for address in asked])

    def test_lists_of_one_address(self):
        """All feeds and lengths: the longest lists of routes."""
        table, routes = yarib.Table(), []
        for length in range(33):
            prefix = (10 << 24) >> 32 - length << 32 - length, length
            for feed in range(1, yarib.MAX_FEED + 1):
                table.add(prefix, via=feed, pref=feed % 7, feed=feed)
                routes.append(yarib.Route(*prefix, feed, feed % 7, feed))
                if len(routes) in (63, 64, 65, 127, 128, 255, 256, 257, 33 * yarib.MAX_FEED):
                    routes.sort(key=in_order)
                    best_first = sorted(routes, key=lambda one: (-one.length, one.pref, one.feed))
                    self.assert_same(table.look_up_all("10.0.0.0"), best_first)
                    self.assert_same(table.covering("10.0.0.0/32"), routes)
                    self.assert_same(table.exact(prefix), [route for route in routes if route[:2] == prefix])

    def test_lists_of_entries(self):
        for size in BORDERS:
            table, wanted = yarib.Table(journal=True), []
            for k in range(size):
                prefix, via = (k << 12, 24), None if k % 3 == 0 else k
                table.apply(1 + k % yarib.MAX_FEED, "add", prefix, k, via)
                command = 1 + k % yarib.MAX_FEED, "add", NETWORK(prefix), k, None if via is None else ADDRESS(via)
                wanted.append(yarib.Entry(command, yarib.Outcome("added", 0, None, None)))
            self.assert_same(table.journal(), wanted)

    def test_lists_of_differences(self):
        for size in BORDERS:
            table, routes = self.filled(2 * size)
            wanted = [yarib.Difference(one.base, one.base + 3, False, ADDRESS(one.via)) for one in self.bests(routes)]
            self.assert_same(list(yarib.Table().differences(table)), wanted)


class Given(Limited):
    """What a caller may give."""

    def test_numbers_out_of_range(self):
        table = yarib.Table(10, journal=True)
        table.add("10.0.0.0/8", via=1)
        for feed in (0, yarib.MAX_FEED + 1, -1, 1 << 32, (1 << 32) + 1):
            for call in (lambda: table.add("11.0.0.0/8", 1, 0, feed), lambda: table.replace("10.0.0.0/8", 1, 0, feed),
                         lambda: table.withdraw("10.0.0.0/8", feed), lambda: table.purge(feed),
                         lambda: table.routes(feed=feed), lambda: table.exact("10.0.0.0/8", feed=feed),
                         lambda: table.within("10.0.0.0/8", feed=feed), lambda: table.apply(feed, "dump"),
                         lambda: table.covering("10.0.0.0/8", feed=feed), lambda: table.routes(feed, True)):
                self.assertRaises(ValueError, call)
        self.assert_same(table.routes(), [yarib.Route(10 << 24, 8, 1, 0, 1)])

    def test_reasons(self):
        table, journaled, closed = yarib.Table(), yarib.Table(journal=True), yarib.Table()
        closed.close()
        reasons = {"bad number": lambda: yarib.Table(0), "bad text": lambda: table.exact("10.0.0.0"),
                   "bad length": lambda: table.exact("10.0.0.0/33"), "bad bits": lambda: table.exact("10.0.0.1/8"),
                   "bad command": lambda: table.add((1, 8), None)}
        for reason, call in reasons.items():
            with self.assertRaisesRegex(ValueError, reason):
                call()
        for text, call in (("closed", closed.routes), ("closed", closed.fib_is_attached), ("support", journaled.fib_attach), ("support", table.journal)):
            with self.assertRaisesRegex(yarib.Refused, text):
                call()
        with self.assertRaisesRegex(MemoryError, "out of memory"):
            journaled.reserve((1 << 64) - 1)
        self.assert_same(yarib.STATUS, (
            "done", "nothing", "bad number", "bad command", "no memory", "bad size", "none left", "bad text",
            "bad length", "bad bits", "wrong kind", *yarib.STATUS[11:]))

    def test_buffers_in_another_order_of_bytes(self):
        """A buffer whose bytes lie in the other order is refused, or read as the numbers that it holds."""
        table = yarib.Table()
        table.add("10.0.0.0/8", via=1)
        other = ">" if sys.byteorder == "little" else "<"
        swapped = array.array("I", [10 << 24])
        swapped.byteswap()
        kinds = {">": ctypes.c_uint32.__ctype_be__, "<": ctypes.c_uint32.__ctype_le__}
        for order, numbers in ((other, swapped), ("<" if other == ">" else ">", array.array("I", [10 << 24]))):
            block = (kinds[order] * 1).from_buffer_copy(numbers)
            try:
                answers = list(table.look_up_each(block))
            except ValueError:
                self.assertEqual(order, other)
            else:
                self.assert_same(answers, [yarib.Route(10 << 24, 8, 1, 0, 1)])

    def test_memory_counts_what_is_attached(self):
        table, journaled = yarib.Table(), yarib.Table(journal=True)
        self.assertEqual((table.memory(), journaled.memory()), (0, 0))
        table.add("10.0.0.0/8", via=1)
        self.assertEqual(table.memory(), 62)
        forwarding = table.fib_new()
        table.fib_attach()
        self.assertGreaterEqual(table.memory(), (1 << 26) + 62)
        self.assertLess(table.memory(), 1 << 27)
        self.assertGreaterEqual(forwarding.memory(), 1 << 26)
        journaled.apply(1, "dump")
        journaled.apply(1, "dump")
        self.assertEqual(journaled.memory(), 112)

    def test_the_library_is_the_named_one(self):
        named = os.environ["YARIB_LIBRARY"]
        mapped = {line.split()[-1] for line in pathlib.Path("/proc/self/maps").read_text().splitlines()
                  if "yarib" in line.split()[-1]}
        self.assertEqual(mapped, {str(pathlib.Path(named).resolve())})
        ended = subprocess.run([sys.executable, "-c", "import yarib"], capture_output=True, text=True,
                               env=os.environ | {"YARIB_LIBRARY": "/missing/libyarib.so.0",
                                                 "PYTHONPATH": str(pathlib.Path(yarib.__file__).parents[1])})
        self.assertEqual((ended.returncode, "/missing/libyarib.so.0" in ended.stderr), (1, True))

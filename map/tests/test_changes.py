"""Tests maps with random changes of the output of `yarib`: each makes a page, or is refused in words."""
import copy
import io
import json
import random

from dev.testing import TestCase
from map.tests.pages import BY_ROUTE, DISCARD, JSON_RANGE, JSON_ROW, NAMED_ROW, PIECES, RANGE
from map.yarib_map import page, reading

# how often each input is changed
TIMES = 1500
# what a value of JSON is replaced by
VALUES = (None, [], {}, [None], {"via": None}, "", "x", "10.0.0.0/8", "10.0.0.0", "::1", "\x85", "\ud800", "9" * 400,
          7, -1, 1.5, 1e300, True)
# what is put into lines
TEXTS = ("", " ", "\t", "\n", "\r", "\x00", "\x1b[31m", "\u202e", "\x85", "\ufeff", "9" * 20, "-1", "10.0.0.0/8", "::/0", "{",
         "[", '"', "->", "discard", "no route", "via", '{"via":' * 5000, "[" * 5000)


def changed_object(value, draw):
    """Returns a value of JSON with one of the values in it replaced or removed, or with another in its place."""
    if not isinstance(value, dict) or draw.random() < 0.1:
        return copy.deepcopy(draw.choice(VALUES))
    name = draw.choice(list(value) or [""])
    if draw.random() < 0.2:
        value.pop(name, None)
    else:
        value[name] = changed_object(value.get(name), draw)
    return value


def changed_line(line, draw):
    """Returns the line with a value of its object changed, or with some characters replaced."""
    if line.startswith("{") and draw.random() < 0.8:
        return json.dumps(changed_object(json.loads(line), draw), separators=(",", ":"), ensure_ascii=draw.random() < 0.5)
    at, end = sorted(draw.randrange(len(line) + 1) for _ in range(2))
    if draw.random() < 0.8:
        end = min(end, at + draw.randint(0, 4))
    return line[:at] + draw.choice(TEXTS) + line[end:]


def changed(text, draw):
    """Returns the text with one or two of its lines changed."""
    lines = text.split("\n")[:-1]
    for number in draw.sample(range(len(lines)), draw.randint(1, min(2, len(lines)))):
        lines[number] = changed_line(lines[number], draw)
    return "".join(f"{line}\n" for line in lines)


# Inputs that are accepted.
INPUTS = {
    "a table": (reading.read_table, page.of_table, f"{PIECES}total 60\n"),
    "a table of objects": (reading.read_table, page.of_table, JSON_ROW + NAMED_ROW),
    "a comparison of next hops": (reading.read_diff, page.of_comparison, RANGE + "10.0.1.0-10.0.1.9 discard -> via 192.0.2.1\n"),
    "a comparison of routes": (reading.read_diff, page.of_comparison, BY_ROUTE),
    "a comparison of objects": (reading.read_diff, page.of_comparison,
                                JSON_RANGE + JSON_RANGE.replace(".0.0.", ".0.1.").replace("null", DISCARD)),
}


class Changes(TestCase):
    """Each changed input makes a page, or is refused in words that a terminal shows as they are."""

    def test_changed_inputs(self):
        for number, (name, (read, write, text)) in enumerate(INPUTS.items()):
            with self.subTest(name):
                self.assert_each_is_answered(read, write, text, random.Random(88 + number))

    def assert_each_is_answered(self, read, write, text, draw):
        """Fails unless each changed text is, and some of them make pages."""
        pages = 0
        for _ in range(TIMES):
            given = changed(text, draw)
            try:
                write(read(io.BytesIO(given.encode(errors="surrogatepass"))), None, "")
                pages += 1
            except reading.Refused as refused:
                if page.printable(str(refused)) != str(refused):
                    self.fail(f"{given!r} is refused by {refused!r}")
            except Exception as error:
                self.fail(f"{given!r} ends with {error!r}")
        self.count(TIMES)
        self.assertGreater(pages, 0)

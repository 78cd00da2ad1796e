"""What the tests of maps share: how a script is run, the rows that yarib prints, and the contents of a page that a script
wrote, read back by other code."""
import array
import base64
import bisect
import html
import itertools
import json
import os
import pathlib
import re
import socket
import sys
import zlib

from dev.testing import TestCase, call
from map.yarib_map import reading

MAPS = pathlib.Path(__file__).resolve().parents[1]
END = 1 << 32
# the time at which pages are made, so that two of them can be compared
TIME = {"SOURCE_DATE_EPOCH": "1795948200"}


def row(prefix, feed=1, number=0, via="192.0.2.1"):
    """Returns a row of a table; each of the route's numbers is this one."""
    return reading.ROUTE_TEXT.format(prefix=prefix, feed=feed, **dict.fromkeys(reading.NUMBERS, number), via=via) + "\n"


ROW = row("10.0.0.0/8")
ROUTE = {"prefix": "10.0.0.0/8", "feed": 1, "file": "a.feed", **dict.fromkeys(reading.NUMBERS, 0), "via": "192.0.2.1"}
JSON_ROW = json.dumps(ROUTE, separators=(",", ":")) + "\n"
NAMED_ROW = JSON_ROW.replace("10.0.0.0/8", "11.0.0.0/8").replace('"file"', '"name":"a","file"')
DISCARD = '{"via":null,"discard":true}'
JSON_RANGE = '{"first":"10.0.0.0","last":"10.0.0.9","old":{"via":"192.0.2.1"},"new":null}\n'
RANGE = "10.0.0.0-10.0.0.9 via 192.0.2.1 -> no route\n"
BY_ROUTE = "10.0.0.0-10.0.0.9 no route -> " + row("10.0.0.0/24", via="discard")
# rows of several kinds, to be read in pieces: a name's letters may take several bytes
PIECES = "".join(row(f"10.{number}.0.0/16", f"p\N{SNOWMAN}{number % 5}", number, f"192.0.2.{number}")
                 for number in range(60))


def script(name, *words, input="", variables=TIME, **settings):
    """Calls a script of maps, and returns how it ended."""
    return call([sys.executable, MAPS / name, *words], input=input, env=os.environ | variables, **settings)


def number_of(address):
    return int.from_bytes(socket.inet_aton(address), "big")


def text_of(number):
    return socket.inet_ntoa(number.to_bytes(4, "big"))


class Page:
    """The contents of a page."""

    def __init__(self, text):
        self.text = text
        self.title = html.unescape(re.search(r"<title>(.*?)</title>", text)[1])
        self.about = json.loads(self.script("about"))
        packed = zlib.decompress(base64.b64decode(self.script("data"), validate=True))
        self.held, at = {}, 0
        for name, size, count in self.about["columns"]:
            column = array.array({1: "B", 4: "I"}[size], packed[at : at + size * count])
            if sys.byteorder == "big":
                column.byteswap()
            self.held[name], at = column, at + size * count
        if len(packed) != at:
            raise AssertionError(f"the columns of a page end at {at} of {len(packed)}")
        self.firsts = list(itertools.accumulate(self.held["step"]))

    def script(self, name):
        """Returns the text of one of the page's elements that hold something."""
        return re.search(rf'<script type="[a-z/]+" id="{name}">(.*?)</script>', self.text, re.S)[1]

    def range_of(self, address):
        return bisect.bisect(self.firsts, address) - 1

    def answer(self, side, number):
        """Returns the answer of a table in a range, as `yarib` prints it."""
        hop = self.held[f"{side}hop"][number]
        via = ("no route", "unchanged", "discard")[hop] if hop < 3 else text_of(self.held["address"][hop])
        if hop < 2:
            return via
        if f"{side}length" not in self.held:
            return via if hop == 2 else f"via {via}"
        length = self.held[f"{side}length"][number]
        base = self.firsts[number] >> 32 - length << 32 - length
        feed = self.about["feeds"][self.held[f"{side}feed"][number]]
        parts = {"prefix": f"{text_of(base)}/{length}", "feed": feed, "via": via}
        part = lambda found: parts.get(found[1]) or str(self.held[side + found[1]][number])
        return re.sub(r"{(\w+)}", part, self.about["route"])

    def colours(self, number):
        """Returns for each colouring the range's text in the legend."""
        return {one["name"]: one["legend"][self.held[one["classes"]][self.held[one["column"]][number]]][0]
                for one in self.about["colourings"]}


class PageCase(TestCase):
    """A test of scripts that make pages."""

    def page_of(self, name, text, *words, stderr=""):
        """Returns the page that a script makes of what `yarib` prints."""
        ended = script(name, *words, input=text)
        self.assert_ended(ended, stdout=None, stderr=stderr, message=f"{name} of {text[:80]!r}")
        return Page(ended.stdout)

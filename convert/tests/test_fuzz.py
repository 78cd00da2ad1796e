"""Tests of converters with random changes of real input: each is converted, or refused in one line, and no message has a
character that a terminal would obey.

The variables YARIB_SEED and YARIB_TIMES give other changes, and their number for each input."""
import copy
import json
import os
import random
import re

from convert.tests.converting import ConverterCase, add_tests, sample, table_text
from dev.models.table_model import route_text

SEED, TIMES = os.environ.get("YARIB_SEED", "88"), int(os.environ.get("YARIB_TIMES", "20"))
# what a value of JSON is replaced by
VALUES = (None, [], {}, [None], {"a": None}, "", "x", "10.0.0.0/8", "::1", "\x1b[2J\u202e\x85\n", "9" * 400, 7, -1, 0,
          1.5, 1e300, True, False)
# what is put into lines
TEXTS = ("", " ", "|", "\t", "\n", "\r", "\x00", "\x1b[31m", "\u202e", "\x85", "\ufeff", "\ud800", "9" * 20,
         "-1", "10.0.0.0/8", "::/0", "{", "[")
# Each converter with its options, and the input that is changed.
JSON = (
    ("ip-to-feeds", "kernel/routes.json"),
    ("ip-to-feeds", "kernel/nexthop-shown.json"),
    ("frr-to-feeds", "frr/bgp.json"),
    ("frr-to-feeds", "frr/detail.json"),
    ("frr-to-feeds", "frr/rib.json"),
    ("frr-to-feeds --vrf blue", "frr/vrfs.json"),
    ("frr-to-feeds", "debian-13/ranks/frr-detail.json"),
    ("gobgp-to-feeds", "gobgp/rib.json"),
    ("gobgp-to-feeds", "debian-sid/ranks/gobgp.json"),
    ("openbgpd-to-feeds", "openbgpd/own.json"),
    ("birdwatcher-to-feeds", "by-hand/birdwatcher.json"),
    ("pmacct-to-feeds", "debian-13/ranks/pmacct-bmp.json"),
    ("openbgpd-to-feeds --discard-community BLACKHOLE", "openbgpd/blackhole-detail.json"),
)
LINES = (
    ("bird-to-feeds", "bird/bgp-routes-all.txt"),
    ("bird-to-feeds", "bird/other.txt"),
    ("pmacct-to-feeds", "debian-sid/ranks/pmacct.json"),
    ("bgpdump-to-feeds", "bgpdump/rib.txt"),
    ("bgpdump-to-feeds", "bgpdump/updates.txt"),
    ("text-to-feeds", "by-hand/outside.txt"),
    ("text-to-feeds --separator ,", "by-hand/outside.txt"),
    ("table-to-ip --device 192.0.2.0/24=a --device 198.51.100.0/24=b", "table/run.txt"),
)
TABLE = table_text([route_text(f"10.{second}.0.0/16") for second in range(4)])
OBJECTS = "".join(json.dumps({"prefix": f"10.{second}.0.0/16", "feed": 1, "pref": 1, "via": hop}) + "\n"
                  for second, hop in enumerate(("192.0.2.1", "192.0.2.2", None)))
# Options that name a file of JSON: the converter, what it reads on standard input, and the file that is changed.
FILES = (
    ("ip-to-feeds --nexthops", sample("kernel/nexthop-numbers.json"), "kernel/nexthop-objects.json"),
    ("ip-to-feeds --rules", sample("kernel/routes.json"), "kernel/rules-plain.json"),
    ("table-to-ip --onlink a --replace", TABLE, "kernel/own-routes.json"),
)
CRASHED = re.compile(r"\w*(Error|Exception|Iteration|Interrupt)\b.*")


def parts_of(document):
    """Yields each value of a document within another, with its place there."""
    for place, value in list(document.items() if isinstance(document, dict) else enumerate(document)):
        yield document, place
        if isinstance(value, (dict, list)):
            yield from parts_of(value)


def documents_of(text):
    """Yields the JSON documents that a text has one after the other."""
    at, decode = 0, json.JSONDecoder().raw_decode
    while at < len(text):
        document, end = decode(text, at)
        yield document
        at = end + len(text[end:]) - len(text[end:].lstrip())


def changed_json(text, draw):
    """Returns the documents; one of them has one or two of its values replaced or removed."""
    documents = list(documents_of(text))
    changed = draw.randrange(len(documents))
    documents[changed] = changed_document(documents[changed], draw)
    return "\n".join(json.dumps(document, ensure_ascii=draw.random() < 0.5) for document in documents)


def changed_document(document, draw):
    for _ in range(draw.randint(1, 2)):
        parts = list(parts_of(document)) if isinstance(document, (dict, list)) else []
        if not parts or draw.random() < 0.05:
            document = copy.deepcopy(draw.choice(VALUES))
            continue
        within, place = draw.choice(parts)
        if draw.random() < 0.2:
            del within[place]
        else:
            within[place] = copy.deepcopy(draw.choice(VALUES))
    return document


def changed_lines(text, draw):
    """Returns the text with some of its characters replaced, inserted or removed, or lines exchanged."""
    for _ in range(draw.randint(1, 3)):
        at, end = sorted(draw.randrange(len(text) + 1) for _ in range(2))
        if draw.random() < 0.8:
            end = min(end, at + draw.randint(0, 4))
        text = text[:at] + draw.choice(TEXTS) + text[end:]
    return text


class Fuzz(ConverterCase):
    """Random changes of real input."""

    def assert_fit(self, ended, changed):
        """Fails unless a converter converts, or refuses in one line, without a message that Python printed or that a
        terminal would obey."""
        lines = ended.stderr.split("\n")
        crashed = [line for line in lines if CRASHED.fullmatch(line.partition(": ")[2] or line)]
        unfit = [line for line in lines if not line.isprintable()]
        is_known = ended.returncode in (0, 1, 3) and (ended.returncode != 1 or len(lines) == 2)
        self.assertTrue(is_known and not crashed and not unfit, f"{changed!r}: status {ended.returncode}, notes {ended.stderr!r}")


def drawn_for(test):
    """Returns the random numbers of a test method."""
    return random.Random(f"{SEED} {test.id().rpartition('.')[2]}")


def check_input(test, command, text, change):
    """Changed input is converted, or refused in one line."""
    draw = drawn_for(test)
    for _ in range(TIMES):
        changed = change(text, draw)
        test.assert_fit(test.convert(command, changed.encode(errors="surrogatepass")), changed)


def check_file(test, command, data, text):
    """A changed file of an option is taken, or refused in one line."""
    draw, file = drawn_for(test), test.folder / "changed.json"
    for _ in range(TIMES):
        changed = (changed_json if draw.random() < 0.9 else changed_lines)(text, draw)
        file.write_bytes(changed.encode(errors="surrogatepass"))
        test.assert_fit(test.convert(command, data, file), changed)


INPUTS = {f"{command} {name}": (command, sample(name).decode(), change)
          for rows, change in ((JSON, changed_json), (LINES, changed_lines)) for command, name in rows}
add_tests(Fuzz, "input", check_input, INPUTS | {"table-to-ip partial": ("table-to-ip --onlink a --partial", OBJECTS, changed_json)})
add_tests(Fuzz, "file", check_file, {command: (command, data, sample(name).decode()) for command, data, name in FILES})

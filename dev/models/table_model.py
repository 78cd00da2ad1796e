"""The model of a table: addresses, the sequential table, and what runs, look-ups, lists and comparisons print."""
import csv
import functools
import io
import json
import re

from dev.crates import CRATES

# The maximum number of feeds, as crates/rt_rib defines it.
LIMITS = (CRATES / "rt_rib/src/limits.rt").read_text()
MAX_FEEDS = int(re.search(r"^pub const MAX_FEEDS: usize = (\d+);$", LIMITS, re.M)[1])


def dotted(number):
    """A number as the address that a feed's text has."""
    return f"{number >> 24 & 255}.{number >> 16 & 255}.{number >> 8 & 255}.{number & 255}"


@functools.cache
def number(text):
    """The number of an address."""
    return int.from_bytes(bytes(map(int, text.split("."))), "big")


@functools.cache
def block(prefix):
    """Base and length of a prefix."""
    base, length = prefix.split("/")
    return number(base), int(length)


# The commands of a feed's text, each with the number of its fields. Version 1 has no `purge`.
FIELDS = {"add": 3, "replace": 3, "withdraw": 1, "lookup": 1, "dump": 0, "purge": 0}


def command_of(line, version):
    """The words of a line that is a command, or the number of the line's fault: 1 if its first word is no command of this
    version, and 2 if the command has another number of fields."""
    name, *fields = line.split(" ")
    if name not in FIELDS or (name, version) == ("purge", 1):
        return 1
    return (name, *fields) if len(fields) == FIELDS[name] else 2


class Table:
    """The sequential table, from its definition, over the words of a feed's line. A route is (prefix, feed, preference,
    hop)."""

    def __init__(self, limit):
        self.limit = limit
        self.offered = {}  # of each prefix preference and hop of each feed

    def copy(self):
        made = Table(self.limit)
        made.offered = {prefix: dict(offers) for prefix, offers in self.offered.items()}
        return made

    def apply(self, feed, words):
        """The answer to the feed's command, which changes the table as it says."""
        name, *rest = words
        prefix, *offer = rest or [None]
        own = [each for each, offers in self.offered.items() if feed in offers]
        if name == "add" and prefix in own:
            return "exists"
        if name == "add" and len(own) >= self.limit:
            return "full"
        if name in ("replace", "withdraw") and prefix not in own:
            return "missing"
        if name in ("add", "replace"):
            self.offered.setdefault(prefix, {})[feed] = tuple(offer)
            return "added" if name == "add" else "replaced"
        if name == "lookup":
            return self.best(rest[0])
        if name == "dump":
            return f"dumped {len(self.routes())}"
        for gone in [prefix] if name == "withdraw" else own:
            del self.offered[gone][feed]
        return "withdrawn" if name == "withdraw" else f"purged {len(own)}"

    def of_prefix(self, prefix):
        """The routes of a prefix: by preference, and of equal ones by feed."""
        found = [(prefix, feed, *offer) for feed, offer in self.offered.get(prefix, {}).items()]
        return sorted(found, key=lambda route: (int(route[2]), route[1]))

    def routes(self):
        """All routes in the order of a list: by base, length, preference and feed."""
        return [route for prefix in sorted(self.offered, key=block) for route in self.of_prefix(prefix)]

    def covering(self, addr):
        """The routes whose prefixes are the address's first bits, the best first: the longest, and these in order."""
        cut = lambda length: f"{dotted(number(addr) >> 32 - length << 32 - length)}/{length}"
        return [route for length in range(32, -1, -1) for route in self.of_prefix(cut(length))]

    def best(self, addr):
        """The answer of a look-up for the address."""
        found = self.covering(addr)
        return f"route {shown(found[0])}" if found else "no route"

    def all(self, addr):
        """The lines of all routes that cover the address, the best first, the others with the reason why each lost."""
        first, *others = self.covering(addr) or [None]
        if first is None:
            return [f"{addr} no route\n"]
        is_worse = lambda route: int(route[2]) > int(first[2])
        step = lambda route: "shorter" if route[0] != first[0] else "preference" if is_worse(route) else "feed"
        return [f"{addr} route {shown(first)}\n"] + [f"{addr} also {shown(route)} {step(route)}\n" for route in others]

    def listed(self, best=False):
        """The rows of a list, or of the best route of each prefix."""
        if best:
            return [shown(self.of_prefix(prefix)[0]) for prefix in sorted(self.offered, key=block)
                    if self.offered[prefix]]
        return list(map(shown, self.routes()))


def route_text(prefix, feed=1, preference=1, hop="192.0.2.1"):
    """A route as it is printed; the feed is its number or its name."""
    return f"{prefix} feed {feed} pref {preference} via {hop}"


def shown(route):
    return route_text(*route)


def row(*route):
    """The line of a route in a table."""
    return shown(route) + "\n"


def members(route, **more):
    """The members of a route as an object of JSON; `more` are its feed's name and file."""
    prefix, feed, preference, hop = route
    way = {"via": None, "discard": True} if hop == "discard" else {"via": hop}
    return {"prefix": prefix, "feed": int(feed), **more, "pref": int(preference), **way}


def json_text(value):
    """A value as the program prints it as JSON."""
    return json.dumps(value, separators=(",", ":"))


HOP_COLUMNS = ("via", "discard")
ROUTE_COLUMNS = ("prefix", "feed", "name", "file", "pref", *HOP_COLUMNS)


def csv_text(columns, records):
    """The records as Python's `csv` writes them, the names of the columns first; what a record lacks is empty."""
    text = io.StringIO(newline="")
    writer = csv.DictWriter(text, columns, restval="", lineterminator="\r\n")
    writer.writeheader()
    writer.writerows(records)
    return text.getvalue()


def csv_fields(value, front=""):
    """The columns of a route or a next hop, from its members in JSON, or of none; each name follows `front`."""
    told = {key: "true" if key == "discard" else str(one) for key, one in (value or {}).items() if one is not None}
    if "file" in told:
        told["name"] = told["file"].rpartition("/")[2].removesuffix(".feed")
    return {front + key: one for key, one in told.items()}


def csv_of(command, told):
    """What a command prints as CSV, from the objects that it prints as JSON."""
    if command[0] == "table":
        return csv_text(ROUTE_COLUMNS, map(csv_fields, told))
    if command[0] == "lookup":
        rows = [{"address": one["address"], **csv_fields(route)} for one in told for route in (one["route"], *one.get("also", ()))]
        return csv_text(["address", *ROUTE_COLUMNS, *["reason"] * ("--all" in command)], rows)
    columns = ROUTE_COLUMNS if "route" in command else HOP_COLUMNS
    place = ["prefix"] if "--prefixes" in command else ["first", "last"]
    rows = [{name: one[name] for name in place} | csv_fields(one["old"], "old_") | csv_fields(one["new"], "new_") for one in told]
    return csv_text([*place, *(f"{side}_{name}" for side in ("old", "new") for name in columns)], rows)


def differences(old, new, answer):
    """The ranges of addresses to which two tables give different answers, each with both: between adjacent boundaries of
    their prefixes, both tables give a single answer. `answer` returns the answer of a table to an address."""
    ends = {base + size for table in (old, new) for base, length in map(block, table.offered)
            for size in (0, 1 << 32 - length)}
    ranges = []
    for border in sorted({0, *ends} - {1 << 32}):
        answers = answer(old, border), answer(new, border)
        if not ranges or ranges[-1][1] != answers:
            ranges.append((border, answers))
    lasts = [first - 1 for first, _ in ranges[1:]] + [(1 << 32) - 1]
    return [(first, last, *answers) for (first, answers), last in zip(ranges, lasts) if answers[0] != answers[1]]


def differences_text(old, new, by, names=({}, {})):
    """What a comparison of two tables prints. A feed's number is replaced by its name if its side has names."""

    def said(table, border):
        best = table.covering(dotted(border))[:1]
        if by == "route" or not best:
            named = names[0] if table is old else names[1]
            return shown((best[0][0], named.get(best[0][1], best[0][1]), *best[0][2:])) if best else "no route"
        return "discard" if best[0][3] == "discard" else f"via {best[0][3]}"

    return "".join(f"{dotted(first)}-{dotted(last)} {was} -> {now}\n"
                   for first, last, was, now in differences(old, new, said))


def report(feed, answers):
    """The output of a run for a feed whose lines have these answers."""
    return "".join(f"{feed}:{number} {answer}\n" for number, answer in enumerate(answers, 1) if answer)


def ran(texts, refused, limit=65_536):
    """The lines of the reports that a run of these texts prints if these lines, by feed and number, are refused, and
    its table."""
    table, printed = Table(limit), []
    for feed, text in enumerate(texts, 1):
        for at, line in enumerate(text.splitlines(), 1):
            if (at, line) == (1, "version 2") or line.startswith("#"):
                continue
            if line == "frob":
                answer = "fault E1"
            elif (feed, at) in refused:
                answer = "refused"
            else:
                answer = table.apply(feed, line.split())
            printed.append(f"{feed}:{at} {answer}")
    return printed, table


def table_text(rows):
    """The output of a run for the final table, which has these rows."""
    return "".join(line + "\n" for line in [f"table {len(rows)}", *rows])


def run_text(texts, refused):
    """The output of a run of these texts if these lines, by feed and number, are refused."""
    printed, table = ran(texts, refused)
    return "".join(line + "\n" for line in printed) + table_text(table.listed())


# The messages of errors on standard error.
TOO_MANY_FILES = f"yarib: more than {MAX_FEEDS} files\n"
E1 = "E1: the first field is no command of this version"
E3 = "E3: the field is no prefix or address"
# What follows the message of a fault whose field ends with a carriage return.
HAS_CR = " (the CR of CRLF is part of it)"
# What follows the message of a fault whose field has `::`.
IPV6 = " (IPv6 isn't supported)"
E8 = "E8: the line has over 128 bytes"
NOT_TAKEN = {
    "full": "adds over the limit", "exists": "duplicate adds",
    "missing": "replaces and withdraws without a route",
}


def told_text(texts, names, limit=65_536):
    """What `lookup` and `table` report for these texts. No line of them is refused, and their faulty lines are E1."""
    printed, _ = ran(texts, set(), limit)
    told = ""
    for feed, name in enumerate(names, 1):
        answers = [line.split(" ", 1) for line in printed if line.startswith(f"{feed}:")]
        faulty = [place.split(":")[1] for place, answer in answers if answer == "fault E1"]
        if faulty:
            told += f"yarib: {name}: faulty lines: {len(faulty)}, the first is line {faulty[0]}: {E1}\n"
        for answer, what in NOT_TAKEN.items():
            if lines := [place.split(":")[1] for place, found in answers if found == answer]:
                told += f"yarib: {name}: {what}: {len(lines)}, the first is line {lines[0]}\n"
    return told

"""Writes test vectors of a table: calls with random arguments, and what each returns. The tests of every binding read them.

    python3 -m dev.models.table_vectors FILE    # from the top of the repository; then YARIB_VECTORS=FILE

A line is `CALL = ANSWER`, both of words. A line without ` = ` begins a section, on new tables:

    table LIMIT            # calls of one table
    changes LIMIT          # which best routes the commands of one table change
    pair                   # two tables, `old` and `new`, and their differences
    source FIRST FEEDS     # a source that has these feeds of a table; in the answers it is the feed FIRST
    files                  # texts that feed 3 of a new table loads, in which a feed may have two routes

A route is one word, `PREFIX,FEED,PREF,HOP`, and `-` is no route. A hop is an address or `discard`, and in a selection also
`any`; the feed 0 of a selection is any feed. A command is written as in a feed's file. Its reply is `added`, `replaced`,
`withdrawn`, `exists`, `full`, `missing`, `found ROUTE`, `none`, `dumped N` or `purged N`, and `range` if its feed is none.
`put` has the replies of its commands: an `add` and, if the route exists, a `replace`. A change or a difference is several
words: the routes before and after; the first and last address, and both answers. A count of best routes is two words: a hop
and their number. A text is `x` and its bytes as hexadecimal
digits; the answer is the number of its routes that are loaded, the number of its first faulty line, from 1, and the fault:
`line`, `bits`, `length`, `exists` or `full`. If no line is faulty they are `0` and `-`.
"""
import argparse
import pathlib
import random

from dev.models.table_model import MAX_FEEDS, Table, block, differences, dotted

LARGEST = (1 << 32) - 1


class Drawn(random.Random):
    """Random arguments: few prefixes, one inside another, so that each command meets the others. Most prefixes come again."""

    def __init__(self, seed):
        super().__init__(seed)
        self.prefixes = []

    def base(self):
        return self.choice((0, 1 << 31, 10 << 24, 0xFFFFFFE0)) + self.randrange(32)

    def address(self):
        return dotted(self.base())

    def prefix(self):
        length, is_new = self.choice((0, 1, 8, 23, 24, 25, 30, 31, 32)), self.randrange(3) == 0
        if is_new or not self.prefixes:
            self.prefixes.append(f"{dotted(self.base() >> 32 - length << 32 - length)}/{length}")
        return self.prefixes[-1] if is_new else self.choice(self.prefixes)

    def hop(self):
        return self.choice(("discard", *map(dotted, (0, 1, LARGEST, 0xC0000201))))

    def offer(self):
        return [str(self.choice((0, 1, 2, LARGEST))), self.hop()]

    def feed(self):
        return self.choice((1, 2, 3, MAX_FEEDS))

    def command(self):
        name = self.choices(("add", "replace", "withdraw", "lookup", "dump", "purge"), (50, 20, 20, 10, 3, 2))[0]
        fields = {"lookup": [self.address()], "dump": [], "purge": []}.get(name, [self.prefix()])
        return [name, *fields, *(self.offer() if name in ("add", "replace") else [])]


def word(route):
    return ",".join(map(str, route)) if route else "-"


def words(routes):
    return " ".join(map(word, routes))


def line(call, answer):
    return f"{' '.join(map(str, call))} = {answer}".rstrip()


def reply(table, feed, command):
    """Executes a command, and returns its reply."""
    if command[0] != "lookup":
        return table.apply(feed, command)
    found = table.covering(command[1])
    return f"found {word(found[0])}" if found else "none"


def is_within(prefix, other):
    """Returns True if every address of the prefix is one of the other."""
    (base, length), (first, least) = block(prefix), block(other)
    return least <= length and base >> 32 - least == first >> 32 - least


PARTS = {"all": lambda prefix, asked: True, "exact": lambda prefix, asked: prefix == asked,
         "within": is_within, "covering": lambda prefix, asked: is_within(asked, prefix)}


def best_of_each(routes):
    """The first route to each prefix."""
    return [route for before, route in zip([(None,), *routes], routes) if before[0] != route[0]]


def selected(table, part, prefix, feed=0, hop="any", is_best=False):
    routes = [route for route in table.routes() if PARTS[part](route[0], prefix)]
    routes = best_of_each(routes) if is_best else routes
    return [route for route in routes if feed in (0, route[1]) and hop in ("any", route[3])]


def selection(table, draw):
    part, prefix, is_best = draw.choice(list(PARTS)), draw.prefix(), draw.randrange(2)
    feed, hop = draw.choice((0, 0, draw.feed())), draw.choice(("any", "any", draw.hop()))
    return ["select", part, prefix, feed, hop, is_best], words(selected(table, part, prefix, feed, hop, is_best))


def hop_counts(table, draw):
    hops = [route[3] for route in best_of_each(table.routes())]
    ordered = sorted(set(hops), key=lambda hop: [] if hop == "discard" else [int(part) for part in hop.split(".")])
    return ["hop_counts"], " ".join(f"{hop} {hops.count(hop)}" for hop in ordered)


def page(table, draw):
    prefix, pref, feed = draw.prefix(), draw.choice((0, 1, 2, LARGEST)), draw.choice((0, 1, 2, 3, MAX_FEEDS, MAX_FEEDS + 1))
    place = *block(prefix), pref, feed
    return (["routes_from", prefix, pref, feed],
            words(route for route in table.routes() if (*block(route[0]), int(route[2]), route[1]) >= place))


def look_up(table, draw):
    address = draw.address()
    return ["look_up", address], word((table.covering(address) or [None])[0])


def look_up_all(table, draw):
    address = draw.address()
    return ["look_up_all", address], words(table.covering(address))


def look_up_prefix(table, draw):
    prefix = draw.prefix()
    return ["look_up_prefix", prefix], word((selected(table, "covering", prefix, is_best=True) or [None])[-1])


READS = {look_up: 4, look_up_all: 1, look_up_prefix: 2, selection: 4, page: 1, hop_counts: 1,
         lambda table, draw: (["routes"], words(table.routes())): 0.5,
         lambda table, draw: (["count"], len(table.routes())): 0.5}


def reads(table, draw, size):
    for read in draw.choices(list(READS), list(READS.values()), k=size):
        yield line(*read(table, draw))


def whole_reads(table, draw):
    """Longer reads of a table: of many addresses, and of each feed's routes in the form of a file."""
    for size in (0, 1, 33, 200):
        addresses = [draw.address() for _ in range(size)]
        yield line(["look_up_each", *addresses], words((table.covering(one) or [None])[0] for one in addresses))
    for feed in (1, 2, 3, 4, MAX_FEEDS):
        yield line(["save", feed], words(route for route in table.routes() if route[1] == feed))


def put(table, feed, prefix, offer):
    """Executes `put`, and returns the replies of its commands."""
    added = table.apply(feed, ["add", prefix, *offer])
    return f"exists {table.apply(feed, ['replace', prefix, *offer])}" if added == "exists" else added


def change_line(table, draw):
    feed, command, at = draw.feed(), draw.command(), draw.random()
    if at < 0.05:
        return line(["apply", draw.choice((0, MAX_FEEDS + 1)), *command], "range")
    if at < 0.15:
        prefix, offer = draw.prefix(), draw.offer()
        return line(["put", feed, prefix, *offer], put(table, feed, prefix, offer))
    return line(["apply", feed, *command], reply(table, feed, command))


def table_calls(draw, limit, size):
    table = Table(limit)
    yield f"table {limit}"
    for _ in range(size):
        # Calls that change follow one another: a test executes them one by one, or all in one call.
        for _ in range(draw.choice((1, 1, 1, 6))):
            yield change_line(table, draw)
        yield from reads(table, draw, 2)
    yield from reads(table, draw, 30)
    yield from whole_reads(table, draw)


def best_routes(table):
    return {route[0]: route for route in best_of_each(table.routes())}


def changes(draw, limit, size):
    table, new = Table(limit), {}
    yield f"changes {limit}"
    for _ in range(size):
        feed, command, old = draw.feed(), draw.command(), new
        if command[0] in ("lookup", "dump"):
            yield line(["change", feed, *command], "refused")
            continue
        answer, new = table.apply(feed, command), best_routes(table)
        changed = [(old.get(prefix), new.get(prefix)) for prefix in sorted({*old, *new}, key=block)]
        pairs = [f"{word(before)} {word(after)}" for before, after in changed if before != after]
        yield line(["change", feed, *command], " ".join([answer, *pairs]))


def difference_lines(names, tables, by):
    """The differences of two tables, by next hop or by route."""
    def answer(table, address):
        best = table.covering(dotted(address))[:1]
        return word(best[0]) if best and by == "route" else best[0][3] if best else "-"

    found = differences(*tables, answer)
    ranges = [f"{dotted(first)} {dotted(last)} {was} {now}" for first, last, was, now in found]
    yield line(["differences", *names, by], " ".join(ranges))


def pair(draw, size):
    tables = {"old": Table(99), "new": Table(99)}
    yield "pair"
    for _ in range(size):
        feed, command = draw.feed(), draw.command()
        for side in draw.choice((("old",), ("new",), ("old", "new"))):
            yield line([side, feed, *command], reply(tables[side], feed, command))
    for by in ("hop", "route"):
        for names in (("old", "new"), ("new", "old"), ("old", "old")):
            yield from difference_lines(names, [tables[name] for name in names], by)


def source(draw, first, feeds, size):
    table, others = Table(1_000_000), [feed for feed in (1, 2, 5, 6) if feed not in range(first, first + feeds)]
    yield f"source {first} {feeds}"
    for _ in range(size):
        command = draw.command()
        if command[0] in ("lookup", "dump") or draw.random() < 0.3:
            feed = draw.choice(others)
            yield line(["apply", feed, *command], reply(table, feed, command))
        elif command[0] == "add" and draw.random() < 0.4:
            yield line(["deal", "put", *command[1:]], put(table, first, command[1], command[2:]))
        elif command[0] != "purge" or draw.random() < 0.3:
            yield line(["deal", *command], reply(table, first, command))
        yield line(*look_up(table, draw))
    yield line(["routes"], words(table.routes()))
    yield line(["source_routes"], words(route for route in table.routes() if route[1] == first))
    yield line(["deal", "purge"], table.apply(first, ["purge"]))
    yield line(["source_routes"], "")


GOOD, LONGEST = "add 10.0.0.0/8 1 192.0.2.1\n", "#" * 128
# Lines that no file may have.
FAULTY = [
    LONGEST + "#", "#" * 9999, "version 2", "replace 10.0.0.0/8 1 192.0.2.1", "withdraw 10.0.0.0/8", "purge", "\0",
    "add 11.0.0.0/8 1", "add  11.0.0.0/8 1 192.0.2.1", "add 11.0.0.0/8 1 192.0.2.1\r", "add 11.0.0.0/8 1 192.0.2.1\0",
    "add 11.0.0.0/8 4294967296 192.0.2.1", "add 11.0.0.0/8 01 192.0.2.1", "add 11.0.0.0/8 +1 192.0.2.1", "add 11.0.0.0/8 -1 192.0.2.1",
    "add 11.0.0.0/8 1 192.0.2.01", "add 11.0.0.0/8 1 ::1", "add 11.0.0.0/8 1 \u00e4", "add ::/0 1 192.0.2.1",
]
# Whole files: the text, the number of routes, and the first faulty line with its fault.
TEXTS = [
    ("", 0, 0, "-"), (GOOD, 1, 0, "-"), (f"\n# \u00e9\n\n{GOOD}{LONGEST}\n{LONGEST}", 1, 0, "-"), (GOOD + "#" * 9999, 1, 2, "line"),
    ("version 2\nadd 10.0.0.0/8 1 discard\nadd 11.0.0.0/8 2 192.0.2.1", 2, 0, "-"), ("version 2\r\n", 0, 1, "line"),
    ("add 10.0.0.0/8 1 discard\n", 0, 1, "line"), (f"version 2\nadd 10.0.0.0/8 4294967295 discard\n{GOOD}", 1, 3, "exists"),
    (GOOD + "\nadd 11.0.0.0/8 1 192.0.2.1\nadd 12.0.0.0/8 1 192.0.2.1\n", 2, 4, "full"),
    (GOOD + "add 11.0.0.1/8 1 192.0.2.1\n", 1, 2, "bits"), (GOOD + "add 11.0.0.0/33 1 192.0.2.1\n", 1, 2, "length"),
]


def files():
    yield "files"
    in_version_2 = [(f"version 2\n{text.replace('192.0.2.1', 'discard')}\n", 0, 2, "line") for text in FAULTY]
    for text, *answer in [*TEXTS, *((f"{GOOD}{text}\n", 1, 2, "line") for text in FAULTY), *in_version_2]:
        yield line(["load", "x" + text.encode().hex()], " ".join(map(str, answer)))


def vectors():
    """Yields the lines of all sections."""
    yield from files()
    for seed in range(12):
        yield from table_calls(Drawn(seed), (3, 8, 1_000_000)[seed % 3], 100)
    for seed in range(6):
        yield from changes(Drawn(100 + seed), (5, 1_000)[seed % 2], 300)
    for seed in range(40):
        yield from pair(Drawn(200 + seed), (1, 4, 20)[seed % 3])
    for seed in range(6):
        yield from source(Drawn(300 + seed), 2 + seed % 2, 3, 200)


def text():
    return "".join(one + "\n" for one in vectors())


def write(file):
    pathlib.Path(file).write_text(text())


if __name__ == "__main__":
    reader = argparse.ArgumentParser(description=__doc__, formatter_class=argparse.RawDescriptionHelpFormatter)
    reader.add_argument("file")
    write(reader.parse_args().file)

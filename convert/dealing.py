"""The feed files of the sources' commands: one for each source, several for a source with more routes than a feed may
have and, with --merge, one for many sources together."""
import contextlib
import os
import shutil
import typing

from errors import Refused

FIRST_LINE = "version 2\n"
MERGED = "merged"
# how much of a file is copied at once
BLOCK = 1 << 20


class Source(typing.NamedTuple):
    """A source's commands in a file of that name: how many there are, and how many routes it has at a time, at most."""

    name: str
    file: str
    commands: int
    routes: int

    def feeds(self, limit):
        """Returns how many feeds the source needs."""
        return max(1, -(-self.routes // limit))

    def counted(self, limit, directory):
        """Returns the source with the number of its prefixes, if it needs several feeds: each has a part of these."""
        is_whole = self.routes <= limit or self.commands == self.routes
        return self if is_whole else self._replace(routes=len(places_of(self.file, directory)))


def plan(sources, most, limit, prefixes):
    """Returns the sources that have feeds of their own, and those that share one so that there are at most `most` feeds:
    those with the fewest routes. `prefixes` is how many prefixes have routes in all."""
    needed = sum(source.feeds(limit) for source in sources)
    if needed <= most:
        return sources, []
    by_size, routes = sorted(sources, key=lambda source: source.routes), 0
    for number, source in enumerate(by_size, 1):
        routes += source.routes
        needed -= source.feeds(limit)
        if number > 1 and needed + -(-min(routes, prefixes) // limit) <= most:
            together = by_size[:number]
            return [source for source in sources if source not in together], together
    raise Refused(f"the routes need more than {most} feeds, of {limit} routes each: raise --merge")


def state_of(file, directory):
    """Returns the routes that a source's commands leave: the preference and the next hop of each prefix."""
    routes = {}
    with directory.open(file) as lines:
        for line in lines:
            word, *fields = line.split()
            if word == "purge":
                routes.clear()
            elif word == "withdraw":
                del routes[fields[0]]
            else:
                routes[fields[0]] = int(fields[1]), fields[2]
    return routes


def merged(sources, directory):
    """Writes the best route of each prefix among these sources as one source. Returns that, and how many routes were left
    out."""
    best, routes = {}, 0
    for source in sources:
        state = state_of(source.file, directory)
        directory.remove(source.file)
        routes += len(state)
        for prefix, route in state.items():
            if prefix not in best or route[0] < best[prefix][0]:
                best[prefix] = route
    # the files of sources have numbers
    with directory.open(MERGED, "w") as file:
        file.writelines(f"add {prefix} {preference} {hop}\n" for prefix, (preference, hop) in best.items())
    return Source(MERGED, MERGED, len(best), len(best)), routes - len(best)


def write(source, directory, names):
    """Writes the source's commands to feeds of these names, those of each prefix to one of them."""
    if len(names) == 1:
        copy(source.file, directory, names[0])
    else:
        deal(source, directory, names)
    directory.remove(source.file)


def copy(file, directory, feed):
    with directory.open(file, "rb") as lines, directory.open(feed, "wb") as written:
        written.write(FIRST_LINE.encode())
        shutil.copyfileobj(lines, written, BLOCK)


def deal(source, directory, names):
    # the lines of routes are copied as they are
    binary = "b" if source.commands == source.routes else ""
    with contextlib.ExitStack() as stack:
        lines = stack.enter_context(directory.open(source.file, f"r{binary}"))
        feeds = [stack.enter_context(directory.open(name, f"w{binary}")) for name in names]
        for feed in feeds:
            feed.write(FIRST_LINE.encode() if binary else FIRST_LINE)
        if binary:
            deal_routes(lines, source.routes, feeds)
        else:
            deal_commands(lines, places_of(source.file, directory), feeds)


def deal_routes(file, number, feeds):
    """Divides `number` lines among feeds; each line adds a route to another prefix."""
    for part, feed in enumerate(feeds):
        copy_lines(file, number * (part + 1) // len(feeds) - number * part // len(feeds), feed)


def copy_lines(file, number, feed):
    """Copies the next `number` lines."""
    while number and (block := file.read(BLOCK)):
        found, end = block.count(b"\n"), len(block)
        if found >= number:
            end = 0
            for _ in range(number):
                end = block.index(b"\n", end) + 1
        feed.write(block[:end])
        # what is left belongs to the next feed
        file.seek(end - len(block), os.SEEK_CUR)
        number -= min(found, number)


def prefix_of(line):
    """Returns the prefix that a command is about; "" for a purge."""
    return line.split(" ", 2)[1].rstrip("\n") if " " in line else ""


def places_of(file, directory):
    """Returns the prefixes of a file's commands, each with its place in the order of their first occurrence."""
    places = {}
    with directory.open(file) as lines:
        for prefix in filter(None, map(prefix_of, lines)):
            places.setdefault(prefix, len(places))
    return places


def deal_commands(lines, places, feeds):
    """Divides commands among feeds; several may be about a prefix, and a purge goes to all feeds."""
    for line in lines:
        prefix = prefix_of(line)
        for feed in [feeds[places[prefix] * len(feeds) // len(places)]] if prefix else feeds:
            feed.write(line)

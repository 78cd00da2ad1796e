"""Shared by the converters from a table: the best route of each prefix, as `yarib table` or `yarib run` prints it."""
import argparse
import functools
import itertools
import json
import re

import feeds
from rows import ROW

REPORT = re.compile(r"\d+:\d+ .+")
# a report's text for a line whose route is not in the table
NOT_TAKEN = re.compile(r".* (?:full|refused|fault E\d)")
HEAD = re.compile(r"table (\d+)")
# the last line of `yarib table --total`, as text and as JSON
TOTAL, TOTAL_BEGINS = re.compile(r'total (\d+)|\{"total":(\d+)\}'), ("total", '{"total"')
# the name of an interface: the commands have it between blanks or quotes
INTERFACE = re.compile(r"[A-Za-z0-9_][A-Za-z0-9_.@+-]{0,126}")
NOT_IN_TABLE = "lines of the report say full, refused or fault: their routes are not in the table"


def table_lines(lines, notes, is_partial):
    """The table's lines: those after `table COUNT`, as `yarib run` prints them, or those before `total COUNT`, as `yarib
    table --total` does. A table without its count, or with another one, is refused unless it may be a part."""
    given = iter(lines)
    not_taken, head, read = after_report(given)
    rows, total = 0, None
    for line in itertools.chain(read, given):
        if line.startswith(TOTAL_BEGINS) and (total := TOTAL.fullmatch(line)):
            break
        rows += 1
        yield line
    refuse_more(given)
    if not is_partial:
        check_count(rows, head or total)
    if not_taken:
        notes.tell(NOT_IN_TABLE, not_taken, differs=True)


def after_report(given):
    """Reads the report of `yarib run`, if there is one, up to `table COUNT`. Returns the number of reported commands that
    left no route, the match of `table COUNT`, and the table's lines that were read."""
    reports = not_taken = 0
    for line in given:
        if not REPORT.fullmatch(line):
            head = HEAD.fullmatch(line)
            if head or not reports:
                return not_taken, head, [] if head else [line]
            break
        reports += 1
        not_taken += NOT_TAKEN.fullmatch(line) is not None
    raise feeds.Refused("the table is missing: the input is only a report")


def refuse_more(given):
    """The count is the last line."""
    for line in given:
        raise feeds.Wrong(f"there is more after the table's last line: {line[:100]!r}")


def check_count(rows, count):
    """Refuses a table with another number of lines than it should have."""
    if count is None:
        raise feeds.Refused("the table may be truncated, since its last line isn't `total N`: use the output of `yarib table "
                            "--total`, or --partial for a part of a table")
    number = int(next(filter(None, count.groups())))
    if rows != number:
        raise feeds.Refused(f"the table should have {number} routes and has {rows}: use the whole table, or --partial")


def route_of(line):
    """The prefix and the next hop of a line of the table, which names a feed by its number or (--names) by its name; with
    --json it is an object."""
    if line.startswith("{"):
        return route_of_object(line)
    found = ROW.fullmatch(line)
    if found is None:
        raise ValueError
    return found.groups()


def route_of_object(line):
    try:
        route = json.loads(line)
        prefix = feeds.member(route, "prefix", str)
        is_discarded = route.get("via") is None and feeds.member(route, "discard", bool)
        return prefix, feeds.DISCARD if is_discarded else feeds.member(route, "via", str)
    except feeds.Missing as missing:
        raise feeds.Wrong(str(missing)) from None
    except RecursionError as error:
        raise ValueError from error


def best_routes(arguments, notes):
    """The prefixes and next hops of the best routes: the first line of each prefix."""
    best = {}
    lines = feeds.Lines(arguments.most)
    hops = {feeds.DISCARD: feeds.DISCARD}
    with lines.named():
        for line in table_lines(lines, notes, arguments.partial):
            prefix, hop = route_of(line)
            if hop not in hops:
                if not feeds.is_address(hop):
                    raise ValueError
                hops[hop] = hop
            if prefix not in best:
                if not feeds.is_prefix(prefix):
                    raise ValueError
                best[prefix] = hops[hop]
    if not best:
        raise feeds.Refused("the table has no routes; nothing is written")
    return best


def kinds(devices, onlink):
    """The kind of a route with a next hop, and its interface: that of the longest connected network that contains the
    next hop, if there is one."""
    networks = {}
    for prefix, device in devices.items():
        address, _, length = prefix.partition("/")
        networks.setdefault(feeds.HOST_BITS[length], {})[feeds.address_number(address)] = device
    networks = sorted(networks.items())

    @functools.lru_cache(feeds.MOST_KNOWN)
    def kind(hop):
        if hop in (feeds.DISCARD, feeds.CONNECTED):
            return hop, None
        number = feeds.address_number(hop)
        found = (bases[number & ~past] for past, bases in networks if number & ~past in bases)
        device = next(found, None)
        return ("outside", onlink) if device is None else ("via", device)

    return kind


def devices_of(connected, named):
    """The interface of each connected network: `PREFIX=NAME`, or `NAME` if there is only one."""
    pairs = [word.split("=", 1) for word in named if "=" in word]
    devices = dict(pairs)
    for prefix, name in pairs:
        if devices[prefix] != name:
            raise feeds.Refused(f"--device {prefix}={name} and --device {prefix}={devices[prefix]}: give its interface once")
    plain = [word for word in named if "=" not in word]
    if len(plain) > 1:
        raise feeds.Refused(f"--device {plain[0]} and --device {plain[1]}: give each with its network, PREFIX=NAME")
    for prefix in devices:
        if prefix not in connected:
            raise feeds.Refused(f"--device {prefix}={devices[prefix]}: that isn't a connected network of the table")
    left = [prefix for prefix in connected if prefix not in devices]
    if not plain and left:
        raise feeds.Refused(f"{left[0]} is a connected network: name its interface with --device")
    if plain and connected and not left:
        raise feeds.Refused(f"--device {plain[0]}: each connected network of the table has an interface already")
    if len(left) > 1:
        several = ", ".join(left)
        raise feeds.Refused(f"several connected networks ({several}): name each interface with --device PREFIX=NAME")
    return devices | {prefix: plain[0] for prefix in left}


def interface(text):
    """The name of an interface of the command line."""
    if not INTERFACE.fullmatch(text):
        raise argparse.ArgumentTypeError(f"{text!r} is not the name of an interface")
    return text


def network_interface(text):
    """The interface of a network, after its prefix, or of the only one."""
    interface(text.partition("=")[2] if "=" in text else text)
    return text


def options(documentation):
    parser = feeds.plain_parser(documentation)
    parser.add_argument("--device", metavar="[PREFIX=]NAME", action="append", default=[], type=network_interface,
                        help="the interface of a connected network (next hop 0.0.0.0); without PREFIX, of the only one")
    parser.add_argument("--onlink", metavar="NAME", type=interface,
                        help="the interface for next hops outside all connected networks of the table")
    parser.add_argument("--partial", action="store_true",
                        help="accept a part of a table: without the last line `total N`, or with another number of routes")
    return parser


def around(patterns, hop, kind, device):
    """The text that a pattern writes before a route's prefix and the text after it."""
    before, _, behind = patterns[kind].partition("{prefix}")
    return before, behind.format(hop=hop, device=device)


def convert(patterns, arguments, told_outside, before="", after="", further=None):
    """Writes each best route by the pattern of its kind; connected networks come first, since they contain next hops.
    What `further` makes of the best routes comes last. Returns the exit status."""
    notes = feeds.Notes()
    best = best_routes(arguments, notes)
    lines = list(further(best)) if further else []
    connected = [prefix for prefix, hop in best.items() if hop == feeds.CONNECTED]
    devices = devices_of(connected, arguments.device)
    kind = kinds(devices, arguments.onlink)
    if arguments.onlink:
        patterns = patterns | {"outside": patterns["onlink"]}
    text = functools.lru_cache(feeds.MOST_KNOWN)(lambda hop: around(patterns, hop, *kind(hop)))
    with feeds.output() as output:
        output.write(before)
        output.writelines(patterns["device"].format(prefix=prefix, device=devices[prefix]) for prefix in connected)
        output.writelines(prefix.join(text(hop)) for prefix, hop in best.items() if hop != feeds.CONNECTED)
        output.writelines(lines)
        output.write(after)
    for name, number in notes.told.items():
        feeds.say(f"{number} {name} (status {feeds.OTHERWISE})")
    outside = sum(kind(hop)[0] == "outside" for hop in best.values())
    if outside and not arguments.onlink:
        feeds.say(f"{outside} routes have a next hop outside all connected networks of the table: {told_outside} "
                  "(use --onlink NAME to name the interface)")
    return feeds.OTHERWISE if notes.differs else 0

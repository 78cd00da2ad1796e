"""Reads what `birdc show route` prints, of BIRD 2 and BIRD 3, with all attributes or without."""
import functools
import re
import typing

import choice
import feeds

# a route's prefix (blanks for a further route to the same prefix), its kind and source, and what follows its time
FIRST = re.compile(r"(\S*) +(\w+ \[\S+) [^]]*(\].*)")
# after the choice some protocols show a route's type (`I` or `E1` of OSPF), and after the preference other data
KIND = re.compile(r"(unicast|blackhole|unreachable|prohibited) \[(\S+)")
# with the preference, BGP shows whether MED puts the route back (`-`) and whether the peer is gone (`s`)
CHOICE = re.compile(
    r"\](?: (?P<chosen>[*!]))?(?: [A-Z]\w*)? \((?P<preference>\d+)-?(?P<stale>s?)(?:/(?P<cost>[^)]*))?\)(?: .*)?"
)
# a route of a table that has more than prefixes: ROA, VPN, flow specifications
OTHER = re.compile(r".* \[\S+ [^]]*\](?: [*!])?(?: [A-Z]\w*)? \(\d+-?s?(?:/[^)]*)?\)(?: .*)?")
# how the names of BGP's attributes begin, in BIRD 2 and in BIRD 3
BGP = r"(?:BGP\.|bgp_)"
# how the first line of a route of BGP ends: with the AS of its path's origin, and the origin
OF_BGP = re.compile(r"\) \[(?:AS\d+)?[ie?]\]$")
# attributes that aren't used, and further lines of long ones: many routes share what remains
UNUSED = re.compile(rf"\n\t(?:{BGP}(?!next_hop: |origin: |local_pref: |originator_id: |cluster_list: |aigp: ).*|Internal .*|\t.+)")
# The first line of a route as most are: the prefix, kind and source, the peer if it isn't the next hop, and what follows the time,
# which has 12 or 10 characters. The AS of a path's origin isn't used, and may be the only difference between two routes.
USUAL_FIRST = r"(\S*+) ++(unicast \[\S++) (?:.{12}|.{10})( from [^]\n]++)?+(\][^)\n]*+\))(?: \[.*+)?+"
# its next hop
USUAL_HOP = r"\n\tvia .*+"
# any other entry
ANY_OTHER = r"\n(?!\t)|(.*+(?:\n\t.*+)*+)\n"
# A route of BGP as most are, with all attributes of BIRD 2: the same parts, the lines that are used, and between these the AS path,
# which is only a sequence. After the local preference nothing is used.
USUAL = re.compile(
    rf"{USUAL_FIRST}({USUAL_HOP}\n\tType: BGP .*+\n\tBGP\.origin: .*+)\n\tBGP\.as_path: ([^[({{\n]*+)"
    r"(\n\tBGP\.next_hop: .*+(?:\n\tBGP\.med: \d++)?+\n\tBGP\.local_pref: \d++)"
    rf"(?:\n\tBGP\.(?!origin|as_path|next_hop|med|local_pref|cluster_list|aigp).*+)*+{ANY_OTHER}"
)
# A usual route in a listing without attributes: the same parts, two of them empty.
PLAIN = re.compile(rf"{USUAL_FIRST}({USUAL_HOP})()(){ANY_OTHER}")
# what such routes are compared by
HIDDEN = "hidden"
VIA = re.compile(r"\tvia (\S+) on (\S+).*")
# the weight of one of several next hops
WEIGHT = re.compile(r" weight (\d+)(?: |$)")
# a next hop with MPLS labels
LABELS = re.compile(r"\tvia \S+ on \S+ mpls .+")
DEVICE = re.compile(r"\tdev (\S+).*")
NEXT_HOP = re.compile(rf"\t{BGP}next_hop: (\S+).*")
LOCAL_PREF = re.compile(rf"\t{BGP}local_pref: (\d+)")
MED = re.compile(r"\n\tBGP\.med: (\d+)")
ORIGIN = re.compile(rf"\t{BGP}origin: (IGP|EGP|Incomplete)")
ORIGINATOR = re.compile(rf"\t{BGP}originator_id: (\S+)")
CLUSTERS = re.compile(rf"\t{BGP}cluster_list: (.*)")
AIGP = re.compile(rf"\t{BGP}aigp: (\d+)")
# the protocol that made a route
SOURCE = re.compile(r"\t(?:Type|source): (\S+).*")
# an attribute, and a further line of a long one
ATTRIBUTE = re.compile(r"\t[A-Za-z][^:]*:.*|\tBGP\..*|\t\t.+")
# the protocol of connected networks, and the preference of its routes in BIRD's default configuration
DIRECT, OF_DIRECT = "device", 240
TABLE = re.compile(r"Table (\S+):")
# of `show protocols all`: the first line of a protocol, and a line of its data
PROTOCOL = re.compile(r"\S+ +[A-Z]\w* ")
OF_PROTOCOL = re.compile(r" {4}(Neighbor ID|Neighbor AS|Local AS|Session): +(.*)")
# with `all` each route has attributes
IN_FULL = re.compile(r"\n\t[A-Za-z][^:\n]*: ")
# the first line of a route's attributes in BIRD 2, and the last one in BIRD 3
TYPE, INTERNAL = "\n\tType: ", "\n\tInternal route handling values: "
CUT = ", as if the input were truncated there"
AROUND = re.compile(r"BIRD v?[23]\.\S+ ready\.|Access restricted|")
OTHER_BIRD = re.compile(r"BIRD v?(\d\S*) ready\.")


class Names(typing.NamedTuple):
    """How lines of attributes begin that differ from prefix to prefix."""

    path: str
    med: str

    def path_of(self, entry):
        """The AS path of an entry; "" if it isn't shown or is empty."""
        return value_of(entry, self.path)

    def med_of(self, entry):
        """The text of MED, which is 0 if it isn't shown."""
        return value_of(entry, self.med) or "0"


def value_of(entry, name):
    """The text after the name in an entry; "" if that isn't there."""
    begin = entry.find(name)
    if begin < 0:
        return ""
    begin += len(name)
    end = entry.find("\n", begin)
    return entry[begin:end] if end >= 0 else entry[begin:]


PATH_OF_BIRD_2 = "\tBGP.as_path: "
BIRD_2, BIRD_3 = Names(PATH_OF_BIRD_2, "\tBGP.med: "), Names("\tbgp_path: ", "\tbgp_med: ")


class Attributes:
    """The data in the lines after a route's first."""

    def __init__(self):
        # the addresses of next hops, None for those that are only an interface, their interfaces and their weights
        self.hops, self.interfaces, self.weights = [], [], []
        self.peer_hop = self.local_pref = self.originator = self.aigp = None
        self.is_labelled = self.is_of_bgp = False
        # the protocol that made the route, "" if it isn't shown
        self.source = ""
        self.names = BIRD_2
        self.origin, self.clusters = choice.ORIGINS["INCOMPLETE"], 0

    def read(self, line):
        """Reads a line; ValueError if it isn't a line of BIRD."""
        if match := VIA.fullmatch(line):
            feeds.is_address(match[1])
            self.add_hop(match[1], match[2], line)
            self.is_labelled = self.is_labelled or LABELS.fullmatch(line) is not None
        elif match := DEVICE.fullmatch(line):
            self.add_hop(None, match[1], line)
        elif match := SOURCE.fullmatch(line):
            self.source, self.is_of_bgp = match[1], match[1] == "BGP"
            self.names = BIRD_3 if line.startswith("\tsource") else BIRD_2
        elif not self.is_read_of_bgp(line) and not ATTRIBUTE.fullmatch(line):
            raise ValueError

    def add_hop(self, hop, interface, line):
        """Adds a next hop; the heaviest comes first, and those of the same weight are in the order of the lines."""
        match = WEIGHT.search(line)
        weight = int(match[1]) if match else 1
        place = sum(other >= weight for other in self.weights)
        self.hops.insert(place, hop)
        self.interfaces.insert(place, interface)
        self.weights.insert(place, weight)

    def is_read_of_bgp(self, line):
        """Reads a line of an attribute of BGP; returns False for any other."""
        if match := NEXT_HOP.fullmatch(line):
            self.peer_hop = match[1]
        elif match := LOCAL_PREF.fullmatch(line):
            self.local_pref = int(match[1])
        elif match := ORIGIN.fullmatch(line):
            self.origin = choice.ORIGINS[match[1].upper()]
        elif match := ORIGINATOR.fullmatch(line):
            self.originator = match[1]
        elif match := CLUSTERS.fullmatch(line):
            self.clusters = len(match[1].split())
        elif match := AIGP.fullmatch(line):
            self.aigp = int(match[1])
        else:
            return False
        return True


def attributes_of(more):
    """The data in the lines after a route's first; each has a line end before it."""
    attributes = Attributes()
    for behind, line in enumerate(more.split("\n")[1:], 1):
        try:
            attributes.read(line)
        except ValueError as error:
            error.behind = behind
            raise
    return attributes


class Route:
    """A route as BIRD lists it, without its prefix, its time and its AS path. Many prefixes have the same."""

    def __init__(self, kind, source, chosen, preference, stale, cost, attributes):
        self.kind, self.source, self.chosen, self.attributes = kind, source, chosen, attributes
        self.is_reached = kind != "unreachable"
        # a next hop is only an interface, and no peer gave another
        self.is_over_device = attributes is not None and None in attributes.hops and attributes.peer_hop is None
        self.is_stale, self.cost = bool(stale), cost
        self.preference = int(preference)
        # true for a connected network, recognized by its preference if the protocol isn't shown
        self.is_direct = attributes is not None and (attributes.source == DIRECT or not attributes.source and self.preference == OF_DIRECT)
        # the offers, once they are known, and for BGP the values it is compared by: those before MED, without the path's length,
        # and all by its peer's address
        self.offers, self.merit, self.standings = None, None, {}
        # the next hop that is its peer's address
        self.hop_of_peer = next(filter(None, attributes.hops), attributes.peer_hop or "") if attributes else ""
        # of one as most are: its peer's address and MED, its preference if it shows BGP's criteria and else HIDDEN, and once they are
        # known the values before and after MED, for a path that isn't empty
        self.peer, self.med, self.compared_as, self.standing = None, 0, None, None

    def with_med(self, med):
        """The same route with another MED."""
        made = Route.__new__(Route)
        made.__dict__.update(self.__dict__, med=med)
        return made


OF_OTHER_KIND = Route("", "", None, 0, "", None, None)


def new_table(tables, name):
    if name in tables:
        raise feeds.Refused(f"{name} occurs twice: the input has more than one output of BIRD")
    tables[name] = None
    return name


def new_route(head, used):
    """The route of an entry's parts, or None if they aren't a route."""
    kind, chosen = KIND.fullmatch(head), CHOICE.fullmatch(used.partition("\n")[0])
    if not kind or not chosen:
        return None
    attributes = attributes_of(used)
    if kind[1] == "unicast" and not attributes.hops:
        raise feeds.Wrong(f"the route has neither `via` nor `dev`{CUT}")
    return Route(*kind.groups(), *chosen.groups(), attributes)


known_route = functools.lru_cache(feeds.MOST_KNOWN)(new_route)


def parts_of(entry):
    """The parts of an entry: its prefix, its kind and source, what follows its time, and its further lines. The end of the
    first line, the AS of a path's origin, isn't used, and may be the only difference between two routes."""
    end = entry.find("\n")
    end = len(entry) if end < 0 else end
    used = entry.rfind(" [", 0, end) if entry.startswith("]", end - 1) else end
    match = FIRST.fullmatch(entry, 0, used)
    return (*match.groups(), entry[end:]) if match else None


class Known(dict):
    """The routes of parts of usual entries. Those that differ only in MED share all else; they may be many."""

    def __missing__(self, parts):
        head, sender, first, lines, values = parts
        med = MED.search(values)
        if med:
            like = self[head, sender, first, lines, values.replace(med[0], "", 1)]
            made = like and like.with_med(int(med[1]))
        elif made := new_route(head, f"{first}{lines}{values}"):
            made.peer, made.compared_as = sender.removeprefix(" from ") or made.hop_of_peer, made.preference if values else HIDDEN
        if made:
            if len(self) >= feeds.MOST_KNOWN:
                self.clear()
            self[parts] = made
        return made


KNOWN = Known()


def listed_of(entry):
    """The prefix of an entry, and its route with the AS path and the text of the entry. Usual entries have None for the text, and
    others for the path, which is still to be read. None for both if it isn't a route to a prefix."""
    prefix, head, sender, first, lines, path, values, other = entry
    if not head:
        prefix, route = route_of(other)
        return prefix, route and (route, None, other)
    try:
        route = KNOWN[head, sender, first, lines, values]
    except ValueError:
        # the same, and which line it is
        attributes_of(text_of(entry).partition("]")[2])
        raise
    return (prefix, (route, path, None)) if route else (None, None)


def text_of(entry):
    """The text of an entry, without what isn't used after the local preference."""
    prefix, head, sender, first, lines, path, values, other = entry
    return f"{prefix} {head} -{sender}{first}{lines}\n{PATH_OF_BIRD_2}{path}{values}" if head else other


def route_of(entry):
    """The prefix and the route of any entry; None for both if it isn't a route to a prefix."""
    parts = parts_of(entry)
    if parts is None:
        return None, None
    prefix, head, first, further = parts
    is_long = "\tBGP." in further or "\t\t" in further or "\tInternal " in further
    try:
        route = known_route(head, first + UNUSED.sub("", further) if is_long else first + further)
    except ValueError:
        # the same, and which line it is
        attributes_of(first + further)
        raise
    return (prefix, route) if route else (None, None)


class Place:
    """The place of a reader in its listing: the table, whether routes have all their attributes (None before the first one),
    the tables so far, and those of them with IPv4 routes that may be meant."""

    def __init__(self, table=None, in_full=None):
        self.table, self.in_full = table, in_full
        self.tables = {} if table is None else {table: None}
        self.with_routes = list(self.tables)

    def state(self):
        """What matters to a piece of the listing; None before the first route, and in a table that isn't converted."""
        is_known = self.in_full is not None and self.with_routes == [self.table]
        return (self.table, self.in_full) if is_known else None


class Listing(feeds.Entries):
    """A listing. An entry is read as the parts of `USUAL` or `PLAIN`."""

    def read(self, text, _number):
        return (USUAL if PATH_OF_BIRD_2 in text else PLAIN).findall(f"{text}\n")


def groups(entries, place):
    """For each prefix of each table: the table, the prefix, whether it is IPv4, and its routes as `listed_of` returns them,
    in BIRD's order. Routes of another kind have None for prefix and `of_ipv4`. A further route to a prefix has blanks
    instead of it."""
    prefix = of_ipv4 = None
    routes, known, boundary = [], KNOWN.get, feeds.BOUNDARY
    for entry in entries:
        if entry is boundary:
            if routes:
                yield place.table, prefix, of_ipv4, routes
            prefix, routes = None, []
            continue
        text, head, sender, first, lines, path, values, _ = entry
        if text == "" and prefix is not None and (route := known((head, sender, first, lines, values))):
            # as most are
            routes.append((route, path, None))
            continue
        text, listed = listed_of(entry) if place.table is not None else (None, None)
        if place.in_full is None and listed:
            place.in_full = shows_attributes(*listed)
        if text == "" and routes:
            routes.append(listed)
            continue
        if routes:
            yield place.table, prefix, of_ipv4, routes
        if text and "/" in text:
            prefix, of_ipv4, routes = text, feeds.prefix_of(text) is not None, [listed]
            continue
        first, behind, more = text_of(entry).partition("\n")
        if place.table is not None and OTHER.fullmatch(first) and (first[0] != " " or prefix is None and routes):
            attributes_of(behind + more)
            prefix, of_ipv4, routes = None, None, [(OF_OTHER_KIND, None, text_of(entry))]
        else:
            prefix, routes = None, []
            place.table = around(first, more, place.table, place.tables)
    if routes:
        if place.in_full:
            refuse_cut(*routes[-1])
        yield place.table, prefix, of_ipv4, routes


def shows_attributes(route, _, entry):
    """Returns True for a route of a listing with all attributes."""
    return route.attributes.is_of_bgp if entry is None else IN_FULL.search(entry) is not None


def refuse_cut(route, _, entry):
    """The last of the routes with all their attributes has all of them as well."""
    if entry is None:
        is_whole = route.attributes.is_of_bgp
    else:
        is_whole = TYPE in entry and (f"{TYPE}BGP" not in entry or "\n\tBGP.local_pref: " in entry) or INTERNAL in entry
    if not is_whole:
        raise feeds.Wrong(f"attributes are missing{CUT}")


def around(line, more, table, tables):
    """The table after a line that isn't a route."""
    if more:
        raise ValueError
    if match := TABLE.fullmatch(line):
        return new_table(tables, match[1])
    if AROUND.fullmatch(line):
        return table
    if match := OTHER_BIRD.fullmatch(line):
        raise feeds.Wrong(f"this is output of BIRD {match[1]}, and only that of BIRD 2 and 3 is supported")
    raise ValueError


def refuse_hidden_hop(prefix, entry):
    """Refuses a BGP route over an interface only if its attributes, with the next hop, aren't shown."""
    if OF_BGP.search(entry.partition("\n")[0]):
        raise feeds.Wrong(f"a BGP route to {prefix} leads over an interface only, and its next hop isn't shown: use `show route all`")


class Session(typing.NamedTuple):
    """A session of BGP: the identifier of the other speaker, "" if the session is down, and whether it is internal."""

    identifier: str
    is_internal: bool


def sessions(file):
    """The sessions of BGP, by the names of their protocols, in a file that `birdc show protocols all` wrote."""
    found, name, shown = {}, None, {}
    with feeds.naming(file), open(file, errors="replace") as lines:
        for line in lines:
            if PROTOCOL.match(line):
                name, kind, *_ = line.split()
                shown = found.setdefault(name, {}) if kind == "BGP" else {}
            elif match := OF_PROTOCOL.match(line):
                shown[match[1]] = match[2]
    if not found:
        raise feeds.Refused(f"{file} is not the output of `birdc show protocols all`: it has no session of BGP")
    return {name: Session(shown.get("Neighbor ID", ""), is_internal(shown)) for name, shown in found.items()}


def is_internal(shown):
    """Returns True if the shown session is one between speakers of the same AS; one that is down shows only these."""
    if "Session" in shown:
        return shown["Session"].startswith("internal")
    return shown.get("Neighbor AS") == shown.get("Local AS")

"""What a route collector recorded of its peers, a table dump and updates, as feeds: shared by the converters that read
it."""
import array
import collections
import functools
import ipaddress
import itertools
import re

import choice
import feeds

ESTABLISHED = "6"
DUMPED, ANNOUNCED, WITHDRAWN, ENDED = "B", "A", "W", "STATE"
UNCHANGED = {
    ANNOUNCED: "announcements that change nothing",
    DUMPED: "announcements that change nothing",
    WITHDRAWN: "withdrawals without a route",
}
# in a feed's line, the preference that is not known yet, with its blanks; it matches no other part of a line
UNSET = " 0 "
# the bits of an address with its version, of an AS, and of a number
PLACE_BITS = 136 + 64 + 32
# the number of a peer's keys of merits that wait: few of them take less memory as they are than together
MOST_KEYS = 1024
# the next hop of a route without one, as bgpdump prints it
NO_HOP = "255.255.255.255"


class Merits:
    """The key of each line's merit (`Peer.merit_key`) in a feed of dumped routes, in little memory."""

    def __init__(self):
        # Most keys are numbers of a byte. Of other lines there are the different keys, and the number of one for each line.
        self.parts = []

    def extend(self, keys):
        """Adds the keys of further lines."""
        try:
            part = bytes(keys)
        except (ValueError, TypeError):
            different = {key: number for number, key in enumerate(dict.fromkeys(keys))}
            size = next(size for size in "BHI" if len(different) <= 256 ** array.array(size).itemsize)
            part = [*different], size, array.array(size, map(different.get, keys)).tobytes()
        self.join([part])

    def join(self, parts):
        """Adds the parts of further lines."""
        for part in parts:
            if type(part) is tuple:
                self.parts.append(part)
            elif self.parts and type(self.parts[-1]) is bytearray:
                self.parts[-1] += part
            else:
                self.parts.append(bytearray(part))

    def __iter__(self):
        for part in self.parts:
            if type(part) is tuple:
                keys, size, numbers = part
                yield from map(keys.__getitem__, array.array(size, numbers))
            else:
                yield from part


class Peer:
    """A peer, and the lines of its feed. Its BGP identifier is 0 if the input doesn't show it."""

    def __init__(self, address, system, number, parts, internal, identifier=0):
        feeds.is_address(address)
        parsed = ipaddress.ip_address(address)
        # no two peers have the same
        self.place = ((parsed.version << 128 | int(parsed)) << 64 | int(system)) << 32 | number
        self.internal, self.identifier = internal, identifier
        self.order = self.order_of(identifier, 0)
        # a line has two of them
        self.parts, self.add_part = parts, parts.append
        # the keys of the merits of dumped routes' lines: the last ones, and those before
        self.keys, self.merits = [], Merits()
        self.add_key = self.keys.append
        # if there are updates, for each line the number of its route's merit, or 0, and these numbers by key
        self.lines, self.numbers = array.array("I"), {}
        self.add_merit = self.lines.append
        self.routes = {}
        self.paths = {}
        self.announced = False
        # of updates, how many routes it has had at a time
        self.most_routes = 0
        self.stamp, self.time = "", 0

    def merit_key(self, merit, order):
        """The key of a merit; nearly all routes of a peer have its order."""
        return merit if order is self.order else (merit, order)

    def settle(self):
        """Keeps the last keys in little memory."""
        if self.keys:
            self.merits.extend(self.keys)
            self.keys.clear()

    def has_lines(self):
        return bool(self.keys or self.merits.parts or self.lines)

    def order_of(self, identifier, clusters):
        """What is compared after MED, as one number: kind of session, identifier, CLUSTER_LIST, address and AS."""
        return ((self.internal << 32 | identifier) << 16 | clusters) << PLACE_BITS | self.place


@functools.lru_cache(feeds.MOST_KNOWN)
def number_of(text):
    """The number of a field that may be empty."""
    if text and not text.isdecimal():
        raise ValueError
    number = int(text or 0)
    if number > feeds.GREATEST:
        raise feeds.Wrong(f"{text} is greater than {feeds.GREATEST}")
    return number


@functools.lru_cache(feeds.MOST_KNOWN)
def merit_of(local_pref, length, origin):
    """The values compared before MED, as one number; collectors write 0 if no local preference is set."""
    return choice.before_med(local_pref or choice.LOCAL_PREF, length, origin)


def twice(text):
    return feeds.Refused(f"{text} occurs twice: the input has more than one table dump")


class Converter:
    """Takes dumped routes and updates. A route is a candidate of `choice`: its merit (what is compared before MED), its order
    (what is compared after MED), the path's number, MED, the AS path, the peer, and the next hop."""

    def __init__(self, arguments, notes, files, met):
        self.arguments, self.notes, self.files = arguments, notes, files
        self.by_rank = arguments.by == "rank"
        self.always_compare_med = arguments.always_compare_med
        # the bits of a merit after those that are compared before MED
        self.med_bits = choice.MED_BITS if self.always_compare_med else 0
        self.own_system = arguments.local_as and re.compile(rf"\b{arguments.local_as}\b")
        self.peers, self.merits, self.hops = {}, {}, {}
        # values that many routes share are kept once
        self.same = {}
        # the dump's prefixes so far, the text and the prefix of the last one, and its routes
        self.met, self.text, self.prefix, self.group = met, None, None, []
        self.updates = self.states = False

    def peer(self, key, identifier=0):
        """The peer of that address and AS."""
        if key not in self.peers:
            internal = key[1] == str(self.arguments.local_as)
            self.peers[key] = Peer(*key, len(self.peers), self.files.parts(key), internal, identifier)
        return self.peers[key]

    def hop(self, prefix, text):
        """The next hop that is written, or None without one."""
        if text not in self.hops:
            self.hops[text] = None if text == NO_HOP else feeds.hop_of(prefix, text, self.arguments)
        return self.hops[text]

    def route(self, prefix, merit, med, path, hop, peer, number, order=None):
        """The route with these values, or None if it can't be used; this is counted. The order is its peer's if none is
        given."""
        hop = self.hops.get(hop) or self.hop(prefix, hop)
        if hop is None:
            self.notes.leave_out(f"without a next hop ({NO_HOP})", differs=True)
            return None
        if self.own_system and self.own_system.search(path):
            self.notes.leave_out(f"with AS {self.arguments.local_as} in the path (--local-as)")
            return None
        if self.always_compare_med:
            merit, med = choice.with_med(merit, med), 0
        return merit, order or peer.order, number, med, path, peer, hop

    def preference_of(self, merit):
        """The preference of a route by its local preference."""
        return choice.preference_of(merit >> self.med_bits)

    def merit_number(self, merit, order, peer):
        """Numbers the merits that preferences are made from, in the order of their first occurrence."""
        key = (merit, order) if self.by_rank else self.preference_of(merit)
        number = peer.numbers[peer.merit_key(merit, order)] = self.merits.setdefault(key, len(self.merits) + 1)
        return number

    def take_dumped(self, route, peer):
        """Takes a route of the dump, which is to the prefix of the group that was begun; None if it can't be used."""
        peer.announced = True
        if route:
            self.group.append(route)

    def begin_group(self, text):
        """Begins the routes to that prefix. Two texts that differ only past the prefix's length are the same prefix."""
        prefix = feeds.prefix_of(text, True)
        if prefix is None or prefix != self.prefix:
            self.begin_prefix(prefix, text)
        self.text = text

    def begin_prefix(self, prefix, text):
        """Begins the routes to another prefix, or to None if the prefix isn't one of IPv4."""
        if self.group:
            self.end_group()
        if prefix is not None and not self.met.add(prefix):
            raise twice(text)
        self.prefix = prefix

    def begin_each(self, places, texts):
        """The same for several prefixes whose places are known."""
        if self.group:
            self.end_group()
        if (number := self.met.first_met(places)) is not None:
            raise twice(texts[number])
        self.text = self.prefix = texts[-1]

    def begins(self, text):
        """Begins the routes to a prefix, if they weren't begun; returns False if it isn't one of IPv4."""
        if text != self.text:
            self.begin_group(text)
        return self.prefix is not None

    def end_group(self):
        """Writes the routes to one prefix."""
        routes, self.group = self.group, []
        if len(routes) > 1:
            best = choice.best_of_each(routes)
            if len(best) < len(routes):
                self.notes.leave_out("further paths of a peer to the same prefix", len(routes) - len(best))
            routes = best
        begin, by_rank = f"add {self.prefix} ", self.by_rank
        for end_of, (merit, order, _, _, _, peer, hop) in zip(feeds.ends(len(routes)), routes):
            peer.add_part(begin)
            peer.add_part(end_of[hop] if by_rank else f"{self.preference_of(merit)} {hop}\n")
            # as `merit_key` does, which would take as long as all of this
            peer.add_key(merit if order is peer.order else (merit, order))

    def number_lines(self):
        """Numbers the merits of the lines of dumped routes, from the first update on."""
        for peer in self.peers.values():
            peer.settle()
            keys = (key if type(key) is tuple else (key, peer.order) for key in peer.merits)
            peer.lines.extend(peer.numbers.get(peer.merit_key(*key)) or self.merit_number(*key, peer) for key in keys)
            peer.merits = Merits()

    def after_block(self):
        """Keeps and writes what waits, if that is much."""
        for peer in self.peers.values():
            if len(peer.keys) >= MOST_KEYS:
                peer.settle()
        self.files.flush_many()

    def end_piece(self):
        """Ends a part of the dump, after which another prefix comes."""
        self.end_group()
        self.text = self.prefix = None

    def state(self):
        """The state before a piece of the dump that matters to the piece: none, as long as no updates came."""
        return None if self.updates else True

    def gathered(self):
        """What was read, for `join`."""
        if self.updates:
            raise feeds.Refused("there are updates")
        for peer in self.peers.values():
            peer.settle()
        peers = [(key, peer.announced, peer.merits.parts) for key, peer in self.peers.items()]
        return self.met.kept(), peers, self.files.gathered(), self.notes.counted()

    def join(self, gathered):
        """Adds what was read of a later part of the dump; returns False if a prefix occurs twice."""
        prefixes, peers, texts, counted = gathered
        if not self.met.join(prefixes):
            return False
        for key, announced, merits in peers:
            peer = self.peers.get(key) or self.peer(key)
            peer.announced = peer.announced or announced
            # its lines before these
            peer.settle()
            peer.merits.join(merits)
        self.files.join(texts)
        self.notes.join(counted)
        return True

    def begin_updates(self):
        """From the first update on it has to be known which routes a peer has."""
        self.end_group()
        self.files.flush()
        self.updates, self.met = True, None
        self.number_lines()
        for key, peer in self.peers.items():
            if peer.lines:
                self.files.rewrite(key, self.keep_dumped(key, peer))

    def keep_dumped(self, key, peer):
        """The lines of a peer's dumped routes with the preference 0, while what the peer has is kept."""
        for line, merit in zip(self.files.written(key), peer.lines):
            _, prefix, _, hop = line.split()
            self.keep(peer, prefix, (merit, hop))
            yield f"add {prefix}{UNSET}{hop}\n"

    def begin_update(self, stamp, peer):
        """Takes up an update of a peer at that time."""
        if not self.updates:
            self.begin_updates()
        if stamp != peer.stamp:
            self.compare_time(stamp, peer)

    def take_update(self, kind, prefix, route, number, peer):
        """Takes an announcement or a withdrawal; a route that can't be used is given as None."""
        # a route that can't be used replaces the peer's route (RFC 7606, section 2: treat-as-withdraw)
        if number is not None:
            route = self.best_path(peer, prefix, number, route)
        counted = number is None and (route or kind == WITHDRAWN)
        self.change(peer, prefix, route, UNCHANGED[kind] if counted else None)

    def compare_time(self, stamp, peer):
        """Counts lines that are earlier than the line before. Times aren't used: some lines have fractions of a second,
        and their neighbours have none."""
        time = int(stamp.partition(".")[0])
        if time < peer.time:
            self.notes.tell("lines are earlier than the previous line of the same peer; the order of the input is kept")
        peer.stamp, peer.time = stamp, time

    def end_session(self, before, after, peer):
        self.states = True
        # other changes of state are of sessions that begin, or of a second connection that is given up
        if before != ESTABLISHED or not after.isdecimal():
            return
        if not peer.announced:
            self.notes.tell(
                "ends of sessions (STATE) are of peers that announced nothing: the routes of the ended sessions may have stayed",
                differs=True,
            )
        if peer.routes:
            self.write(peer, "purge\n", 0)
        self.count_routes(peer)
        peer.routes.clear()
        peer.paths.clear()

    def best_path(self, peer, prefix, number, route):
        """The best of the paths that a peer sends, which represents the peer."""
        paths = peer.paths.setdefault(prefix, {})
        paths.pop(number, None)
        if route:
            paths[number] = route
        if len(paths) > 1:
            self.notes.leave_out("further paths of a peer to the same prefix")
        return choice.best_of_each(paths.values())[0] if paths else None

    def change(self, peer, prefix, route, unchanged):
        """Updates the peer's route. If nothing changes, `unchanged` is counted, if given."""
        before = peer.routes.get(prefix)
        now = route and (peer.numbers.get(peer.merit_key(*route[:2])) or self.merit_number(*route[:2], peer), route[choice.WHAT])
        if now == before:
            if unchanged:
                self.notes.leave_out(unchanged)
        elif now is None:
            self.count_routes(peer)
            del peer.routes[prefix]
            self.write(peer, f"withdraw {prefix}\n", 0)
        else:
            self.keep(peer, prefix, now)
            self.write(peer, f"{'replace' if before else 'add'} {prefix}{UNSET}{route[choice.WHAT]}\n", now[0])

    def count_routes(self, peer):
        """Counts the routes that a peer has, before they become fewer."""
        peer.most_routes = max(peer.most_routes, len(peer.routes))

    def keep(self, peer, prefix, now):
        """Keeps what a peer has; many peers have a prefix, and many prefixes have the same."""
        peer.routes[self.same.setdefault(prefix, prefix)] = self.same.setdefault(now, now)

    def write(self, peer, line, merit):
        peer.add_part(line)
        peer.add_part("")
        peer.add_merit(merit)

    def finish(self):
        self.end_group()
        if self.updates:
            self.files.flush()
            self.set_preferences()
            if not self.states:
                self.notes.tell("lines show a session's begin or end (STATE): a peer's routes stay after its end", 0)
            for peer in self.peers.values():
                self.count_routes(peer)
        return self.finish_files()

    def finish_files(self):
        if not self.updates:
            return self.files.finish(self.notes, len(self.met), names=self.names())
        # only those that share a feed have to be counted
        prefixes = len(set().union(*(peer.routes for peer in self.peers.values()))) if self.arguments.merge else 0
        routes = [peer.most_routes for peer in self.peers.values()]
        return self.files.finish(self.notes, prefixes, "commands", self.names(), routes)

    def set_preferences(self):
        """Sets each route's preference to the rank of its merit among all that occur; it depends on nothing else of the
        route."""
        ordered = enumerate(sorted(self.merits), 1)
        places = {self.merits[key]: f" {place if self.by_rank else key} " for place, key in ordered}
        # a line without a route has no preference
        places[0] = UNSET
        for key, peer in self.peers.items():
            if peer.lines:
                preferences = map(places.__getitem__, peer.lines)
                self.files.rewrite(key, map(str.replace, self.files.written(key), itertools.repeat(UNSET), preferences))

    def names(self):
        """A peer's name is its address, with its AS if several peers have the address."""
        counts = collections.Counter(address for (address, _), peer in self.peers.items() if peer.has_lines())
        several = {address for address, count in counts.items() if count > 1}
        return [f"{address}_AS{system}" if address in several else address for address, system in self.files.waiting]


def convert(arguments, given, take, is_in_pieces=False):
    """Converts what `take(given, converter)` reads. If it can be read in pieces, it takes blocks, and other processes convert some
    of the pieces."""
    notes = feeds.Notes()
    with feeds.FeedFiles(arguments) as files:
        converter = Converter(arguments, notes, files, feeds.Prefixes())
        given.after_block = converter.after_block
        if is_in_pieces:
            work = functools.partial(of_piece, arguments, given, take)
            feeds.read_ahead(given, converter.state, work, converter.join, files)
        with given.named():
            take(given.by_block() if is_in_pieces else given, converter)
        return converter.finish()


def of_piece(arguments, given, take, data, _state):
    """What is in a piece of a dump."""
    converter = Converter(arguments, feeds.Notes(), feeds.Gathered(arguments), feeds.Prefixes())
    parts = given.parts(data, ends=True)
    take((feeds.Block(text, given.read(text, feeds.line_ends(text.encode()) + 1), ends) for text, ends in parts), converter)
    return converter.gathered()


def parser(documentation):
    made = feeds.parser(documentation)
    feeds.always_compare_med(made)
    made.add_argument("--local-as", metavar="N", type=feeds.as_number, help="the AS of the router that received the routes")
    return made

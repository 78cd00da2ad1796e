"""BGP's choice among the routes to one prefix: attributes in, order out.

The steps are those of RFC 4271, section 9.1.2.2, after the degree of preference of section 9.1.1; each decides if all
steps before it are tied:

1. The highest local preference.
2. The lowest accumulated IGP metric (AIGP), with the cost of the path to the next hop; a route that has one comes before
   those without (RFC 7311, section 4.1).
3. The shortest AS path: a set counts as one AS, a confederation's segment as none (RFC 5065, section 5.3).
4. The lowest origin: IGP, EGP, INCOMPLETE.
5. The lowest MED (a route without one has 0), only among routes from the same neighbouring AS.
6. EBGP before IBGP; a peer of the same confederation counts as internal (RFC 5065, section 5.3).
7. The lowest cost of the path to the next hop.
8. The lowest BGP identifier of the speaker, or for a reflected route its ORIGINATOR_ID (RFC 4456, section 9).
9. The shortest CLUSTER_LIST (RFC 4456, section 9).
10. The lowest address of the peer.
11. The lowest number among several paths of one peer (RFC 7911 leaves this open).

An attribute that the input doesn't show counts as equal for all routes, so that the next step decides.

MED doesn't give an order: among three routes, each may lose to another. The best route is that of the standard, which
doesn't depend on how the routes are listed: first the best of each neighbouring AS, then the best of these without MED.
Unless they are configured to do so (deterministic MED), BIRD and FRR go through the routes in their listed order
instead, and each time keep the better of two (`in turn`).

The next route is the one that would be the best without any route of the earlier ones' sources; this is the daemon's
choice when their sessions end. When the session of a later source ends, the choice among the others may change, and no
order of the sources can express that."""
import functools
import ipaddress
import operator
import re
import typing

# the maximum of a local preference, a MED and an address
GREATEST = 4294967295
# the local preference of a route without one
LOCAL_PREF = 100
# the accumulated IGP metric of a route without one, which is also the maximum
NO_AIGP = (1 << 64) - 1
ORIGINS = {"IGP": 0, "EGP": 1, "INCOMPLETE": 2}
# a confederation's segments of a path, as bgpdump and FRR print them or as BIRD does, and a set
CONFEDERATION = re.compile(r"\([^)]*\)|\[[^]]*\]")
# how the path begins that came from a peer of the same confederation
INSIDE = ("(", "[")
SET = re.compile(r"\{[^}]*\}")
# how a path begins with a segment that isn't a sequence
OPENING = ("(", "[", "{")
# the neighbouring AS of a path that names none
OWN = ""
# the bits at which the steps before MED begin in their number
LENGTH_AT, AIGP_AT, PREFERENCE_AT, AHEAD_AT, MED_BITS = 2, 32, 96, 128, 32
# A candidate is a tuple of these: the values compared before MED and those compared after it, the number of a peer's
# path, MED, the AS path, the source, and the route that it represents. The lowest of the first three is the best.
BEFORE, BEHIND, NUMBER, MED, PATH, SOURCE, WHAT = range(7)
# the values before MED of a route with the usual local preference, without AIGP; those of others are counted from them
USUAL = GREATEST - LOCAL_PREF << PREFERENCE_AT | NO_AIGP << AIGP_AT
MED_OF, SOURCE_OF = operator.itemgetter(MED), operator.itemgetter(SOURCE)
# the places of two of the values that are compared after MED
INTERNAL, IDENTIFIER = 0, 2


class Attributes(typing.NamedTuple):
    """The attributes that a route is compared by, except path and MED, which differ from prefix to prefix. `ahead` is
    what its daemon compares first, the lowest wins."""

    ahead: int = 0
    local_pref: int = LOCAL_PREF
    origin: int = ORIGINS["IGP"]
    internal: bool = False
    cost: int = 0
    identifier: tuple = ()
    clusters: int = 0
    peer: tuple = ()
    aigp: int = NO_AIGP


class Standing(typing.NamedTuple):
    """The compared values of attributes: those before MED, without the path's length, and those after it, for a path
    from outside and for one from a confederation's peer."""

    before: int
    behind: tuple
    behind_inside: tuple


def length_of(path):
    """The number of AS in a path."""
    if "(" in path or "{" in path or "[" in path:
        return len(SET.sub(" set ", CONFEDERATION.sub(" ", path)).split())
    return path.count(" ") + 1 if path else 0


def neighbour_of(path):
    """The neighbouring AS: the first of the path after a confederation's segments, or the own AS if that isn't in a
    sequence (RFC 4271, section 9.1.2.2 c; RFC 5065, section 5.3)."""
    first = path.partition(" ")[0]
    if first.isdecimal() or path and not path.startswith(OPENING):
        return first
    outside = CONFEDERATION.sub(" ", path).split()
    return outside[0] if outside and not outside[0].startswith("{") else OWN


def before_med(local_pref, length, origin, ahead=0, aigp=NO_AIGP):
    """The steps before MED as one number, since numbers are compared faster than tuples: those of most routes are small."""
    return (ahead << AHEAD_AT | (GREATEST - local_pref) << PREFERENCE_AT | aigp << AIGP_AT | length << LENGTH_AT | origin) - USUAL


def preference_of(before):
    """The local preference p in that number, as 4294967295 - p; nothing is compared ahead of it."""
    return before + USUAL >> PREFERENCE_AT


def with_med(before, med):
    """The same followed by MED, if MED is compared whatever the neighbouring AS."""
    return before << MED_BITS | med


@functools.lru_cache(1024)
def address_order(text):
    """The sort key of an address; IPv4 comes before IPv6, and text that isn't an address before both."""
    try:
        address = ipaddress.ip_address(text)
    except ValueError:
        return 0, 0, text
    return address.version, int(address), ""


def standing(attributes):
    ahead, local_pref, origin, internal, *behind, aigp = attributes
    return Standing(before_med(local_pref, 0, origin, ahead, aigp), (internal, *behind), (True, *behind))


def candidate(standing, path, med, number, source, what, always_compare_med=False):
    before, behind, behind_inside = standing
    before += length_of(path) << LENGTH_AT
    if always_compare_med:
        before, med = with_med(before, med), 0
    return before, behind_inside if path.startswith(INSIDE) else behind, number, med, path, source, what


def best_of_each(candidates, in_turn=False):
    """The best candidate of each source, in the order of choice."""
    ordered = sorted(candidates)
    # the routes to most prefixes have the same MED, and nothing has to be compared
    if len(set(map(MED_OF, ordered))) > 1 and med_decides(ordered):
        return list(one_by_one(candidates, first_in_turn if in_turn else first_of_neighbours))
    if len(set(map(SOURCE_OF, ordered))) == len(ordered):
        return ordered
    best = {}
    for candidate in ordered:
        best.setdefault(candidate[SOURCE], candidate)
    return list(best.values())


def med_decides(ordered):
    """Returns True if two candidates of the same neighbouring AS are equal before MED and have different MEDs. Candidates
    that are equal before MED follow one another, since the candidates are in order."""
    begin, before, med, meds = 0, None, None, None
    for place, (own_before, _, _, own_med, path, _, _) in enumerate(ordered):
        if own_before != before:
            begin, before, med, meds = place, own_before, own_med, None
        elif meds is not None or own_med != med:
            if meds is None:
                # those before have the same MED
                meds = dict.fromkeys([neighbour_of(other[PATH]) for other in ordered[begin:place]], med)
            if meds.setdefault(neighbour_of(path), own_med) != own_med:
                return True
    return False


def is_tie(one, other):
    """Returns True if all that is compared before the identifiers of speakers is equal, so that a daemon may prefer the
    route that it has had for longer."""
    is_equal = one[BEFORE] == other[BEFORE] and one[BEHIND][:IDENTIFIER] == other[BEHIND][:IDENTIFIER]
    return is_equal and (one[MED] == other[MED] or neighbour_of(one[PATH]) != neighbour_of(other[PATH]))


def is_by_arrival(candidates, one, other):
    """Returns True if one of these routes may win over the other because routes compared in turn came in another order."""
    return one[BEFORE] == other[BEFORE] and med_decides(sorted(candidates))


def one_by_one(candidates, first):
    """Each time the first of the remaining sources."""
    left = [(candidate, neighbour_of(candidate[PATH])) for candidate in candidates]
    while left:
        best = first(left)
        yield best
        left = [pair for pair in left if pair[0][SOURCE] != best[SOURCE]]


def first_of_neighbours(pairs):
    """The first of those that are each the first of a neighbouring AS."""
    best = {}
    for candidate, neighbour in pairs:
        order = candidate[BEFORE], candidate[MED], candidate
        if neighbour not in best or order < best[neighbour]:
            best[neighbour] = order
    return min(candidate for _, _, candidate in best.values())


def first_in_turn(pairs):
    """Goes through the routes in turn, and each time keeps the better of two."""
    (best, best_neighbour), *others = pairs
    for candidate, neighbour in others:
        before, best_before = candidate[BEFORE], best[BEFORE]
        if neighbour == best_neighbour:
            before, best_before = (before, candidate[MED]), (best_before, best[MED])
        if (before, candidate) < (best_before, best):
            best, best_neighbour = candidate, neighbour
    return best

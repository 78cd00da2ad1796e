"""Handmade samples that one step of BGP's choice decides, each with the standard's rule next to it."""
import itertools
import json
from typing import NamedTuple

# the worst preference of a feed's route
GREATEST = (1 << 32) - 1


class Sample(NamedTuple):
    """An input of a converter, and the table that it has to give: the next hops of each prefix, best first, or with
    `numbers` their preferences; and a part of the notes."""
    name: str
    standard: str
    command: str
    text: str
    table: dict
    note: str = ""
    numbers: bool = False


def systems(number):
    """Returns a path with this number of AS."""
    return " ".join(str(65000 + place % 500) for place in range(number))


def dumped(*lines):
    """Lines of a table dump: number of the peer, AS path, and what else isn't as usual."""
    return "".join(map(dump_line, lines))


def dump_line(line):
    peer, path, more = line
    fields = {"prefix": "10.0.0.0/8", "origin": "IGP", "hop": f"192.0.2.{peer}", "local_pref": 0, "med": 0, **more}
    form = "TABLE_DUMP2|1795441783|B|127.0.0.{0}|6500{0}|{prefix}|{1}|{origin}|{hop}|{local_pref}|{med}||NAG||\n"
    return form.format(peer, path, **fields)


def update(peer, number, path, hop, med=0):
    """An announcement of one of a peer's paths."""
    return f"BGP4MP_AP|1795441783|A|127.0.0.{peer}|65000|10.0.0.0/8|{number}|{path}|IGP|{hop}|100|{med}||NAG||\n"


def session(peer, before, after):
    return f"BGP4MP|1795441783|STATE|127.0.0.{peer}|65000|{before}|{after}\n"


SAME_NEIGHBOUR = "RFC 4271, 9.1.2.2 c: MED is only comparable between routes learned from the same neighboring AS"
LENGTH = "RFC 4271, 9.1.2.2 a: the smallest number of AS numbers in the AS_PATH; an AS_SET counts as 1"
CONFEDERATED = "RFC 5065, 5.3, 3: AS_CONFED_SEQUENCE and AS_CONFED_SET are not counted in the length of the AS_PATH"
ORIGIN = "RFC 4271, 9.1.2.2 b: the lowest Origin number is preferred; 4.3: IGP is 0, EGP 1, INCOMPLETE 2"
LOCAL_PREFERENCE = "RFC 4271, 5.1.5: the higher degree of preference is preferred; 0 is what collectors write for none"
OWN_LOOP = "RFC 4271, 9.1.2: a route with the AS of the local system in its AS_PATH is excluded"
ENDED = "RFC 4271, 8.2.2: when the session ends, all routes associated with it are deleted"
OTHER_FAMILY = "RFC 4760, 3: the Network Layer protocol of a prefix and of its next hop is told by AFI and SAFI (RFC 8950)"
OPEN = "RFC 7911, 2: the number of a path carries no particular semantics; OpenBGPD takes the least"
BGPDUMP = (
    Sample("MED is compared within one neighbouring AS", SAME_NEIGHBOUR, "bgpdump-to-feeds",
           dumped((2, "65010 65011", {"med": 20}), (3, "65010 65012", {"med": 10})), {"10.0.0.0/8": "3 2"}),
    Sample("MED isn't compared across neighbouring AS", SAME_NEIGHBOUR, "bgpdump-to-feeds",
           dumped((2, "65010", {"med": 20}), (3, "65020", {"med": 10})), {"10.0.0.0/8": "2 3"}),
    Sample("MED is compared across neighbouring AS where that is asked for", SAME_NEIGHBOUR,
           "bgpdump-to-feeds --always-compare-med",
           dumped((2, "65010", {"med": 20}), (3, "65020", {"med": 10})), {"10.0.0.0/8": "3 2"}),
    Sample("MED doesn't depend on the order of the lines", SAME_NEIGHBOUR, "bgpdump-to-feeds",
           "".join(dumped(*((peer, path, {"med": med, "prefix": f"10.{place}.0.0/16"}) for peer, path, med in lines))
                   for place, lines in enumerate(itertools.permutations(
                       ((2, "65010", 20), (3, "65020", 0), (4, "65010", 10))))),
           {f"10.{place}.0.0/16": "3 4 2" for place in range(6)}),
    Sample("a confederation's sequence has no length", CONFEDERATED, "bgpdump-to-feeds",
           dumped((2, "65010 65011 65012", {}), (3, "(65101 65102) 65020 65021", {})), {"10.0.0.0/8": "3 2"}),
    Sample("a confederation's set has no length", CONFEDERATED, "bgpdump-to-feeds",
           dumped((2, "65010 65011 65012", {}), (3, "[65101,65102] 65020 65021", {})), {"10.0.0.0/8": "3 2"}),
    Sample("a set isn't as long as it has members", LENGTH, "bgpdump-to-feeds",
           dumped((2, "65010 65011 65012", {}), (3, "65020 {65021,65022,65023}", {})), {"10.0.0.0/8": "3 2"}),
    Sample("a set has a length", LENGTH, "bgpdump-to-feeds",
           dumped((2, "65010 65011", {}), (3, "65020 {65021,65022}", {})), {"10.0.0.0/8": "2 3"}),
    Sample("no local preference is 100", LOCAL_PREFERENCE, "bgpdump-to-feeds",
           dumped((2, "65010", {"local_pref": 50}), (3, "65020", {}), (4, "65030", {"local_pref": 101})),
           {"10.0.0.0/8": "4 3 2"}),
    Sample("local preferences of 2^31 and more", LOCAL_PREFERENCE, "bgpdump-to-feeds",
           dumped((2, "65010", {"local_pref": 1 << 31}), (3, "65020", {"local_pref": (1 << 32) - 1}),
                  (4, "65030", {"local_pref": (1 << 31) - 1})), {"10.0.0.0/8": "3 2 4"}),
    Sample("paths of over 127 AS", LENGTH, "bgpdump-to-feeds",
           dumped((2, systems(300), {}), (3, systems(127), {}), (4, systems(128), {}), (5, systems(256), {})),
           {"10.0.0.0/8": "3 4 5 2"}),
    Sample("a session over IPv4 comes before one over IPv6", "RFC 4271, 9.1.2.2 g: the lowest peer address", "bgpdump-to-feeds",
           dumped((9, "65010", {})).replace("127.0.0.9", "::1") + dumped((2, "65020", {})), {"10.0.0.0/8": "2 9"}),
    Sample("IGP comes before EGP", ORIGIN, "bgpdump-to-feeds",
           dumped((2, "65010", {"origin": "EGP"}), (3, "65020", {})), {"10.0.0.0/8": "3 2"}),
    Sample("EGP comes before INCOMPLETE", ORIGIN, "bgpdump-to-feeds",
           dumped((2, "65010", {"origin": "INCOMPLETE"}), (3, "65020", {"origin": "EGP"})), {"10.0.0.0/8": "3 2"}),
    Sample("a peer of the router's own AS comes behind others", "RFC 4271, 9.1.2.2 d: routes received via EBGP are preferred",
           "bgpdump-to-feeds --local-as 65002", dumped((2, "65010", {}), (3, "65020", {})), {"10.0.0.0/8": "3 2"}),
    Sample("a path through the router's own AS is dropped", OWN_LOOP, "bgpdump-to-feeds --local-as 65010",
           dumped((2, "65020 65010", {}), (3, "65020 165010 65011", {})),
           {"10.0.0.0/8": "3"}, "omitted 1 with AS 65010 in the path (--local-as)"),
    Sample("what has the router's own AS takes the place of what the peer had",
           f"{OWN_LOOP}; 9: a route replaces the one before", "bgpdump-to-feeds --local-as 65010",
           session(2, 5, 6) + update(2, 1, "65020", "192.0.2.2") + update(2, 2, "65020 65021", "192.0.2.3")
           + update(2, 1, "65020 65010", "192.0.2.4"), {"10.0.0.0/8": "3"}),
    Sample("MED decides among a peer's paths within one neighbouring AS", SAME_NEIGHBOUR, "bgpdump-to-feeds",
           session(2, 5, 6) + update(2, 1, "65010 65011", "192.0.2.2", 20) + update(2, 2, "65010 65012", "192.0.2.3", 10),
           {"10.0.0.0/8": "3"}),
    Sample("MED decides nothing among a peer's paths of two neighbouring AS", SAME_NEIGHBOUR, "bgpdump-to-feeds",
           session(2, 5, 6) + update(2, 1, "65010", "192.0.2.2", 20) + update(2, 2, "65020", "192.0.2.3", 10),
           {"10.0.0.0/8": "2"}),
    Sample("the least number decides among a peer's paths", OPEN, "bgpdump-to-feeds",
           session(2, 5, 6) + update(2, 10, "65010", "192.0.2.2") + update(2, 9, "65020", "192.0.2.3"),
           {"10.0.0.0/8": "3"}),
    Sample("the paths of a session that ended are gone", ENDED, "bgpdump-to-feeds",
           session(2, 5, 6) + update(2, 1, "65010", "192.0.2.2") + update(2, 2, "65020", "192.0.2.3") + session(2, 6, 1)
           + session(2, 5, 6) + update(2, 3, "65010 65011", "192.0.2.4"), {"10.0.0.0/8": "4"}),
    Sample("an IPv6 prefix of a dump is none of IPv4", OTHER_FAMILY, "bgpdump-to-feeds --ipv6-hop 192.0.2.6",
           dumped((2, "65010", {"prefix": "::/0"}), (2, "65010", {"prefix": "2001:db8::/32", "hop": "2001:db8::2"}),
                  (2, "65010", {})), {"10.0.0.0/8": "2"}, "omitted 2 of IPv6"),
    Sample("an IPv6 prefix of an update is none of IPv4", OTHER_FAMILY, "bgpdump-to-feeds --ipv6-hop 192.0.2.6",
           "BGP4MP|1795441783|A|127.0.0.2|65002|2001:db8::/32|65010|IGP|2001:db8::2|0|0||NAG||\n"
           "BGP4MP|1795441783|A|127.0.0.2|65002|10.0.0.0/8|65010|IGP|192.0.2.2|0|0||NAG||\n"
           "BGP4MP|1795441783|W|127.0.0.2|65002|::/0\n", {"10.0.0.0/8": "2"}, "omitted 2 of IPv6"),
    Sample("an IPv6 next hop is a next hop", OTHER_FAMILY, "bgpdump-to-feeds --ipv6-hop 192.0.2.6",
           dumped((2, "65010", {"hop": "2001:db8::2"}), (3, "65020", {})), {"10.0.0.0/8": "6 3"}, "omitted nothing"),
    Sample("peers without updates keep what was dumped", "RFC 4271, 9: a route stays until it is withdrawn or the session ends",
           "bgpdump-to-feeds", dumped(*((peer, f"6501{peer}", {}) for peer in range(1, 10)))
           + "BGP4MP|1795441783|A|127.0.0.1|65001|10.0.0.0/8|65011 65011|IGP|192.0.2.1|0|0||NAG||\n",
           {"10.0.0.0/8": "2 3 4 5 6 7 8 9 1"}),
)


def frr(*paths, default=100, more=()):
    """FRR's table: the paths to one prefix, each the number of its peer and what isn't as usual; and `more` prefixes."""
    routes = {"10.0.0.0/8": [frr_path(*path) for path in paths], **dict(more)}
    return json.dumps({"vrfName": "default", "defaultLocPrf": default, "routes": routes}) + "\n"


def frr_path(peer, other=()):
    usual = {"valid": True, "pathFrom": "external", "weight": 0, "peerId": f"127.0.0.{peer}", "path": f"6501{peer}",
             "origin": "IGP", "nexthops": [{"ip": f"192.0.2.{peer}", "afi": "ipv4", "used": True}]}
    return {**usual, **dict(other)}


def behind_frr(name, standard, loses, wins, order="9 4 3", options=""):
    """FRR's choice is that of peer 9; after it peer 3 has the losing route and peer 4 the winning one."""
    text = frr((9, CHOSEN), (3, loses), (4, wins))
    return Sample(f"FRR, behind its choice: {name}", standard, f"frr-to-feeds {options}".strip(), text, {"10.0.0.0/8": order})


def behind_frr_in_detail(name, standard, loses, wins):
    """The same of `json detail`: the identifier of a peer, the cost of its next hop, and other members."""
    chosen = ("192.0.2.9", 0, {"bestpath": {"overall": True}, "weight": 65535})
    paths = [frr_detailed(peer, *path) for peer, path in ((9, chosen), (3, loses), (4, wins))]
    text = json.dumps({"vrfName": "default", "routes": {"10.0.0.0/8": [{"prefix": "10.0.0.0/8"}, *paths]}}) + "\n"
    return Sample(f"FRR in detail, behind its choice: {name}", standard, "frr-to-feeds", text, {"10.0.0.0/8": "9 4 3"})


def frr_detailed(peer, identifier, cost, other):
    hop = {"ip": f"192.0.2.{peer}", "afi": "ipv4", "metric": cost, "accessible": True, "used": True}
    return {"aspath": {"string": f"6501{peer}"}, "origin": "IGP", "valid": True, "nexthops": [hop],
            "peer": {"peerId": f"127.0.0.{peer}", "routerId": identifier, "type": "external"}, **other}


# FRR's choice, by its weight
CHOSEN = {"bestpath": True, "weight": 65535}
ABSENT = "`show bgp ipv4 unicast json`: a path without `locPrf` has the local preference `defaultLocPrf`"
FEASIBLE = "RFC 4271, 9.1.2: a route whose NEXT_HOP isn't resolvable is excluded; FRR marks what it may choose `valid`"
EXTERNAL = "RFC 4271, 9.1.2.2 d: if a route was received via EBGP, all that were received via IBGP are removed"
INSIDE = "RFC 5065, 5.3, 4: a route from a peer in the same confederation is treated as internal"
ADDRESS = "RFC 4271, 9.1.2.2 g: prefer the route received from the lowest peer address"
INTERIOR = "RFC 4271, 9.1.2.2 e: routes with a less-preferred interior cost are removed"
IDENTIFIER = "RFC 4271, 9.1.2.2 f: all but the routes of the speaker with the lowest BGP Identifier value are removed"
REFLECTED = "RFC 4456, 9: ORIGINATOR_ID is treated as the BGP Identifier; then the shorter CLUSTER_LIST is preferred"
IN_TURN_ALONE = "RFC 4271, 9.1.2.2 c isn't followed: without `deterministic MED` BIRD and FRR compare routes in turn"
OF_TWO_SYSTEMS = ((3, {"path": "65010", "metric": 20}), (4, {"path": "65020"}), (5, {"path": "65010", "metric": 10}))
FRR = (
    Sample("FRR's next hop is the one that is used", "RFC 2545, 3: a next hop may be a global and a link-local address",
           "frr-to-feeds", frr((2, {**CHOSEN, "nexthops": [{"ip": "192.0.2.8"}, {"ip": "192.0.2.9", "used": True}]})),
           {"10.0.0.0/8": "9"}),
    Sample("FRR's default local preference decides", ABSENT, "frr-to-feeds",
           frr((2, {**CHOSEN, "locPrf": 300}), (3, {"locPrf": 150}), (4, {}), default=200), {"10.0.0.0/8": "2 4 3"}),
    Sample("FRR's default local preference is the number", ABSENT, "frr-to-feeds --by local-pref",
           frr((2, CHOSEN), default=200), {"10.0.0.0/8": f"{GREATEST - 200}"}, numbers=True),
    Sample("what FRR holds invalid isn't taken", FEASIBLE, "frr-to-feeds", frr((2, CHOSEN), (3, {"valid": False})),
           {"10.0.0.0/8": "2"}, "omitted 1 that are not valid"),
    Sample("a prefix without FRR's choice isn't taken", "RFC 4271, 9.1.2: only a route that is chosen is in the Loc-RIB",
           "frr-to-feeds", frr((2, CHOSEN), more={"11.0.0.0/8": [frr_path(3)]}),
           {"10.0.0.0/8": "2"}, "omitted 1 of prefixes without a chosen path"),
    behind_frr("weight", "FRR compares its own weight before all", {"locPrf": 200}, {"weight": 1}),
    behind_frr("local preference", "RFC 4271, 5.1.5: the higher degree of preference is preferred",
               {"locPrf": 50}, {"path": "65014 65015"}),
    behind_frr("length of the path", LENGTH, {"path": "65013 65015"}, {"origin": "incomplete"}),
    behind_frr("origin", ORIGIN, {"origin": "incomplete"}, {"origin": "EGP"}),
    behind_frr("MED", SAME_NEIGHBOUR, {"path": "65015", "metric": 20}, {"path": "65015", "metric": 10}),
    behind_frr("MED of others", SAME_NEIGHBOUR, {"metric": 20}, {"metric": 10}, "9 3 4"),
    behind_frr("MED of others that is compared", SAME_NEIGHBOUR, {"metric": 20}, {"metric": 10}, options="--always-compare-med"),
    Sample("FRR, behind its choice: in turn", IN_TURN_ALONE, "frr-to-feeds", frr((9, CHOSEN), *OF_TWO_SYSTEMS),
           {"10.0.0.0/8": "9 5 3 4"}),
    Sample("FRR, behind its choice: deterministic MED", SAME_NEIGHBOUR, "frr-to-feeds --deterministic-med",
           frr((9, CHOSEN), *OF_TWO_SYSTEMS), {"10.0.0.0/8": "9 4 5 3"}),
    behind_frr("EBGP", EXTERNAL, {"pathFrom": "internal"}, {}),
    behind_frr("a confederation's peer", INSIDE, {"path": "(65101) 65013"}, {}),
    behind_frr("address of the peer", ADDRESS, {"peerId": "127.0.0.10"}, {}),
    Sample("FRR, behind its choice: paths of a peer that are alike", "FRR keeps the one that it heard first, which it lists last",
           "frr-to-feeds", frr((9, CHOSEN), (3, {"nexthops": [{"ip": "192.0.2.7", "used": True}]}), (3, {})),
           {"10.0.0.0/8": "9 3"}, "omitted 1 further routes of a source to the same prefix"),
    behind_frr_in_detail("cost of the next hop", INTERIOR, ("192.0.2.3", 20, {}), ("192.0.2.4", 10, {})),
    behind_frr_in_detail("router identifier", IDENTIFIER, ("192.0.2.4", 0, {}), ("192.0.2.3", 0, {})),
    behind_frr_in_detail("ORIGINATOR_ID", REFLECTED, ("192.0.2.3", 0, {}), ("192.0.2.4", 0, {"originatorId": "192.0.2.2"})),
    behind_frr_in_detail(
        "CLUSTER_LIST", REFLECTED, ("192.0.2.3", 0, {"clusterList": {"list": ["10.0.0.8", "10.0.0.9"]}}),
        ("192.0.2.3", 0, {"clusterList": {"list": ["10.0.0.9"]}})),
)


def gobgp(*attributes):
    """GoBGP's table of one route, with its origin and its path and those attributes."""
    as_path = {"type": 2, "as_paths": [{"segment_type": 2, "num": 1, "asns": [65001]}]}
    path = {"nlri": {"prefix": "10.0.0.0/8"}, "age": 1795441762, "best": True, "source-id": "192.0.2.2",
            "neighbor-ip": "127.0.0.2", "attrs": [{"type": 1, "value": 0}, as_path, *attributes]}
    return json.dumps({"10.0.0.0/8": [path]}) + "\n"


REACHED = {"type": 14, "nexthop": "2001:db8::2", "afi": 1, "safi": 1, "value": [{"prefix": "10.0.0.0/8"}]}
GOBGP = (
    Sample("GoBGP's route without a local preference has 100", "RFC 4271, 5.1.5: EBGP routes have no LOCAL_PREF; GoBGP takes 100",
           "gobgp-to-feeds --by local-pref", gobgp({"type": 3, "nexthop": "192.0.2.2"}),
           {"10.0.0.0/8": f"{GREATEST - 100}"}, numbers=True),
    Sample("GoBGP's next hop may be in MP_REACH_NLRI", OTHER_FAMILY, "gobgp-to-feeds --ipv6-hop 192.0.2.6", gobgp(REACHED),
           {"10.0.0.0/8": "6"}),
)


def bird(*routes):
    """BIRD's table of a single prefix: for each route the number of its peer, the text after its preference, and its
    unusual attributes, or None if attributes aren't shown."""
    return "BIRD 2.0.12 ready.\nTable master4:\n" + "".join(
        bird_route("10.0.0.0/8" if place == 0 else "", place == 0, *route) for place, route in enumerate(routes))


def bird_route(prefix, is_chosen, peer, behind="100", attributes=()):
    usual = {"origin": "IGP", "as_path": f"6501{peer}", "next_hop": f"192.0.2.{peer}", "local_pref": "100"}
    source, mark = f"peer{peer} 13:49:20.215 from 127.0.0.{peer}", "* " if is_chosen else ""
    shown = {} if attributes is None else {**usual, **dict(attributes)}
    return (f"{prefix:20} unicast [{source}] {mark}({behind}) [AS6501{peer}i]\n\tvia 192.0.2.{peer} on uplink\n"
            + ("\tType: BGP univ\n" if shown else "") + "".join(f"\tBGP.{name}: {value}\n" for name, value in shown.items()))


# BIRD's choice, of a protocol with a higher preference
BY_PREFERENCE = (9, "200")


def behind_bird(name, standard, loses, wins, order="9 4 3", options="", costs=("100", "100")):
    """BIRD's choice is that of peer 9; after it peer 3 has the losing route and peer 4 the winning one."""
    text = bird(BY_PREFERENCE, (3, costs[0], loses), (4, costs[1], wins))
    return Sample(f"BIRD, behind its choice: {name}", standard, f"bird-to-feeds {options}".strip(), text, {"10.0.0.0/8": order})


ACCUMULATED = "RFC 7311, 4.1: after the local preference, the lowest AIGP plus cost is preferred, and any AIGP to none"
OWN_PREFERENCE = "BIRD compares the preference of protocols before all"
NOTE = "1 prefixes have routes with the same preference after BIRD's choice, which are ranked as listed"
LISTED = ((3, "100", {"as_path": "65010", "med": "20"}), (4, "100", {"as_path": "65020"}),
          (5, "100", {"as_path": "65010", "med": "10"}))
BIRD = (
    Sample("BIRD's way to a recursive next hop is the one that counts", "RFC 4271, 5.1.3: the immediate next hop is looked up",
           "bird-to-feeds", bird((2, "100/10", {"next_hop": "198.51.100.7"})), {"10.0.0.0/8": "2"}),
    behind_bird("preference", OWN_PREFERENCE, {"local_pref": "200"}, {}, costs=("100", "110")),
    Sample("BIRD, behind its choice: a next hop that is reached", FEASIBLE, "bird-to-feeds",
           bird(BY_PREFERENCE, (3, "100", {"local_pref": "200"}), (4, "100/?"))
           .replace("unicast [peer3", "unreachable [peer3").replace("\tvia 192.0.2.3 on uplink\n", ""), {"10.0.0.0/8": "9 4 discard"}),
    behind_bird("AIGP", ACCUMULATED, {"aigp": "20"}, {"aigp": "10", "as_path": "65014 65015"}, costs=("100/25", "100/24")),
    behind_bird("AIGP with the cost of the next hop", ACCUMULATED, {"aigp": "10"}, {"aigp": "20"}, costs=("100/25", "100/24")),
    behind_bird("AIGP before none", ACCUMULATED, {"as_path": "65013"}, {"aigp": "20", "as_path": "65014 65015"},
                costs=("100/5", "100/24")),
    behind_bird("AIGP of a next hop with an unknown cost is none", ACCUMULATED, {"aigp": "10", "as_path": "65013 65015"}, {},
                costs=("100/?", "100/?")),
    behind_bird("local preference", "RFC 4271, 5.1.5: the higher degree of preference is preferred",
                {"local_pref": "50"}, {"as_path": "65014 65015"}),
    behind_bird("length of the path", LENGTH, {"as_path": "65013 65015"}, {"origin": "Incomplete"}),
    behind_bird("a set of BIRD's, which has blanks", LENGTH, {"as_path": "65013 65015 65016"},
                {"as_path": "65014 {65015 65016}"}),
    behind_bird("origin", ORIGIN, {"origin": "Incomplete"}, {"origin": "EGP"}),
    behind_bird("MED", SAME_NEIGHBOUR, {"as_path": "65015", "med": "20"}, {"as_path": "65015", "med": "10"}),
    behind_bird("MED of others", SAME_NEIGHBOUR, {"med": "20"}, {"med": "10"}, "9 3 4"),
    behind_bird("MED of others that is compared", SAME_NEIGHBOUR, {"med": "20"}, {"med": "10"}, options="--always-compare-med"),
    Sample("BIRD, behind its choice: in turn", IN_TURN_ALONE, "bird-to-feeds", bird(BY_PREFERENCE, *LISTED), {"10.0.0.0/8": "9 5 3 4"}),
    Sample("BIRD, behind its choice: deterministic MED", SAME_NEIGHBOUR, "bird-to-feeds --deterministic-med",
           bird(BY_PREFERENCE, *LISTED), {"10.0.0.0/8": "9 4 5 3"}),
    behind_bird("EBGP", EXTERNAL, {"originator_id": "10.0.0.1"}, {}),
    behind_bird("cost of the next hop", INTERIOR, {}, {}, costs=("100/20", "100/10")),
    behind_bird("a cost that isn't known", INTERIOR, {}, {}, costs=("100/?", "100/10")),
    behind_bird("ORIGINATOR_ID", REFLECTED, {"originator_id": "10.0.0.2"}, {"originator_id": "10.0.0.1"}),
    behind_bird("CLUSTER_LIST", REFLECTED, {"originator_id": "10.0.0.1", "cluster_list": "10.0.0.8 10.0.0.9"},
                {"originator_id": "10.0.0.1", "cluster_list": "10.0.0.8"}),
    Sample("BIRD, behind its choice: address of the peer", ADDRESS, "bird-to-feeds",
           bird(BY_PREFERENCE, (4,), (3,)), {"10.0.0.0/8": "9 3 4"}, "omitted nothing\n"),
    Sample("BIRD, behind its choice: the peer isn't its next hop", ADDRESS, "bird-to-feeds",
           bird(BY_PREFERENCE, (4,), (3,)).replace("via 192.0.2.4", "via 192.0.2.1"), {"10.0.0.0/8": "9 3 1"}),
    Sample("BIRD, behind its choice: attributes that aren't shown", "none: `show route` doesn't tell what BGP compares",
           "bird-to-feeds", bird((9, "100", None), (4, "100", None), (3, "100", None)), {"10.0.0.0/8": "9 4 3"}, NOTE),
    Sample("BIRD, behind its choice: preferences without attributes", OWN_PREFERENCE,
           "bird-to-feeds", bird((9, "150", None), (4, "100", None), (3, "120", None)), {"10.0.0.0/8": "9 3 4"},
           "omitted nothing\n"),
    Sample("BIRD, behind its choice: a sorted table", "BIRD's `sorted table`: routes are listed in the order of choice",
           "bird-to-feeds --sorted", bird(BY_PREFERENCE, (4,), (3,)), {"10.0.0.0/8": "9 4 3"}, "omitted nothing\n"),
)
SAMPLES = (*BGPDUMP, *FRR, *GOBGP, *BIRD)

#!/usr/bin/env python3
"""Times the converters of convert/, and the scripts of map/, on tables that it makes.

Needs only python3. The inputs have the given number of prefixes with the lengths of a real table, and 100,000 different
paths; each is read from a file in each round. With --peers there is a single input, a dump of 20 peers with the given
number of routes each; for 1,000,000 it is a file of 2 GB. With --tables there are three inputs of eight peers with that
number of routes each: for 1,000,000 files of up to 2 GB. Prints for each script the minimum wall-clock time and
processor time (user and system), the peak memory of its largest process, and that of all its processes together, which
is sampled (PSS: what several processes share counts once); `taskset -c 0` measures one process.
"""
import argparse
import contextlib
import json
import os
import pathlib
import random
import subprocess
import sys
import tempfile
import time

sys.path[0] = str(pathlib.Path(__file__).resolve().parents[1])
from dev.crates import TOP
from dev.models.inputs import real_prefixes, write_apart
from dev.models.table_model import dotted, row

PEERS, OF_TABLES = 20, 8
# seconds between two samples of memory
EACH = 0.05
PATHS = 100_000


def prefixes(count):
    """`count` prefixes in rising order, as daemons and collectors list them."""
    return [f"{dotted(base)}/{length}" for base, length in sorted(real_prefixes(count, random.Random(1)))]


def paths():
    draw = random.Random(2)
    return [" ".join(str(draw.randrange(1, 400_000)) for _ in range(draw.randrange(2, 6))) for _ in range(PATHS)]


def dumped(count, peers=1):
    """A table dump as `bgpdump -m` prints it."""
    draw, some = random.Random(3), paths()
    row = "TABLE_DUMP2|1795441783|B|192.0.2.{0}|6500{0}|{1}|6500{0} {2}|IGP|192.0.2.{0}|0|{3}|6500{0}:{3}|NAG||\n"
    for prefix in prefixes(count):
        for peer in range(1, peers + 1):
            yield row.format(peer, prefix, draw.choice(some), draw.randrange(100))


def updates(count):
    """Updates of one peer: an announcement of each prefix, and a fifth of them changed or withdrawn."""
    draw, some = random.Random(3), paths()
    announced = "BGP4MP|1795441783|A|192.0.2.1|65001|{}|65001 {}|IGP|192.0.2.1|0|0||NAG||\n"
    for number, prefix in enumerate(prefixes(count)):
        yield announced.format(prefix, draw.choice(some))
        if number % 10 == 0:
            yield announced.format(prefix, draw.choice(some))
        if number % 10 == 5:
            yield f"BGP4MP|1795441783|W|192.0.2.1|65001|{prefix}\n"


def of_bird(count):
    """The output of `birdc show route`."""
    draw = random.Random(3)
    yield "BIRD 2.0.12 ready.\nTable master4:\n"
    for prefix in prefixes(count):
        yield (f"{prefix:20} unicast [peer1 09:20:39.677] * (100) [AS{draw.randrange(1, 400_000)}i]\n"
               "\tvia 192.0.2.1 on eth0\n")


def of_bird_all(count):
    """The output of `birdc show route all` for routes from BGP."""
    draw, some = random.Random(3), paths()
    yield "BIRD 2.0.12 ready.\nTable master4:\n"
    for prefix in prefixes(count):
        path = draw.choice(some)
        yield (f"{prefix:20} unicast [peer1 09:20:39.677] * (100) [AS{path.split()[-1]}i]\n\tvia 192.0.2.1 on eth0\n"
               f"\tType: BGP univ\n\tBGP.origin: IGP\n\tBGP.as_path: 65001 {path}\n"
               "\tBGP.next_hop: 192.0.2.1\n\tBGP.local_pref: 100\n")


def of_bird_peers(count, in_full):
    """The output of `birdc show route` or `birdc show route all` for eight BGP peers: BIRD's choice, and then the others."""
    draw, some = random.Random(3), paths()
    yield "BIRD 2.0.12 ready.\nTable master4:\n"
    for prefix in prefixes(count):
        routes = [(f"6500{peer} {draw.choice(some)}", peer) for peer in range(1, OF_TABLES + 1)]
        chosen = min(routes, key=lambda route: (route[0].count(" "), route[1]))
        for path, peer in [chosen, *(route for route in routes if route is not chosen)]:
            is_chosen = peer == chosen[1]
            yield (f"{prefix if is_chosen else '':20} unicast [peer{peer} 09:{draw.randrange(10, 60)}:39.677] {'* ' if is_chosen else ''}(100) "
                   f"[AS{path.split()[-1]}i]\n\tvia 192.0.2.{peer} on eth0\n")
            if in_full:
                yield (f"\tType: BGP univ\n\tBGP.origin: IGP\n\tBGP.as_path: {path}\n\tBGP.next_hop: 192.0.2.{peer}\n"
                       f"\tBGP.med: {draw.randrange(100)}\n\tBGP.local_pref: 100\n")


def of_frr(count):
    yield '{"vrfName":"default","defaultLocPrf":100,"routes":{\n'
    for number, prefix in enumerate(prefixes(count)):
        path = {"valid": True, "bestpath": True, "peerId": "192.0.2.1", "path": "65001", "origin": "IGP",
                "nexthops": [{"ip": "192.0.2.1", "afi": "ipv4", "used": True}]}
        yield f'{"," if number else ""}"{prefix}": {json.dumps([path])}\n'
    yield "}}\n"


def of_kernel(count):
    for number, prefix in enumerate(prefixes(count)):
        route = {"dst": prefix, "gateway": "192.0.2.1", "dev": "eth0", "protocol": "bird", "metric": 32, "flags": []}
        yield ("," if number else "[") + json.dumps(route)
    yield "]\n"


def of_table(count):
    """The output of `yarib run`."""
    yield f"table {count}\n"
    for prefix in prefixes(count):
        yield row(prefix)


def of_best_routes(count):
    """The output of `yarib table --best` for 20 feeds and 40 next hops, some with far more routes than others."""
    draw, hops = random.Random(3), range(1, 41)
    for prefix in prefixes(count):
        hop, = draw.choices(hops, [1 / number for number in hops])
        yield row(prefix, hop % 20 + 1, draw.choice((1, 1, 1, 2, 3, 100)), f"192.0.2.{hop}")


def of_comparison(count):
    """The output of `yarib diff`: a /24 in each of `count` parts of the address space."""
    draw, hops = random.Random(3), [f"via 192.0.2.{number}" for number in range(1, 41)]
    for number in range(count):
        base, (old, new) = number * (1 << 32) // count & ~255, draw.sample(hops, 2)
        yield f"{dotted(base)}-{dotted(base + 255)} {old} -> {new}\n"


INPUTS = (
    ("bgpdump-to-feeds", "a dump", dumped),
    ("bgpdump-to-feeds", "updates", updates),
    ("bird-to-feeds", "show route", of_bird),
    ("bird-to-feeds", "show route all", of_bird_all),
    ("frr-to-feeds", "JSON", of_frr),
    ("ip-to-feeds", "JSON", of_kernel),
    ("table-to-bird", "a table", of_table),
    ("table-to-frr", "a table", of_table),
    ("table-to-ip", "a table", of_table),
    ("table-to-map", "best routes", of_best_routes),
    ("diff-to-map", "a comparison", of_comparison),
)
OF_PEERS = (("bgpdump-to-feeds", f"{PEERS} peers", lambda count: dumped(count, PEERS)),)
EIGHT_PEERS = (
    ("bird-to-feeds", "show route all", lambda count: of_bird_peers(count, True)),
    ("bird-to-feeds", "show route", lambda count: of_bird_peers(count, False)),
    ("bgpdump-to-feeds", "a dump", lambda count: dumped(count, OF_TABLES)),
)


def processes(first):
    """A process and all that it made."""
    found = [first]
    for process in found:
        with contextlib.suppress(OSError):
            found += pathlib.Path(f"/proc/{process}/task/{process}/children").read_text().split()
    return found


def memory_of(process):
    """The bytes of a process, with its share of those that it has in common with others."""
    with contextlib.suppress(OSError):
        for line in pathlib.Path(f"/proc/{process}/smaps_rollup").read_text().splitlines():
            if line.startswith("Pss:"):
                return int(line.split()[1]) * 1024
    return 0


def measure(words, path):
    """Seconds of wall-clock and processor time of a script that reads that file, and peak bytes of its largest process and of all."""
    start, together = time.perf_counter(), 0
    with open(path, "rb") as file, tempfile.TemporaryFile() as said:
        child = subprocess.Popen(words, stdin=file, stdout=subprocess.DEVNULL, stderr=said)
        while not (ended := os.wait4(child.pid, os.WNOHANG))[0]:
            together = max(together, sum(map(memory_of, processes(child.pid))))
            time.sleep(EACH)
        seconds, (_, status, usage) = time.perf_counter() - start, ended
        child.returncode = os.waitstatus_to_exitcode(status)
        if child.returncode:
            said.seek(0)
            sys.exit(f"{words}: status {child.returncode}: {said.read().decode()}")
    return seconds, usage.ru_utime + usage.ru_stime, usage.ru_maxrss * 1024, together


def main():
    reader = argparse.ArgumentParser(description=__doc__, formatter_class=argparse.RawDescriptionHelpFormatter)
    either = reader.add_mutually_exclusive_group()
    either.add_argument("--peers", action="store_true")
    either.add_argument("--tables", action="store_true")
    reader.add_argument("routes", nargs="?", type=int, default=1_000_000, help="1,000,000 if left out")
    reader.add_argument("rounds", nargs="?", type=int, default=1, help="1 if left out")
    words = reader.parse_args()
    for name, about, lines in OF_PEERS if words.peers else EIGHT_PEERS if words.tables else INPUTS:
        with tempfile.TemporaryDirectory() as made:
            path, folder = pathlib.Path(made) / "input", pathlib.Path(made) / "feeds"
            write_apart(path, lines(words.routes))
            script = TOP / ("map" if name.endswith("map") else "convert") / name
            call = [script, *([folder] if name.endswith("feeds") else [])]
            rounds = [measure(call, path) for _ in range(words.rounds)]
            seconds, processors, peak, together = map(min, zip(*rounds))
        row = f"clock {seconds:6.1f} s | processors {processors:6.1f} s | memory {peak / 1e6:4.0f} MB | together {together / 1e6:4.0f} MB"
        print(f"{name:16} {about:14} | {row}", flush=True)


if __name__ == "__main__":
    main()

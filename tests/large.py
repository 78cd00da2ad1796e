#!/usr/bin/env python3
"""Runs `yarib` on very long texts and full Internet tables, and prints the time and memory for each line, byte or
route.

It is run by hand: it takes some minutes, and up to 8 GB of memory. It runs texts of 1 to 10 million lines, lines of 100
MB to 1 GB, and the tables of 1, 8 and 32 peers with 1,050,000 routes each. The script convert/bgpdump-to-feeds makes
these tables from a dump. Each best route is compared with the choice by BGP's rules, and the answers to 20,000
addresses with a plain longest match. It is called like the benchmarks, with --store and --default-memory. """
import itertools
import os
import pathlib
import random
import subprocess
import sys
import tempfile

sys.path[0] = str(pathlib.Path(__file__).resolve().parents[1])
from bench import results
from bench.programs import built
from bench.timing import taken
from dev.crates import TOP
from dev.models.inputs import real_prefixes, write_apart
from dev.models.table_model import dotted
from dev.testing import call
from tests.texts import AGAIN

ROWS = []
CONVERTER = TOP / "convert/bgpdump-to-feeds"
PEERS, ROUTES, ADDRESSES = (1, 8, 32), 1_050_000, 20_000
DUMPED = "TABLE_DUMP2|1|B|127.0.0.{0}|{0}|{1}|{2}|IGP|192.0.2.{0}|0|0||NAG||\n"
PATHS = [" ".join(["1"] * length) for length in range(1, 6)]


def require(name, found, wanted):
    """Ends the script with an error if something isn't as expected."""
    if found != wanted:
        sys.exit(f"tests/large.py: {name}: {found!r} in place of {wanted!r}")


def measured(words):
    """Seconds, peak bytes, status and the end of the output of one run."""
    with tempfile.TemporaryFile() as output:
        seconds, usage, child = taken(words, stdout=output, env=results.environment(words[1]))
        size = output.seek(0, os.SEEK_END)
        output.seek(max(0, size - 60))
        return seconds, usage.ru_maxrss * 1024, child.returncode, output.read().decode()


def add_row(text, unit, units, seconds, peak):
    """Prints what a unit of a text took, a line or a byte."""
    row = {"text": text, "unit": unit, "seconds": round(seconds, 2), "time": seconds / units * 1e9,
           "peak": peak / units}
    ROWS.append(row)
    print(f"{text:20} {seconds:6.2f} s, {row['time']:6.1f} ns and {row['peak']:6.2f} bytes a {unit}", flush=True)


def many_lines(program):
    for millions in (1, 2, 5, 10):
        write_apart("long.feed", itertools.repeat(AGAIN * 25_000, 10 * millions))
        seconds, peak, status, end = measured([program, "run", "--batch", "256", "long.feed"])
        require(f"{millions} million lines", (status, end[-8:]), (0, "table 0\n"))
        add_row(f"{millions} million lines", "line", millions * 1_000_000, seconds, peak)


def long_lines(program):
    for megabytes in (100, 200, 500, 1_000):
        write_apart("long.feed", itertools.repeat("x" * 1_000_000, megabytes))
        seconds, peak, status, end = measured([program, "run", "long.feed"])
        require(f"a line of {megabytes} MB", (status, end), (2, "1:1 fault E8\ntable 0\n"))
        add_row(f"a line of {megabytes} MB", "byte", megabytes * 1_000_000, seconds, peak)


def length_of(place, peer):
    """The place in PATHS of the path that a peer has to a prefix."""
    return (place * 31 + peer * 17) % len(PATHS)


def dump(prefixes, peers):
    """The lines of a dump, prefix by prefix."""
    for place, (base, length) in enumerate(prefixes):
        prefix = f"{dotted(base)}/{length}"
        for peer in range(1, peers + 1):
            yield DUMPED.format(peer, prefix, PATHS[length_of(place, peer)])


def best_peer(place, peers):
    """The peer with the shortest path, or of several such peers the one with the lowest address."""
    return min(range(1, peers + 1), key=lambda peer: (length_of(place, peer), peer))


def converted(prefixes, peers):
    """The feeds of `peers` peers, which the converter has to divide if they have too many routes."""
    folder = pathlib.Path(f"{peers}-peers")
    with subprocess.Popen([CONVERTER, folder], stdin=subprocess.PIPE, stderr=subprocess.PIPE, text=True) as converter:
        with converter.stdin as given:
            given.writelines(dump(prefixes, peers))
        stderr = converter.stderr.read()
    require(f"{peers} peers are converted: {stderr}", converter.returncode, 0)
    return sorted(folder.glob("*.feed"))


def full_tables(program):
    prefixes = sorted(real_prefixes(ROUTES, random.Random(1)))
    for peers in PEERS:
        feeds = converted(prefixes, peers)
        best = [f"192.0.2.{best_peer(place, peers)}" for place in range(len(prefixes))]
        with open("table.txt", "w+") as output:
            seconds, usage, child = taken([program, "table", "--best", *feeds], stdout=output,
                                          env=results.environment("table"))
            output.seek(0)
            differing = sum(1 for line, (base, length), hop in itertools.zip_longest(output, prefixes, best)
                            if (line.split()[0], line.split()[-1]) != (f"{dotted(base)}/{length}", hop))
        require(f"status and differing routes of {peers} peers", (child.returncode, differing), (0, 0))
        add_row(f"{peers} full tables", "route", peers * len(prefixes), seconds, usage.ru_maxrss * 1024)
        compare_look_ups(program, feeds, dict(zip(prefixes, best)), peers)


def longest_match(table, address):
    """The answer to an address by the longest prefix of a table that covers it."""
    for length in range(32, -1, -1):
        if hop := table.get((address >> 32 - length << 32 - length, length)):
            return hop
    return "route"


def compare_look_ups(program, feeds, table, peers):
    draw = random.Random(70)
    addresses = [draw.getrandbits(32) for _ in range(ADDRESSES)]
    write_apart("addresses.txt", (f"{dotted(address)}\n" for address in addresses))
    ended = call([program, "lookup", "--addresses", "addresses.txt", *feeds])
    found = [line.split()[-1] for line in ended.stdout.splitlines()]
    # the last word of `no route`
    require(f"look-ups in {peers} tables", found, [longest_match(table, address) for address in addresses])


CASES = {case.__name__: case for case in (many_lines, long_lines, full_tables)}


def main():
    parser = results.reader(__doc__)
    parser.add_argument("program", nargs="?", type=pathlib.Path, help="default: it is built first")
    parser.add_argument("cases", nargs="*", metavar="CASE", help=f"default: {', '.join(CASES)}")
    args = parser.parse_args()
    if unknown := set(args.cases) - set(CASES):
        parser.error(f"no case {', '.join(sorted(unknown))}")
    results.begun(args)
    program = (args.program or built()).resolve()
    for name in args.cases or CASES:
        with tempfile.TemporaryDirectory(prefix="yarib-large-") as folder:
            os.chdir(folder)
            CASES[name](program)
            os.chdir("/")
    results.keep("large", 1, ROWS)


if __name__ == "__main__":
    main()

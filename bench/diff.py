#!/usr/bin/env python3
"""Compares the output of `yarib diff` with that of a plain program, and its time with that of loading its files.

Needs rustc. The old table has the given number of prefixes, with lengths as in a full table of the Internet. The new
one differs by the given number of changes: prefixes that are missing, new prefixes, and prefixes with another next hop.
The loading time is that of two runs that look up one address, in the old files' table and in the new ones'. It prints
the time of `diff`, which loads both tables at the same time, as a part of the time of these two runs. It prints the
processor time that `diff` takes beyond these two runs, also as a part of theirs. All times are the minimum of five.
In turn with these runs a program in plain Rust does the same (bench/diff_peer.rs). If the system's python3 has py-radix
(Debian's python3-radix), it is loaded with both tables and looks up each boundary.
"""
import pathlib
import random
import resource
import subprocess
import sys
import tempfile
import time

sys.path[0] = str(pathlib.Path(__file__).resolve().parents[1])
from bench import results
from bench.programs import built, built_peer
from dev.models.table_model import dotted

# The number of prefixes of this length among a hundred.
LENGTHS = [24] * 60 + [23] * 9 + [22] * 11 + [21] * 4 + [20] * 5 + [19] * 3 + [18] * 2 + [17] + [16] * 3 + [14, 12]
ROUNDS = 5


def drawn(count):
    """`count` prefixes, each with a next hop: `{(base, length): hop}`."""
    draw = random.Random(7)
    table = {}
    while len(table) < count:
        length = draw.choice(LENGTHS)
        table[draw.randrange(1 << 24, 224 << 24) >> 32 - length << 32 - length, length] = draw.randrange(1, 9)
    return table


def changed(table, changes):
    """The table after `changes` changes: some prefixes gone, some new, some with another next hop."""
    draw = random.Random(8)
    after = dict(table)
    for number, prefix in enumerate(draw.sample(sorted(table), changes)):
        base, length = prefix
        if number % 3 == 0:
            del after[prefix]
        elif number % 3 == 1:
            after[base, length + 3] = draw.randrange(1, 9)
        else:
            after[prefix] = 9
    return after


def write(path, table):
    path.write_text("".join(f"add {dotted(base)}/{length} 100 192.0.2.{hop}\n" for (base, length), hop in table.items()))


# Looks up each boundary of both tables in py-radix; prints the seconds of loading and of look-ups, and how many answers
# differ.
RADIX = """
import sys, time
import radix

def loaded(name):
    tree, borders = radix.Radix(), {0}
    for line in open(name):
        _, prefix, _, hop = line.split()
        node = tree.add(prefix)
        node.data["hop"] = hop
        base = int.from_bytes(node.packed, "big")
        borders |= {base, base + (1 << 32 - node.prefixlen)}
    return tree, borders

def hop(tree, address):
    node = tree.search_best(".".join(map(str, address.to_bytes(4, "big"))))
    return node and node.data["hop"]

start = time.monotonic()
(old, ours), (new, theirs) = loaded(sys.argv[1]), loaded(sys.argv[2])
asked = time.monotonic()
differ = sum(hop(old, border) != hop(new, border) for border in ours | theirs if border < 1 << 32)
print(asked - start, time.monotonic() - asked, differ)
"""


def tell_radix(old, new):
    """Prints the times of py-radix, if it is installed."""
    asked = subprocess.run(["/usr/bin/python3", "-c", RADIX, old, new], capture_output=True, text=True)
    if asked.returncode != 0:
        print("py-radix: not installed")
        return
    loading, asking, differ = asked.stdout.split()
    print(f"py-radix  loading {float(loading):.3f} s, looking up each boundary {float(asking):.3f} s: {differ} answers differ")


def timed(words):
    """The seconds of wall-clock and processor time of a call, and how it ended."""
    before, start = resource.getrusage(resource.RUSAGE_CHILDREN), time.monotonic()
    ended = subprocess.run(words, capture_output=True, text=True, env=results.environment(words[1]))
    clock, after = time.monotonic() - start, resource.getrusage(resource.RUSAGE_CHILDREN)
    processor = after.ru_utime + after.ru_stime - before.ru_utime - before.ru_stime
    return clock, processor, (ended.returncode, ended.stdout, ended.stderr)


def check_same(what, found, wanted):
    """Ends with an error unless both are the same."""
    if found != wanted:
        sys.exit(f"bench/diff.py: {what}: {str(found)[:1000]} in place of {str(wanted)[:1000]}")


def main():
    words = results.begin(results.reader(__doc__, prefixes=500_000, changes=1_000))
    yarib = built()
    with tempfile.TemporaryDirectory() as made:
        folder = pathlib.Path(made)
        old, new = folder / "old.feed", folder / "new.feed"
        table = drawn(words.prefixes)
        write(old, table)
        write(new, changed(table, words.changes))
        limit = ["--limit", "1000000"]
        least, plain, of_plain = {}, built_peer(folder, "diff_peer.rs"), []
        for _ in range(ROUNDS):
            calls = {name: timed([yarib, "lookup", *limit, "--address", "0.0.0.0", name]) for name in (old, new)}
            calls["diff"] = timed([yarib, "diff", *limit, old, "--", new])
            _, _, (status, wanted, err) = timed([plain, old, new])
            check_same("the plain program's status", status, 0)
            check_same("the ranges", calls["diff"][2], (1 if wanted else 0, wanted, ""))
            of_plain.append([int(word) / 1e9 for word in err.split()])
            for name, (clock, processor, _) in calls.items():
                best = least.setdefault(name, [clock, processor])
                least[name] = [min(best[0], clock), min(best[1], processor)]
        check_same("a table and itself", timed([yarib, "diff", *limit, new, "--", new])[2], (0, "", ""))
        clock, processor = (least[old][place] + least[new][place] for place in range(2))
        whole, beyond = least["diff"][0], least["diff"][1] - processor
        print(f"clock     loading {clock:.3f} s, diff {whole:.3f} s: {whole / clock:.2f}")
        print(f"processor loading {processor:.3f} s, comparing {beyond:.3f} s: {beyond / processor:.2f}")
        loading, beyond = min(pair[0] for pair in of_plain), min(pair[1] for pair in of_plain)
        print(f"plain     loading {loading:.3f} s, comparing {beyond:.3f} s: {beyond / loading:.2f}")
        tell_radix(old, new)
        print(f"{len(wanted.splitlines())} ranges")


if __name__ == "__main__":
    main()

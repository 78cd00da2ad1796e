#!/usr/bin/env python3
"""Times the trie and one in plain Rust, over the same prefixes, in one run.

Needs rt and rustc. The program bench/benches and bench/trie_peer.rs run in turn, in each round and for each number of
prefixes (default: 3,000, 30,000 and 500,000; a small number is run more often). The table has a row for each call, with
the minimum of the times in nanoseconds and the ratio: wall-clock time, and processor time for the user and the system.
`together` is a look-up of 64 addresses at once, compared with the plain trie's look-up of a single one; `retain` is a
walk that removes one of a thousand, for each prefix. Then it prints the trie's number of nodes, and how many bytes for
each prefix the plain one allocated.
"""
import pathlib
import sys
import tempfile

sys.path[0] = str(pathlib.Path(__file__).resolve().parents[1])
from bench import results
from bench.programs import built_benches, built_peer, told


def compare(programs, prefixes, rounds):
    """Runs both in turn with this number of prefixes, prints a row for each call with its minimum times, and returns
    the rows."""
    runs = [[told([*program, prefixes]) for program in programs] for _ in range(rounds)]
    proved, plain = runs[0]
    for agreed in ("prefixes", "found", "kept", "left"):
        if proved[agreed] != plain[agreed]:
            sys.exit(f"bench/trie.py: the programs disagree on {agreed}")
    if proved["same"] != proved["found"]:
        sys.exit("bench/trie.py: look-ups of several addresses find different values")
    rows = []
    for call in ("insert", "longest", "together", "retain", "remove"):
        row, beside = {"prefixes": prefixes, "call": call}, "longest" if call == "together" else call
        for measure, kind in (("clock", ""), ("processors", "_cpu")):
            row[measure] = [min(run[0][call + kind] for run in runs), min(run[1][beside + kind] for run in runs)]
        rows.append(row)
        shown = "".join(f" {ours:8} {theirs:8} {ours / theirs:6.2f}" for ours, theirs in (row["clock"], row["processors"]))
        print(f"{prefixes:8} {call:8}{shown}", flush=True)
    each = plain["asked"] / plain["prefixes"]
    print(f"{prefixes:8} {proved['nodes']} nodes; plain Rust asked for {each:.1f} bytes a prefix")
    return rows


def main():
    reader = results.reader(__doc__, rounds=5)
    reader.add_argument("prefixes", nargs="*", type=int, default=[3_000, 30_000, 500_000])
    words = results.begin(reader)
    rows = []
    with tempfile.TemporaryDirectory() as folder:
        peer = built_peer(pathlib.Path(folder), "trie_peer.rs")
        programs = [built_benches("trie", "2000"), "trie"], [peer]
        print(f"{'prefixes':8} {'call':8} {'clock':>8} {'plain':>8} {'ratio':>6} {'cpu':>8} {'plain':>8} {'ratio':>6}")
        for prefixes in words.prefixes:
            rows += compare(programs, prefixes, words.rounds * max(1, 100_000 // prefixes))
    results.keep("trie", words.rounds, rows)


if __name__ == "__main__":
    main()

#!/usr/bin/env python3
"""Times a forwarding table, the same one in plain C and Rust, and the book that it is made of, over the same
prefixes and addresses. DPDK's rte_lpm, py-radix and Net::Patricia are timed too if they are installed.

Needs rt, gcc and rustc. The program bench/benches, bench/fib_peer.c, bench/fib_peer.rs and the others run in turn, in
each round and for each number of prefixes (default: 500,000 and 1,000,000) of a real table's lengths. Each looks up a
million addresses of two kinds: random ones, each in any of the prefixes, and local ones, in a thousand of these. A row
has a call, and for each program the minimum of its times: nanoseconds of processor time for one prefix or address; and
megabytes of memory. For `renew` it is the wall-clock time of one `follow`, right after the book's own call. `reader`
is the wall-clock time of one of two threads that look up 256 addresses at once. It is measured without a writer, and
with one that follows a thousand commands a second and publishes ten tables a second. Other libraries run only in the
first round.
"""
import pathlib
import subprocess
import sys
import tempfile

sys.path[0] = str(pathlib.Path(__file__).resolve().parents[1])
from bench import results
from bench.others import built_lpm, drawn, has_patricia, patricia_rows, printed, radix_rows, write_input
from bench.programs import built_benches, built_peer, told
from dev.crates import TOP

ASKED = 1 << 20
PLACES = 1000
KINDS = ("random", "local")
READERS, TURNS, COMMANDS = 2, 20, 100  # a turn of the writer takes a tenth of a second
WHO = ("Rattle", "C", "Rust", "book", "rte_lpm", "py-radix", "Net::Patricia")


def rattle_rows(benches, prefixes):
    """The rows of the forwarding table and of its book, by program and call, and the sums of the answers of look-ups."""
    said = told([benches, "fib", prefixes, ASKED])
    found = {("Rattle", "new"): said["new"] / prefixes, ("book", "new"): said["load"] / prefixes}
    found["Rattle", "memory"] = said["memory"] / 1e6
    for length in (24, 16, 8):
        found["Rattle", f"renew_{length}"] = said[f"renew_{length}"]
    for kind in KINDS:
        if not said[f"{kind}_same"]:
            sys.exit("bench/fib.py: the ways of looking up find different routes")
        for call in ("look_up", "look_up_each"):
            found["Rattle", f"{call} {kind}"] = said[f"{kind}_{call}"] / ASKED
            found["book", f"{call} {kind}"] = said[f"{kind}_book_{call}"] / ASKED
    return found, [said[f"{kind}_found"] for kind in KINDS]


def reader_rows(benches, prefixes):
    """The time of one of the readers for an address, without and with the writer."""
    found = {}
    for kind, commands in (("alone", 0), ("beside", COMMANDS)):
        said = told([benches, "readers", prefixes, READERS, TURNS, commands])
        found["Rattle", f"reader {kind}"] = said["passed"] * READERS / said["asked"]
        if said["passed"] > TURNS * 1.1e8:
            print(f"{prefixes:9} the writer took {said['passed'] / TURNS / 1e9:.2f} seconds a turn", flush=True)
    return found


def peer_rows(who, program, inputs, prefixes):
    """The same of a baseline program, which is run over each kind of addresses."""
    found, sums = {}, []
    for kind, words in inputs.items():
        said = told([program, words])
        found |= {(who, "new"): said["new"] / prefixes, (who, "memory"): said["memory"] / 1e6}
        found |= {(who, f"{call} {kind}"): said[call] / ASKED for call in ("look_up", "look_up_each")}
        sums.append(said["found"])
    return found, sums


def other_rows(folders, lpm, pairs, asked):
    """The rows of other libraries, if they are installed."""
    found = {}
    for kind, folder in folders.items():
        rows = {"rte_lpm": printed([lpm, folder / "input"])} if lpm else {}
        if has_patricia():
            rows["Net::Patricia"] = patricia_rows(folder)
        try:
            import radix
            rows["py-radix"] = radix_rows(radix, pairs, asked[kind])
        except ImportError:
            pass
        names = {"apply": "new", "forwarding_1": f"look_up {kind}", "forwarding_256": f"look_up_each {kind}",
                 "look_up_1": f"look_up {kind}", "look_up_text": f"look_up {kind}"}
        for who, some in rows.items():
            for name, value in some:
                found.setdefault((who, names[name]), value)
    return found


def compare(folder, programs, prefixes, rounds):
    """Runs all in turn with this number of prefixes, prints a row for each call, and returns their minimum times."""
    pairs, random = drawn(prefixes, ASKED)
    asked = {"random": random, "local": drawn(prefixes, ASKED, PLACES)[1]}
    folders = {kind: folder / kind for kind in KINDS}
    for kind in KINDS:
        folders[kind].mkdir(exist_ok=True)
        write_input(folders[kind], pairs, asked[kind])
    inputs, found = {kind: folders[kind] / "input" for kind in KINDS}, []
    for _ in range(rounds):
        some, sums = rattle_rows(programs["Rattle"], prefixes)
        for who in ("C", "Rust"):
            rows, others = peer_rows(who, programs[who], inputs, prefixes)
            if others != sums:
                sys.exit(f"bench/fib.py: {who} finds different routes")
            some |= rows
        some |= reader_rows(programs["Rattle"], prefixes)
        found.append(some if found else some | other_rows(folders, programs["rte_lpm"], pairs, asked))
    least = {key: min(one[key] for one in found if key in one) for key in found[0]}
    calls = [f"{call} {kind}" for kind in KINDS for call in ("look_up", "look_up_each")]
    calls += ["new", "renew_24", "renew_16", "renew_8", "reader alone", "reader beside", "memory"]
    times = {call: {who: round(least[who, call], 2) for who in WHO if (who, call) in least} for call in calls}
    for call in calls:
        cells = "".join(f"{times[call][who]:14.1f}" if who in times[call] else " " * 14 for who in WHO)
        print(f"{prefixes:9} {call:20}{cells}", flush=True)
    return [{"prefixes": prefixes, "call": call} | times[call] for call in calls]


def built(folder):
    """The programs by name; without rte_lpm if it isn't installed."""
    subprocess.run(["gcc", "-O2", "-o", folder / "c", TOP / "bench/fib_peer.c"], check=True)
    rust = built_peer(folder, "fib_peer.rs")
    return {"Rattle": built_benches("fib", "2000"), "C": folder / "c", "Rust": rust, "rte_lpm": built_lpm(folder)}


def main():
    reader = results.reader(__doc__, rounds=5)
    reader.add_argument("prefixes", nargs="*", type=int, default=[500_000, 1_000_000])
    words = results.begin(reader)
    rows = []
    with tempfile.TemporaryDirectory() as name:
        folder = pathlib.Path(name)
        programs = built(folder)
        print(" " * 30 + "".join(f"{who:>14}" for who in WHO))
        for prefixes in words.prefixes:
            rows += compare(folder, programs, prefixes, words.rounds)
    results.keep("fib", words.rounds, rows)


if __name__ == "__main__":
    main()

#!/usr/bin/env python3
"""Times the libraries for C, Rust and Python and the same calls in Rattle, over the same prefixes and addresses.
py-radix, Net::Patricia and DPDK's rte_lpm are timed too if they are installed.

Needs rt, gcc, cargo and what bindings/build needs. All run in turn, for the given number of rounds (default: 3), over
the given number of prefixes (500,000) of a real table's lengths, and look up addresses that each lie in one of them.
The program bench/benches draws the same, and is left out if it doesn't time a forwarding table. A row has a call, and
for each program the minimum nanoseconds of processor time for one prefix or address. `apply_journaled` is of a table with a
journal, `forward` makes a forwarding table, and the number at the end of a look-up's name says how many addresses one
call looks up. `forwarding_one` is a call without arrays, `add_text` adds a prefix as text and `contains` tests for it, and
`free` frees the table.
"""
import array
import importlib.machinery
import importlib.util
import os
import pathlib
import subprocess
import sys
import tempfile

sys.path[0] = str(pathlib.Path(__file__).resolve().parents[1])
from bench import results
from bench.others import built_lpm, call_each, drawn, each, has_patricia, patricia_rows, printed, radix_rows, write_input
from bench.programs import built_benches, told
from dev.crates import TOP
from dev.models.table_model import dotted

ASKED = 1 << 17
BINDINGS = TOP / "bindings"
WHO = ("Rattle", "C", "Rust", "Python", "py-radix", "Net::Patricia", "rte_lpm")
CALLS = ("apply", "add_text", "apply_each", "apply_journaled", "look_up_1", "look_up_text", "look_up_256", "look_up_4096",
         "look_up_array", "contains", "forward", "forwarding_1", "forwarding_text", "forwarding_256", "forwarding_4096",
         "forwarding_array", "forwarding_one", "view_1", "view_256", "free")


def python_library():
    """Returns the package of bindings/python, which doesn't have to be installed. Its modules name it, so Python has to
    know it before it is executed."""
    found = importlib.machinery.PathFinder.find_spec("yarib", [str(BINDINGS / "python")])
    yarib = sys.modules["yarib"] = importlib.util.module_from_spec(found)
    found.loader.exec_module(yarib)
    return yarib


def python_rows(yarib, pairs, asked):
    block = array.array("I", asked)
    table = yarib.Table()
    yield each("apply", len(pairs), lambda: [table.apply(1, "add", pair, k, k) for k, pair in enumerate(pairs)])
    texts, prefixes = [dotted(address) for address in asked], [f"{dotted(base)}/{length}" for base, length in pairs]
    yield each("look_up_1", ASKED, lambda: call_each(table.look_up, asked))
    yield each("look_up_text", ASKED, lambda: call_each(table.look_up, texts))
    yield each("look_up_array", ASKED, lambda: table.look_up_each(block))
    yield each("contains", len(pairs), lambda: call_each(lambda prefix: prefix in table, prefixes))
    forwarding = table.fib_new()
    yield each("forwarding_1", ASKED, lambda: call_each(forwarding.look_up, asked))
    yield each("forwarding_text", ASKED, lambda: call_each(forwarding.look_up, texts))
    yield each("forwarding_array", ASKED, lambda: forwarding.look_up_each(block))
    other, once = yarib.Table(), list(dict.fromkeys(prefixes))
    yield each("add_text", len(once), lambda: call_each(lambda prefix: other.add(prefix, 7, 5), once))


def rattle_rows(benches, prefixes):
    """The rows of the same calls in Rattle, by the program bench/benches, which draws the same."""
    said = told([benches, "fib", prefixes, ASKED])
    yield "apply_journaled", said["load"] / prefixes
    yield "forward", said["new"] / prefixes
    for which, call in (("book_look_up", "look_up_1"), ("book_look_up_each", "look_up_256"),
                        ("look_up", "forwarding_1"), ("look_up_each", "forwarding_256")):
        yield call, said[f"random_{which}"] / ASKED


def built(folder):
    """The programs of one round, by name: those in C and Rust, and in C over rte_lpm if it is installed."""
    subprocess.run([BINDINGS / "build"], check=True)
    library, program = BINDINGS / "out/libyarib.a", ["gcc", "-O2", "-o"]
    subprocess.run([*program, folder / "c", "-I", BINDINGS / "c", TOP / "bench/library.c", library], check=True)
    environment = os.environ | {"YARIB_LIB": str(BINDINGS / "out"), "CARGO_TARGET_DIR": str(folder / "target")}
    how = {"check": True, "cwd": BINDINGS / "rust", "env": environment}
    subprocess.run(["cargo", "build", "--release", "--offline", "--quiet"], **how)
    crate = f"yarib={folder / 'target/release/libyarib.rlib'}"
    words = ["rustc", "--edition", "2021", "-O", "--extern", crate, "-L", BINDINGS / "out", "-o", folder / "rust"]
    subprocess.run([*words, TOP / "bench/library.rs"], check=True)
    found = {"C": [folder / "c", folder / "input"], "Rust": [folder / "rust", folder / "input"]}
    if lpm := built_lpm(folder):
        found["rte_lpm"] = [lpm, folder / "input"]
    return found


def measured(folder, programs, benches, pairs, asked):
    """The rows of one round, by program and call."""
    yarib = python_library()
    found = {(who, name): value for who, words in programs.items() for name, value in printed(words)}
    if benches:
        found |= {("Rattle", name): value for name, value in rattle_rows(benches, len(pairs))}
    found |= {("Python", name): value for name, value in python_rows(yarib, pairs, asked)}
    try:
        import radix
        found |= {("py-radix", name): value for name, value in radix_rows(radix, pairs, asked)}
    except ImportError:
        pass
    if has_patricia():
        found |= {("Net::Patricia", name): value for name, value in patricia_rows(folder)}
    return found


def main():
    words = results.begin(results.reader(__doc__, rounds=3, prefixes=500_000))
    os.environ["YARIB_LIBRARY"] = str(BINDINGS / "out/libyarib.so.0")
    pairs, asked = drawn(words.prefixes, ASKED)
    with tempfile.TemporaryDirectory() as name:
        folder = pathlib.Path(name)
        write_input(folder, pairs, asked)
        times_it = (TOP / "bench/benches/src/fib.rt.in").exists()
        programs, benches = built(folder), built_benches("fib", "2000") if times_it else None
        rounds = [measured(folder, programs, benches, pairs, asked) for _ in range(words.rounds)]
    least = {key: min(one[key] for one in rounds) for key in rounds[0]}
    absent = [who for who in WHO if all(key[0] != who for key in least)]
    if absent:
        print(f"left out, not installed: {', '.join(absent)}", flush=True)
    rows = [{"call": call} | {who: least[who, call] for who in WHO if (who, call) in least} for call in CALLS]
    print(f"{'':16}" + "".join(f"{who:>14}" for who in WHO))
    for row in rows:
        print(f"{row['call']:16}" + "".join(f"{row[who]:14.0f}" if who in row else " " * 14 for who in WHO), flush=True)
    results.keep("library", words.rounds, rows)


if __name__ == "__main__":
    main()

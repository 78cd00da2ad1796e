#!/usr/bin/env python3
"""Times `yarib run` and the same program in plain Rust, on inputs that it makes.

Needs rustc. Both programs run in turn in each round over each input; the big ones have the given number of prefixes
with the lengths of a real table. With --sizes only one table that changes is run, at 10,000 to 1,000,000 prefixes. The
plain program has one thread and reads the files in turn. Prints for each input the minimum wall-clock time, the minimum
processor time (user and system) and the peak memory of both, with the ratios. It fails if their outputs differ: for one file
the whole output is compared, for several the table, since their look-ups depend on how the threads ran.
"""
import pathlib
import sys
import tempfile

sys.path[0] = str(pathlib.Path(__file__).resolve().parents[1])
from bench import results
from bench.programs import built, built_peer
from bench.timing import compare, written
from dev.models.inputs import changing_table, deal, one_prefix, real_table

SIZES = (10_000, 30_000, 100_000, 300_000, 1_000_000)


def inputs_of(count):
    """The name of each input, and how its files' lines are made."""
    return [
        ("one prefix, then look-ups of it", lambda: [one_prefix(200_000)]),
        ("a table in random order", lambda: [real_table(count, False)]),
        ("a table in rising order", lambda: [real_table(count, True)]),
        ("a table that changes", lambda: [changing_table(count)]),
        ("the same dealt to 4 files", lambda: deal(changing_table(count), 4)),
        ("the same dealt to 64 files", lambda: deal(changing_table(count), 64)),
    ]


def main():
    reader = results.reader(__doc__, rounds=5, prefixes=500_000)
    reader.add_argument("--sizes", action="store_true")
    words = results.begin(reader)
    yarib, batches, rows = built(), (1, 256), []
    inputs = [(name, {"input": name}, files) for name, files in inputs_of(words.prefixes)]
    if words.sizes:
        batches = (1, 16, 256)
        inputs = [(f"a table that changes, {size:,}", {"prefixes": size}, lambda size=size: [changing_table(size)])
                  for size in SIZES]
    with tempfile.TemporaryDirectory() as folder:
        programs = yarib, built_peer(pathlib.Path(folder), "peer.rs")
        for name, about, files in inputs:
            with written(files) as (paths, lines):
                for batch in batches:
                    measures = compare(f"{name:34}", paths, batch, programs, words.rounds, len(paths) == 1)
                    rows.append({**about, "lines": lines, "batch": batch, **measures})
    results.keep("sizes" if words.sizes else "run", words.rounds, rows)


if __name__ == "__main__":
    main()

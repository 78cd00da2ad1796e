#!/usr/bin/env python3
"""Times commands of the shared table of 64 feeds and of a book under std's mutex, in turn.

Needs rt. Each case runs the program bench/benches for the table and for the mutex one after the other, in each round,
with the given number of commands in all. For each case the nanoseconds of a command are printed, wall-clock time and
processor time (user and system), and their ratios to the mutex. For one thread they are the minimum, since other work can
only slow it down; for several they are the median, since single rounds differ much. The last rows are for two
processors only.
"""
import os
import pathlib
import sys

sys.path[0] = str(pathlib.Path(__file__).resolve().parents[1])
from bench import results
from bench.programs import built_benches
from bench.timing import passages, tenths

CASES = [(threads, batch) for threads in (1, 4, 16, 64) for batch in (1, 16, 256)]
ON_TWO = [(threads, batch) for threads in (2, 64) for batch in (1, 256)]


def compare(program, rounds, commands, threads, batch, processors):
    """Prints one row, and returns its measurements."""
    calls = [[program, "shared", commands, is_table, threads, batch] for is_table in (1, 0)]
    times = passages(calls, threads, rounds, 5, preexec_fn=lambda: os.sched_setaffinity(0, processors))
    clock, used = map(tenths, times)
    row = f"{len(processors):>10} {threads:>7} {batch:>5}"
    for table, mutex in (clock, used):
        row += f" {table:>9.0f} {mutex:>8.0f} {table / mutex:>6.2f}"
    print(row, flush=True)
    return {"on": len(processors), "threads": threads, "batch": batch, "clock": clock, "processors": used}


def main():
    words = results.begin(results.reader(__doc__, rounds=9, commands=200_000))
    program = built_benches("shared", "20000")
    every = os.sched_getaffinity(0)
    two = set(sorted(every)[:2])
    print("                            wall clock                processor time")
    print("processors threads batch     table    mutex  ratio     table    mutex  ratio")
    cases = [(*case, every) for case in CASES] + [(*case, two) for case in ON_TWO]
    results.keep("shared", words.rounds, [compare(program, words.rounds, words.commands, *case) for case in cases])


if __name__ == "__main__":
    main()

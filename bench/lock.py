#!/usr/bin/env python3
"""Times passages of the lock, of the same algorithm in C and of std's mutex, in turn.

Needs rt, gcc and pthreads. Each case runs the program bench/benches, bench/lock.c and the mutex one after another, in
each round, with the given number of passages. For each case the time of a passage is printed, in nanoseconds, and its
ratio to C: wall-clock time, and processor time (user and system). It is the minimum for one thread, and the median for
several.
"""
import pathlib
import sys
import tempfile

sys.path[0] = str(pathlib.Path(__file__).resolve().parents[1])
from bench import results
from bench.programs import built_benches
from bench.timing import passages, tenths
from dev.testing import compiled

ALONE = [(levels, 1) for levels in range(1, 7)]
TOGETHER = [(1, 2), *((levels, threads) for levels in range(2, 7) for threads in (2, 4)), (6, 16), (6, 64)]


def main():
    words = results.begin(results.reader(__doc__, rounds=9, passages=200_000))
    rows = []
    with tempfile.TemporaryDirectory() as folder:
        tree, plain = [built_benches("lock", "3000"), "lock"], [compiled(pathlib.Path(folder), "bench/lock.c", "-pthread")]
        print("               wall clock                         processor time")
        print("levels threads     lock        C    mutex lock/C     lock        C    mutex lock/C")
        for levels, threads in ALONE + TOGETHER:
            # The mutex is the tree of no level.
            calls = [[*program, words.passages, height, threads] for program, height in ((tree, levels), (plain, levels), (tree, 0))]
            clock, processors = passages(calls, threads, words.rounds, 4)
            row = f"{levels:>6} {threads:>7}"
            for lock, other, mutex in (clock, processors):
                row += f" {lock:>8.1f} {other:>8.1f} {mutex:>8.1f} {lock / other:>6.2f}"
            print(row, flush=True)
            rows.append({"levels": levels, "threads": threads, "clock": tenths(clock), "processors": tenths(processors)})
    results.keep("lock", words.rounds, rows)


if __name__ == "__main__":
    main()

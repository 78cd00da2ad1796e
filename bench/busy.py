#!/usr/bin/env python3
"""Times `yarib run` on a busy machine: with several files, with one file of the same lines, and the plain program, in
turn.

Needs rustc. It starts two busy processes for each processor, in the ordinary scheduling class, and ends
them by their ids. For each number of files and batch size, all three run in turn for the given number of rounds, with
the given number of lines in all. Prints the median wall-clock time and processor time in milliseconds, the minimum and the
maximum wall-clock time, and the ratios to one file and to the plain program. The last rows are of the quiet machine.
"""
import os
import pathlib
import statistics
import subprocess
import sys
import tempfile

sys.path[0] = str(pathlib.Path(__file__).resolve().parents[1])
from bench import results
from bench.programs import built, built_peer
from bench.timing import measure
from dev.models.inputs import changing_table, deal, write

FILES = (2, 4, 16, 64)
BATCHES = (1, 256)


def spread(times):
    """The median, the minimum and the maximum, in milliseconds."""
    return [round(pick(times) * 1e3, 1) for pick in (statistics.median, min, max)]


def row(folder, programs, files, batch, others, rounds, lines):
    """Measures several files, one file and the plain program in turn, prints the row and returns its measurements."""
    several, one = (sorted((folder / str(count)).iterdir()) for count in (files, 1))
    words = [programs[0], "run", "--batch", str(batch)]
    calls = [[*words, *several], [*words, *one], [programs[1], *one]]
    runs = [[measure(call, False) for call in calls] for _ in range(rounds)]
    ours, alone, plain = (spread([run[case][0] for run in runs]) for case in range(3))
    used = [spread([run[case][1] for run in runs])[0] for case in range(3)]
    print(
        f"{others:>6} {files:>5} {batch:>5} {ours[0]:>9.0f} {ours[1]:>7.0f} {ours[2]:>7.0f} {alone[0]:>8.0f} {plain[0]:>8.0f}"
        f" {ours[0] / alone[0]:>7.2f} {ours[0] / plain[0]:>8.2f} {used[0] / used[1]:>10.2f}",
        flush=True,
    )
    return {"others": others, "files": files, "batch": batch, "lines": lines, "clock": [ours, alone, plain],
            "processors": used}


def rows(folder, programs, others, rounds, lines):
    """Each case while this number of busy processes runs."""
    started = [subprocess.Popen([sys.executable, "-c", "while True: pass"]) for _ in range(others)]
    try:
        return [row(folder, programs, files, batch, others, rounds, lines) for files in FILES for batch in BATCHES]
    finally:
        for other in started:
            other.kill()
            other.wait()


def main():
    words = results.begin(results.reader(__doc__, rounds=5, lines=160_000))
    rounds, yarib = words.rounds, built()
    with tempfile.TemporaryDirectory() as made:
        folder = pathlib.Path(made)
        table = changing_table(words.lines * 10 // 16)
        for files in (1, *FILES):
            (folder / str(files)).mkdir()
            write(folder / str(files), lambda: deal(table, files))
        programs = (yarib, built_peer(folder, "peer.rs"))
        print("                      several files, wall clock   one file    plain     wall-clock ratios    processor ratio")
        print("busy   files batch    median minimum maximum   median   median to one  to plain     to one")
        measured = [found for others in (2 * os.cpu_count(), 0)
                    for found in rows(folder, programs, others, rounds, len(table))]
    results.keep("busy", rounds, measured)


if __name__ == "__main__":
    main()

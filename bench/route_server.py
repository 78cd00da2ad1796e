#!/usr/bin/env python3
"""Times `yarib run` and the same program in plain Rust with a route server's load.

Needs rustc. Each of 1, 4, 16 and 64 files announces the same prefixes with its own order and preferences, then
withdraws a tenth and replaces a tenth of them; the last file removes all its routes with `purge`. Both programs run in
turn in each round, on one processor, on two and on all, in batches of 256, and on all in single commands. With
--batches they run on 20,000 prefixes, in batches of 1, 16 and 256 everywhere. Prints for each the minimum wall-clock
time and processor time (user and system) and the peak memory, with the ratios, and fails if the outputs differ: no answer
here depends on how the threads ran.
"""
import os
import pathlib
import random
import sys
import tempfile

sys.path[0] = str(pathlib.Path(__file__).resolve().parents[1])
from bench import results
from bench.programs import built, built_peer
from bench.timing import compare, written
from dev.models.inputs import add, real_prefixes
from dev.models.table_model import dotted

FILES = (1, 4, 16, 64)


def feed(number, count, prefixes):
    """The lines of the feed with this number: its announcements, withdrawals and changes."""
    draw = random.Random(number)
    announced = draw.sample(prefixes, len(prefixes))
    tenth = len(announced) // 10
    yield "version 2"
    for base, length in announced:
        yield add(draw, base, length)
    for base, length in announced[:tenth]:
        yield f"withdraw {dotted(base)}/{length}"
    for base, length in announced[tenth : 2 * tenth]:
        yield f"replace {dotted(base)}/{length} {draw.randrange(200)} 192.0.2.2"
    if number == count:
        yield "purge"


def feeds(count, prefixes):
    return (feed(number, count, prefixes) for number in range(1, count + 1))


def compare_files(count, batches, on_all, programs, rounds):
    """A row for each number of files, of processors, and batch size: these batch sizes, and all of them on all
    processors."""
    every, rows = sorted(os.sched_getaffinity(0)), []
    for files in FILES:
        with written(lambda: feeds(files, real_prefixes(count, random.Random(1)))) as (paths, lines):
            for some in (1, 2, len(every)):
                for batch in on_all if some == len(every) else batches:
                    os.sched_setaffinity(0, every[:some])
                    title = f"{len(paths):2} files on {some:2} processors,"
                    about = {"files": files, "lines": lines, "on": some, "batch": batch}
                    rows.append({**about, **compare(title, paths, batch, programs, rounds, True)})
                    os.sched_setaffinity(0, every)
    return rows


def main():
    reader = results.reader(__doc__, rounds=3, prefixes=100_000)
    reader.add_argument("--batches", action="store_true")
    words = results.begin(reader)
    name, count, batches, on_all = "route_server", words.prefixes, (256,), (1, 256)
    if words.batches:
        name, count, batches, on_all = "batches", 20_000, (1, 16, 256), (1, 16, 256)
    with tempfile.TemporaryDirectory() as folder:
        programs = built(), built_peer(pathlib.Path(folder), "peer.rs")
        results.keep(name, words.rounds, compare_files(count, batches, on_all, programs, words.rounds))


if __name__ == "__main__":
    main()

#!/usr/bin/env python3
"""Times queries of full tables by the number of processors.

The tables have the same 1,050,000 prefixes, with the lengths of a real table, in rising order, and different next hops; every
table is distributed over two files. `table --best`, `table` and `lookup` of 300,000 addresses read all of them, `diff
without a peer` compares all of them with all but the last, and `diff of two tables` compares two, which differ in each
prefix. Each query runs on each number of processors. With --beside another program does the same in turn with this one. Prints the
minimum of the wall-clock time and of the processor time. It fails if an output depends on the number of processors, or if
the other program's differs.
"""
import os
import pathlib
import random
import subprocess
import sys
import tempfile

sys.path[0] = str(pathlib.Path(__file__).resolve().parents[1])
from bench import results
from bench.programs import built
from bench.timing import measure
from dev.models.inputs import real_prefixes, write_apart
from dev.models.table_model import dotted

PREFIXES, ADDRESSES = 1_050_000, 300_000
LIMIT = ["--limit", "1000000"]


def lines(prefixes, table):
    """The commands of one half of a table: its preferences differ from those of other tables."""
    draw = random.Random(table)
    for base, length in prefixes:
        yield f"add {dotted(base)}/{length} {draw.randrange(200)} 192.0.2.{table + 1}\n"


def written(folder, tables):
    """The files of each table, two for each, and the file of addresses."""
    prefixes = sorted(real_prefixes(PREFIXES, random.Random(1)))
    half, files = len(prefixes) // 2, []
    for table in range(tables):
        files.append([folder / f"{table:02}{part}.feed" for part in "ab"])
        for path, part in zip(files[-1], (prefixes[:half], prefixes[half:])):
            write_apart(path, lines(part, table))
    draw, addresses = random.Random(2), folder / "addresses.txt"
    write_apart(addresses, (f"{dotted(draw.getrandbits(32))}\n" for _ in range(ADDRESSES)))
    return files, addresses


def queries(files, addresses):
    """The name and the arguments of each query."""
    every = [path for pair in files for path in pair]
    yield "table --best", ["table", "--best", *LIMIT, *every]
    yield "table", ["table", *LIMIT, *every]
    yield "lookup", ["lookup", *LIMIT, "--addresses", addresses, *every]
    yield "diff without a peer", ["diff", *LIMIT, *every, "--", *every[:-2]]
    yield "diff of two tables", ["diff", *LIMIT, *files[0], "--", *files[1]]


def run(program, words, processors):
    """What one run took on the first of these processors, with the launcher's memory for this query."""
    allowed = os.sched_getaffinity(0)
    os.sched_setaffinity(0, sorted(allowed)[:processors])
    try:
        # `diff` ends with status 1 if the tables differ
        return measure(["sh", "-c", '"$@"; test $? -le 1', "sh", program, *words], True, env=results.environment(words[0]))
    finally:
        os.sched_setaffinity(0, allowed)


def row_of(name, words, programs, on, rounds):
    """The row of a query on this number of processors, and the digest of its output."""
    runs = [[run(program, words, on) for program in programs] for _ in range(rounds)]
    digests = {one[3] for pair in runs for one in pair}
    if len(digests) != 1:
        sys.exit(f"{name}, {on} processors: the outputs differ")
    row = {"query": name, "on": on}
    for title, field in (("clock", 0), ("processors", 1)):
        row[title] = [round(min(pair[which][field] for pair in runs), 3) for which in range(len(programs))]
    print(f"{name:20} {on} processors"
          + "".join(f" | {title} {' / '.join(f'{value:.2f}' for value in row[title])}" for title in list(row)[2:]), flush=True)
    return row, digests


def main():
    reader = results.reader(__doc__, tables=8, rounds=3)
    reader.add_argument("--beside", help="another program, which runs in turn")
    reader.add_argument("--on", help="numbers of processors, as 1,4; default: all up to the machine's")
    words = results.begin(reader)
    programs = [built(), *([words.beside] if words.beside else [])]
    most = len(os.sched_getaffinity(0))
    on = [int(number) for number in words.on.split(",")] if words.on else range(1, most + 1)
    rows = []
    with tempfile.TemporaryDirectory() as made:
        for name, asked in queries(*written(pathlib.Path(made), words.tables)):
            outputs = set()
            for number in on:
                row, digests = row_of(name, asked, programs, number, words.rounds)
                rows.append(row)
                outputs |= digests
            if len(outputs) != 1:
                sys.exit(f"{name}: the output depends on the number of processors")
    results.keep("queries", words.rounds, rows)


if __name__ == "__main__":
    main()

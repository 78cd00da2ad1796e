"""The time and memory of one run of a program, and those of the proved program compared with others."""
import contextlib
import hashlib
import os
import pathlib
import statistics
import subprocess
import sys
import tempfile
import time

from dev.models.inputs import count_lines, write


def digest(output, whole):
    """The digest of an output, or only of its table."""
    text = output.read()
    start = 0 if whole else text.rindex(b"\ntable ")
    return hashlib.sha256(text[start:]).digest()


def taken(words, **how):
    """Seconds of wall-clock time, the kernel's counts, and the ended process of one run."""
    start = time.perf_counter()
    child = subprocess.Popen(words, **how)
    _, status, usage = os.wait4(child.pid, 0)
    seconds = time.perf_counter() - start
    child.returncode = os.waitstatus_to_exitcode(status)
    return seconds, usage, child


def measure(words, whole, **how):
    """Seconds of wall-clock and processor time, peak bytes, and the digest of the output of one run, which has to end with
    status 0."""
    with tempfile.TemporaryFile() as output:
        seconds, usage, child = taken(words, stdout=output, stderr=subprocess.PIPE, **how)
        with child.stderr as errors:
            if child.returncode != 0:
                sys.exit(f"{words}: status {child.returncode}: {errors.read().decode()}")
        output.seek(0)
        return seconds, usage.ru_utime + usage.ru_stime, usage.ru_maxrss * 1024, digest(output, whole)


def passage(words, figures, **how):
    """Nanoseconds of wall-clock and processor time of a passage, by a program that prints this number of figures: the last
    two are how many passages it made, and their nanoseconds."""
    _, usage, child = taken(list(map(str, words)), stderr=subprocess.PIPE, text=True, **how)
    row = child.stderr.read().split()
    if child.returncode != 0 or len(row) != figures:
        sys.exit(f"{sys.argv[0]}: {words} failed")
    return int(row[-1]) / int(row[-2]), (usage.ru_utime + usage.ru_stime) * 1e9 / int(row[-2])


def passages(calls, threads, rounds, figures, **how):
    """Both times of a passage of each call, in turn in each round. For one thread it is the minimum, since other work can
    only slow it down. For several it is the median, since they are fastest when they happen to come one after another."""
    runs = [[passage(words, figures, **how) for words in calls] for _ in range(rounds)]
    pick = min if threads == 1 else statistics.median
    return [[pick(run[call][kind] for run in runs) for call in range(len(calls))] for kind in (0, 1)]


def tenths(times):
    return [round(time, 1) for time in times]


@contextlib.contextmanager
def written(files):
    """The paths of these files, which exist meanwhile, and their number of lines."""
    with tempfile.TemporaryDirectory() as folder:
        paths = write(pathlib.Path(folder), files)
        yield paths, count_lines(paths)


def compare(title, paths, batch, programs, rounds, whole):
    """Runs yarib and the plain program on the files in turn, prints a row and returns the minimum of each measurement of
    both: milliseconds of wall-clock and processor time, and megabytes. Fails if the outputs differ, or their tables."""
    yarib, peer = programs
    calls = [[yarib, "run", "--limit", "1000000", "--batch", str(batch), *paths], [peer, *paths]]
    runs = [[measure(words, whole) for words in calls] for _ in range(rounds)]
    if runs[0][0][3] != runs[0][1][3]:
        sys.exit(f"{title.strip(' ,')}: the outputs differ")
    measures, row = {}, f"{title} batch {batch:3}"
    for name, field, scale, unit in (("clock", 0, 1e3, "ms"), ("processors", 1, 1e3, "ms"), ("memory", 2, 1e-6, "MB")):
        ours, theirs = measures[name] = [round(min(run[program][field] for run in runs) * scale, 1) for program in (0, 1)]
        row += f" | {name} {ours:7.0f} / {theirs:7.0f} {unit} = {ours / theirs:4.2f}"
    print(row, flush=True)
    return measures

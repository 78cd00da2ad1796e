"""The directory of the benchmarks' results: `bench/figures/NAME.json` has the machine, the day, and a row for each
case.

A bench that is called with `--store` writes its file there. `bench/tables.py` makes the tables of docs/PERFORMANCE.md out
of these files, and `bench/draw_figures.py` the pictures. It measures in the ordinary scheduling class, and doesn't
begin to measure for a file while the machine has other work: half a processor's or more. It measures with the memory
that ./yarib and what is installed start the program with, or, with `--default-memory`, with the C library's own; the
plain programs have the same."""
import argparse
import datetime
import json
import os
import pathlib
import platform
import re
import sys
import time

from dev.crates import TOP
from dev.testing import launched

FOLDER = TOP / "bench" / "figures"
# How tables and figures name the memory settings of a measurement. None is for counts, and if only one thread
# allocates.
MEMORY = {"launcher": "; launcher's memory", "default": "; default memory", None: ""}
# The columns of /proc/stat of time that wasn't idle, and of time that the machine's host gave to others.
WORKING, STOLEN = (1, 2, 3, 6, 7, 8), (8,)
# The arguments, and when the measurement began: the machine's clock and the time that its host had withheld from it.
asked, began = argparse.Namespace(store=False, default_memory=False), None


def reader(about, **numbers):
    """Returns the parser of a benchmark's arguments: these numbers in order, each with its default, and flags."""
    found = argparse.ArgumentParser(description=about, formatter_class=argparse.RawDescriptionHelpFormatter)
    found.add_argument("--store", action="store_true",
                       help="keep the results in bench/figures/; needs a quiet machine")
    found.add_argument("--default-memory", action="store_true", help="measure with the C library's default memory settings")
    for name, default in numbers.items():
        found.add_argument(name, nargs="?", type=int, default=default, help=f"default: {default}")
    return found


def begin(reader):
    """Begins with what the command line says."""
    return begun(reader.parse_args())


def begun(words):
    """All programs that are started from now on have the memory that is measured, and the bench says which."""
    global asked, began
    asked = words
    if asked.store and (others := working_processors()) > 0.5:
        sys.exit(f"{sys.argv[0]}: {others:.1f} processors are busy with other work; try again on a quiet machine")
    for name in launched():
        os.environ.pop(name, None)
    os.environ |= environment("run")
    print("memory: the C library's default" if asked.default_memory else "memory: the launcher's settings", flush=True)
    began = time.monotonic(), seconds(STOLEN)
    return asked


def environment(subcommand):
    """Returns the environment of a program that is started with this subcommand, with the memory that is measured."""
    return os.environ | ({} if asked.default_memory else launched(subcommand))


def working_processors():
    """Returns the number of processors that the machine's work uses, by the kernel's counts over a second."""
    before = seconds(WORKING)
    time.sleep(1)
    return seconds(WORKING) - before


def seconds(columns):
    """Returns the processor time since the start of the machine of these columns of the kernel's counts, in seconds."""
    counts = pathlib.Path("/proc/stat").read_text().split()
    return sum(int(counts[column]) for column in columns) / os.sysconf("SC_CLK_TCK")


def machine():
    """Returns the machine in one line: its processors, whether they are virtual, and the kernel."""
    about = pathlib.Path("/proc/cpuinfo").read_text()
    model = re.search(r"^model name\s*: (.*)$", about, re.M)
    kind = "virtual processors" if re.search(r"^flags\s*:.*\bhypervisor\b", about, re.M) else "processors"
    name = model[1].replace("(R)", "") if model else platform.machine()
    return f"{len(os.sched_getaffinity(0))} {kind}, {name}, {platform.system()} {platform.release().split('-')[0]}"


def keep(name, rounds, rows):
    """Writes the file of this name if `--store` is given. A row is a dict: what was measured, and each
    measure as a list, the proved program's first."""
    if not asked.store:
        return
    FOLDER.mkdir(exist_ok=True)
    head = {"machine": machine(), "made": datetime.date.today().isoformat(), "rounds": rounds}
    # of counts it doesn't matter
    if began is not None:
        clock, before = began
        stolen = round((seconds(STOLEN) - before) / (time.monotonic() - clock), 2)
        head |= {"stolen": stolen, "memory": "default" if asked.default_memory else "launcher"}
    lines = ",\n    ".join(json.dumps(row) for row in rows)
    text = json.dumps(head)[:-1] + f', "rows": [\n    {lines}\n]}}\n'
    json.loads(text)
    (FOLDER / f"{name}.json").write_text(text)
    print(f"kept in bench/figures/{name}.json", flush=True)


def kept(name):
    """Returns the contents of the file with this name."""
    return json.loads((FOLDER / f"{name}.json").read_text())

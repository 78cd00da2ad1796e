#!/usr/bin/env python3
"""Makes the tables of docs/PERFORMANCE.md from the results that the benchmarks kept in bench/figures/,
and ends with status 1 if a table of the page differs.

A table is between `<!-- figures: NAME -->` and `<!-- end -->`, and bench/figures/NAME.json has the results of its
benchmark. For a long table the page shows the rows at both ends and some between, the worst among them, and the ratios
of processor times. Results with nothing to compare with are listed below the table."""
import argparse
import pathlib
import re
import sys
import textwrap

sys.path[0] = str(pathlib.Path(__file__).resolve().parents[1])
from bench import results
from dev.crates import TOP

PAGE = TOP / "docs/PERFORMANCE.md"
MARKED = re.compile(r"(<!-- figures: (\w+) -->\n).*?(<!-- end -->)", re.S)

CALLERS = ("Rattle", "C", "Rust", "Python", "py-radix", "Net::Patricia", "rte_lpm")
TO_PLAIN = ["Clock", "To plain", "Processors to plain", "Memory", "To plain"]


def number(value):
    return f"{value:,.0f}" if value >= 10 else f"{value:.2g}"


def ratio(one, other, *_others):
    return f"{one / other:.2f}"


def named(row, *names):
    """The measures of these programs, empty if one has none."""
    return [number(row[who]) if who in row else "" for who in names]


def compared(row, one, other):
    """The ratio of a program's measure to another's, if both have one."""
    return ratio(row[one], row[other]) if one in row and other in row else ""


def program(row):
    """Ours and the ratio to the other's: wall-clock time, processor time (only the ratio) and memory."""
    clock, memory = row["clock"], row["memory"]
    return [number(clock[0]), ratio(*clock), ratio(*row["processors"]), number(memory[0]), ratio(*memory)]


def beside(row):
    """The wall-clock times, and the ratios of the first two in wall-clock and processor time."""
    return [*map(number, row["clock"]), ratio(*row["clock"]), ratio(*row["processors"])]


def busy(row):
    """Several files, one file, the plain program: the middle, the range, and the ratios."""
    several, one, plain = row["clock"]
    cells = [row["others"], row["files"], row["batch"], number(several[0]), f"{number(several[1])} to {number(several[2])}"]
    return cells + [ratio(several[0], one[0]), ratio(several[0], plain[0]), ratio(*row["processors"])]


def callers(row):
    """Those who make a call, as the page names them."""
    return [who for who in CALLERS if who in row]


def library_below(rows):
    """The costs of calls that only one of the programs has."""
    alone = [f"`{row['call']}` {who} {number(row[who])}" for row in rows for who in callers(row)[:1] if len(callers(row)) == 1]
    return f"{', '.join(alone)}. "


def fib_call(row):
    """The call, and which addresses it looks up or what runs at the same time."""
    call, *about = row["call"].split()
    return " ".join([f"`{call}`", *about])


def fib(row):
    """The cost of a call, and its ratio to the same in C and in Rust; then the book and other libraries."""
    ratios = [cell for who in ("C", "Rust") for cell in (*named(row, who), compared(row, "Rattle", who))]
    return [fib_call(row), number(row["Rattle"]), *ratios, *named(row, "book", *CALLERS[-3:])]


def fib_below(rows):
    """The number of prefixes of the rows, and the costs of calls that no other program has."""
    alone = [f"{fib_call(row)} {number(row['Rattle'])}" for row in rows if not is_compared(row)]
    return f"{rows[0]['prefixes']:,} prefixes. {', '.join(alone)}. "


def is_compared(row):
    """Returns True if another program has the call."""
    return any(who in row for who in ("book", *CALLERS[1:]))


# The heads of each table, and the cells of a row.
TABLES = {
    "busy": (["Busy processes", "Files", "Batch", "Clock", "Range", "To one file", "To plain", "Processors to one file"], busy),
    "run": (["Input", "Batch", *TO_PLAIN], lambda row: [row["input"], row["batch"], *program(row)]),
    "route_server": (["Files", "Processors", "Batch", *TO_PLAIN],
                     lambda row: [row["files"], row["on"], row["batch"], *program(row)]),
    "queries": (["Query", "Processors", "Clock", "Processor time"],
                lambda row: [f"`{row['query']}`", row["on"], f"{row['clock'][0]:.1f}", f"{row['processors'][0]:.1f}"]),
    "lock": (["Levels", "Threads", "Lock", "C", "Mutex", "Lock to C", "Processors to C"],
             lambda row: [row["levels"], row["threads"], *beside(row)]),
    "shared": (["Processors", "Threads", "Batch", "Table", "Mutex", "To mutex", "Processors to mutex"],
               lambda row: [row["on"], row["threads"], row["batch"], *beside(row)]),
    "fib": (["Call", "Rattle", "C", "Ratio", "Rust", "Ratio", "Book", *CALLERS[-3:]], fib),
    "library": (["Call", *CALLERS[:2], "C to Rattle", *CALLERS[2:]],
                lambda row: [f"`{row['call']}`", *named(row, *CALLERS[:2]), compared(row, "C", "Rattle"), *named(row, *CALLERS[2:])]),
    "instructions": (["Instructions a line", "One prefix", "Real lengths"],
                     lambda row: [row["part"], f"{row['one_prefix']:,}", f"{row['real_lengths']:,}"]),
}

# The beginning of the line below a table, from all rows.
BELOW = {"fib": fib_below, "library": library_below}

# For a long table, which rows the page shows.
SHOWN = {
    "busy": lambda row: row["files"] in (2, 64),
    "fib": is_compared,
    "instructions": lambda row: row["one_prefix"] > 110,
    "library": lambda row: row["call"] != "forwarding_4096" and len(callers(row)) > 1,
    "queries": lambda row: row["on"] in (1, 4),
    "lock": lambda row: (row["levels"], row["threads"]) in {(1, 1), (1, 2), (2, 4), (6, 1), (6, 2), (6, 16), (6, 64)},
    "route_server": lambda row: row["files"] == 64 or row["files"] != 16 and row["on"] == 4,
    "run": lambda row: "order" not in row["input"],
    "shared": lambda row: 16 not in (row["threads"], row["batch"]) and (row["on"], row["batch"]) != (2, 256),
}


def table(name, head):
    """The table of this name, with the day below it, and the machine if the page's head names another."""
    if not (results.FOLDER / f"{name}.json").exists():
        return "Not measured yet.\n"
    heads, cells = TABLES[name]
    kept = results.kept(name)
    has = SHOWN.get(name, lambda row: True)
    rows = [heads] + [cells(row) for row in kept["rows"] if has(row)]
    lines = ["| " + " | ".join(str(cell) for cell in row) + " |" for row in rows]
    lines.insert(1, "|" + "---|" * len(heads))
    machine = "" if kept["machine"] in " ".join(head.split()) else f"{kept['machine']}; "
    rounds = f"{kept['rounds']} run{'s' if kept['rounds'] > 1 else ''}"
    below = BELOW.get(name, lambda rows: "")(kept["rows"])
    said = f"{below}{machine}{rounds}{results.MEMORY[kept.get('memory')]}; {kept['made']}{stolen(kept)}."
    return "\n".join(lines) + f"\n\n{textwrap.fill(said, 120)}\n"


def stolen(kept):
    """How much of the processors the host of a virtual machine withheld meanwhile, if it was a tenth of a processor or
    more."""
    share = kept.get("stolen", 0)
    return f"; its host kept {share:.1f} processors from it meanwhile" if share >= 0.1 else ""


def main():
    parser = argparse.ArgumentParser(description=__doc__, formatter_class=argparse.RawDescriptionHelpFormatter)
    either = parser.add_mutually_exclusive_group()
    either.add_argument("--write", action="store_true", help="write the tables into the page, each between its two marks")
    either.add_argument("--check", action="store_true", help="only compare the tables; this is the default")
    is_writing, page = parser.parse_args().write, PAGE.read_text()
    head = page.partition("\n## ")[0]
    written = MARKED.sub(lambda found: found[1] + table(found[2], head) + found[3], page)
    if not MARKED.search(page):
        sys.exit("bench/tables.py: docs/PERFORMANCE.md has no table between marks")
    if is_writing:
        PAGE.write_text(written)
    elif written != page:
        sys.exit("bench/tables.py: docs/PERFORMANCE.md differs from bench/figures/: run bench/tables.py --write")


if __name__ == "__main__":
    main()

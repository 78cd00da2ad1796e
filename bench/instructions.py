#!/usr/bin/env python3
"""Counts the instructions of each part of `yarib run`, which other work on the machine doesn't change.

Needs valgrind. Two texts, each of a single file, are run in batches of 256: additions and look-ups of a single prefix,
and a table of 70,000 prefixes with the lengths of a real one. Prints each part's instructions for each line. A part is identified by
the functions that the compiler kept: an inlined function counts for its caller, as reading ahead does for executing
commands.
"""
import pathlib
import re
import subprocess
import sys
import tempfile

sys.path[0] = str(pathlib.Path(__file__).resolve().parents[1])
from bench import results
from bench.programs import built
from dev.models.inputs import one_prefix, real_table

# The first pattern found in a function's name determines its part.
PARTS = [
    ("cutting at the ends of lines and at spaces", r"^rt_feed::lines|^memchr"),
    ("reading prefixes, numbers and addresses", r"^rt_feed::(parse|versions)|^rt_cidr::(address::read|prefix)"),
    ("gathering and asking, reading ahead, the report", r"^rt_feed::(feed_run|running|report|gates|feeds)|^std::thread"),
    ("the table and the lock", r"^(rt_shared|rt_rib|rt_trie|ya_\w+|atomic_table)::"),
    ("rendering", r"^rt_feed::print|^rt_print::|^rt_cidr::|^rt_run::|^rt_app::|^terminal_line::"),
    ("memory: granted, copied, filled", r"malloc|_alloc|free|realloc|^__?mem"),
    ("the rest", r""),
]
ROW = re.compile(r"^ *([\d,]+) \( *[\d.]+%\)  \S*?:(.*?)(?: \[.*\])?$", re.M)


def counted(program, lines, folder):
    """The instructions a line of each part, in a run of these lines."""
    text, out = folder / "counted.feed", folder / "counted.out"
    text.write_text("\n".join(lines) + "\n")
    words = [program, "run", "--limit", "1000000", "--batch", "256", text]
    callgrind = ["valgrind", "--tool=callgrind", f"--callgrind-out-file={out}"]
    subprocess.run([*callgrind, *words], check=True, capture_output=True)
    listed = subprocess.run(["callgrind_annotate", "--threshold=100", out], check=True, capture_output=True, text=True).stdout
    sums = dict.fromkeys((part for part, _ in PARTS), 0)
    for count, function in ROW.findall(listed):
        part = next(part for part, pattern in PARTS if re.search(pattern, function))
        sums[part] += int(count.replace(",", ""))
    return {part: round(count / len(lines)) for part, count in sums.items()}


def main():
    results.asked = results.reader(__doc__).parse_args()
    yarib = built()
    with tempfile.TemporaryDirectory() as made:
        one, real = (counted(yarib, lines, pathlib.Path(made)) for lines in (one_prefix(50_000), real_table(70_000, False)))
    rows = [{"part": part, "one_prefix": one[part], "real_lengths": real[part]} for part, _ in PARTS]
    rows.append({"part": "all", "one_prefix": sum(one.values()), "real_lengths": sum(real.values())})
    for row in rows:
        print(f"{row['part']:50} {row['one_prefix']:7} {row['real_lengths']:7}")
    results.keep("instructions", 1, rows)


if __name__ == "__main__":
    main()

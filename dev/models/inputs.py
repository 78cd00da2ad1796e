"""The inputs of the benchmarks' runs: feeds of one prefix, of a table's prefixes and of a table that changes."""
import hashlib
import os
import random
import subprocess
import sys

from dev.models.table_model import dotted


def one_prefix(count):
    """The same prefix added over and over, and the same number of look-ups of it."""
    return ["add 10.0.0.0/8 100 192.0.2.1"] * count + ["lookup 10.1.2.3"] * count


def real_prefixes(count, draw):
    """Distinct prefixes of the lengths of a real table in random order, nested ones among them."""
    lengths = [24] * 60 + [23, 22] * 10 + [21, 20, 19] * 4 + [16] * 5 + [18, 17, 15, 14, 8, 28]
    chosen = {}
    while len(chosen) < count:
        length = draw.choice(lengths)
        base = draw.getrandbits(32) >> 32 - length << 32 - length
        chosen[base, length] = None
    return list(chosen)


def add(draw, base, length):
    return f"add {dotted(base)}/{length} {draw.randrange(200)} 192.0.2.1"


def look_ups(count, prefixes, draw):
    """Look-ups of addresses of these prefixes, and one in ten of any address."""
    for _ in range(count):
        base, length = draw.choice(prefixes)
        within = draw.getrandbits(32) if draw.randrange(10) == 0 else base | draw.getrandbits(32 - length)
        yield f"lookup {dotted(within)}"


def real_table(count, rising):
    """A table's prefixes, in random or in rising order, and then look-ups; most of them find a route."""
    draw = random.Random(1)
    prefixes = real_prefixes(count, draw)
    if rising:
        prefixes.sort()
    lines = [add(draw, base, length) for base, length in prefixes]
    lines.extend(look_ups(count * 2 // 5, prefixes, draw))
    return lines


def changing_table(count):
    """The same in random order, with one withdrawal or replacement to five additions among them."""
    draw = random.Random(2)
    prefixes = real_prefixes(count, draw)
    lines = []
    for number, (base, length) in enumerate(prefixes):
        lines.append(add(draw, base, length))
        if number % 5 == 4:
            base, length = prefixes[draw.randrange(number)]
            if draw.randrange(2):
                lines.append(f"withdraw {dotted(base)}/{length}")
            else:
                lines.append(f"replace {dotted(base)}/{length} {draw.randrange(200)} 192.0.2.2")
    lines.extend(look_ups(count * 2 // 5, prefixes, draw))
    return lines


def deal(lines, count):
    """The lines divided among `count` files: all lines about a prefix go to the same file, the look-ups to each file in
    turn."""
    files = [[] for _ in range(count)]
    for number, line in enumerate(lines):
        word, subject = line.split()[:2]
        files[number % count if word == "lookup" else hash_of(subject) % count].append(line)
    return files


def hash_of(text):
    return int.from_bytes(hashlib.blake2b(text.encode(), digest_size=8).digest(), "big")


def apart(make):
    """Has something made in a process of its own, so that this one stays small: a child's peak memory counts what its
    parent had when it was forked."""
    child = os.fork()
    if child == 0:
        make()
        os._exit(0)
    if os.waitpid(child, 0)[1] != 0:
        sys.exit(f"{sys.argv[0]}: cannot write an input")


def write_apart(path, pieces):
    """Writes these pieces of a text, apart."""
    def make():
        with open(path, "w") as file:
            file.writelines(pieces)
    apart(make)


def write(folder, files):
    """Makes the files' lines and writes them, apart."""
    def make():
        for number, lines in enumerate(files()):
            (folder / f"{number:02}.feed").write_text("\n".join(lines) + "\n")
    apart(make)
    return sorted(folder.iterdir())


def count_lines(paths):
    """The number of lines of the files. A separate process counts them, for the same reason."""
    counted = subprocess.run(["wc", "-l", *paths], check=True, capture_output=True, text=True).stdout
    return sum(int(row.split()[0]) for row in counted.splitlines()[: len(paths)])

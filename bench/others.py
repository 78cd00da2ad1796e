"""Shared by the benchmarks of look-ups: prefixes of a real table's lengths, addresses in them, and other libraries that
look up the same addresses. These are py-radix, Net::Patricia and DPDK's rte_lpm, if they are installed."""
import array
import shutil
import subprocess
import sys
import time

from dev.crates import TOP
from dev.models.table_model import dotted

# The lengths that the benchmarks in Rattle draw: a length by a number below 1000.
LENGTHS = ((600, 24), (720, 22), (820, 23), (870, 21), (915, 20), (945, 19), (970, 16), (980, 18), (985, 17), (995, 28),
           (1000, 12))
PATRICIA = """
use strict; use warnings; use Net::Patricia; use Time::HiRes qw(clock);
open(my $file, '<:raw', $ARGV[0]); local $/; my ($n, $m, @rest) = unpack('L*', <$file>);
sub text { join '.', map { $_[0] >> $_ & 255 } 24, 16, 8, 0 }
my $tree = Net::Patricia->new; my $at = clock();
$tree->add_string(text($rest[2 * $_]) . '/' . $rest[2 * $_ + 1], $_) for 0 .. $n - 1;
printf "apply %.0f\\n", (clock() - $at) / $n * 1e9;
my @asked = @rest[2 * $n .. 2 * $n + $m - 1]; my @texts = map { text($_) } @asked;
$at = clock(); $tree->match_integer($_) for @asked; printf "look_up_1 %.0f\\n", (clock() - $at) / $m * 1e9;
$at = clock(); $tree->match_string($_) for @texts; printf "look_up_text %.0f\\n", (clock() - $at) / $m * 1e9;
"""


def draws(seed):
    """The numbers that bench/benches draws."""
    while True:
        seed = (seed * 6364136223846793005 + 1442695040888963407) % (1 << 64)
        yield seed >> 32


def drawn(prefixes, addresses, among=None):
    """Prefixes as pairs, and addresses in `among` equally spaced of them or in all, as bench/benches draws them."""
    draw, pairs, asked = draws(1), [], []
    for _ in range(prefixes):
        lot = next(draw) % 1000
        length = next(length for below, length in LENGTHS if lot < below)
        pairs.append((next(draw) >> 32 - length << 32 - length, length))
    draw = draws(2)
    for _ in range(addresses):
        base, length = pairs[next(draw) % (among or prefixes) * (prefixes // (among or prefixes))]
        asked.append(base | next(draw) & 0xFFFFFFFF >> length)
    return pairs, asked


def each(name, count, call):
    """A row with the time of one call."""
    began = time.process_time()
    call()
    return name, (time.process_time() - began) / count * 1e9


def call_each(call, items):
    """Makes a call with each of the items, and keeps no result."""
    for item in items:
        call(item)


def radix_rows(radix, pairs, asked):
    tree = radix.Radix()
    networks = [(dotted(base), length) for base, length in pairs]
    texts = [dotted(address) for address in asked]
    yield each("apply", len(pairs), lambda: [tree.add(network=base, masklen=length) for base, length in networks])
    yield each("look_up_text", len(asked), lambda: call_each(tree.search_best, texts))
    prefixes = [f"{base}/{length}" for base, length in networks]
    yield each("add_text", len(pairs), lambda: call_each(radix.Radix().add, prefixes))
    yield each("contains", len(pairs), lambda: call_each(lambda prefix: tree.search_exact(prefix) is not None, prefixes))


def printed(words):
    """The rows that a program prints."""
    ended = subprocess.run(words, capture_output=True, text=True)
    if ended.returncode != 0:
        sys.exit(f"{sys.argv[0]}: {words[0]} ended with status {ended.returncode}\n{ended.stderr}")
    return [(name, float(value)) for name, value in map(str.split, ended.stdout.splitlines()) if name != "sum"]


def has_patricia():
    """Returns True if perl has Net::Patricia."""
    words = ["perl", "-MNet::Patricia", "-e", "1"]
    return shutil.which("perl") and subprocess.run(words, stderr=subprocess.DEVNULL).returncode == 0


def patricia_rows(folder):
    """Its rows, for the input in the directory."""
    return printed(["perl", "-e", PATRICIA, folder / "input"])


def write_input(folder, pairs, asked):
    """Writes what the programs read: how many there are, the prefixes and the addresses."""
    block = array.array("I", [len(pairs), len(asked), *(part for pair in pairs for part in pair), *asked])
    (folder / "input").write_bytes(block.tobytes())


def built_lpm(folder):
    """The program that calls rte_lpm, built in the directory, or None if DPDK isn't installed."""
    if not shutil.which("pkg-config") or subprocess.run(["pkg-config", "--exists", "libdpdk"]).returncode != 0:
        return None
    flags = subprocess.run(["pkg-config", "--cflags", "--libs", "libdpdk"], check=True, capture_output=True,
                           text=True).stdout
    source = TOP / "bench/library_lpm.c"
    subprocess.run(["gcc", "-O2", "-o", folder / "lpm", "-march=native", source, *flags.split()], check=True)
    return folder / "lpm"

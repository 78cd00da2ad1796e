"""The programs that benchmarks run: the proved one, those of bench/benches, and plain ones to compare with."""
import hashlib
import pathlib
import subprocess
import sys

from dev.build.optimizing import without_sanitizer
from dev.build.workspaces import add, lay_out
from dev.crates import TOP, cache


def built():
    """Returns the path of ./yarib's program, which is built first if it is stale."""
    ended = subprocess.run([TOP / "dev/build/build", "rt_app"], check=True, stdout=subprocess.PIPE, text=True)
    return pathlib.Path(ended.stdout.strip())


def built_peer(folder, source):
    """Returns the path of a program in plain Rust, built in the directory from its source in bench/."""
    subprocess.run(["rustc", "--edition", "2024", "-C", "opt-level=3", "-o", folder / "peer", TOP / "bench" / source],
                   check=True)
    return folder / "peer"


def told(words):
    """Returns the figures that a program prints, by name; it has to end with status 0."""
    ended = subprocess.run(list(map(str, words)), capture_output=True, text=True)
    if ended.returncode != 0:
        sys.exit(f"{sys.argv[0]}: {words[0]} ended with status {ended.returncode}\n{ended.stderr}")
    printed = (ended.stdout + ended.stderr).split()
    return {name: int(value) for name, value in zip(printed[::2], printed[1::2])}


def lay_out_benches(room):
    """Copies bench/benches and the crates that it uses into the directory, and returns the crate's directory."""
    lines = (TOP / "bench/benches/crates.txt.in").read_text().splitlines()
    lay_out(room, [word for line in lines for word in line.partition(":")[2].split()], lines)
    for folder in ("bench/benches", *(f"tests/libraries/{name}" for name in ("lent_number", "recording_gate", "test_routes"))):
        add(room, TOP / folder)
    return room / "crates/benches"


def run_benches(words, folder, program):
    """Runs a command of the toolchain on the benches' crate, which has to leave their program."""
    ended = subprocess.run(words, cwd=folder, capture_output=True, text=True)
    if ended.returncode != 0 or not program.exists():
        sys.exit(f"{sys.argv[0]}: bench/benches was not built\n" + ended.stdout[-2000:] + ended.stderr[-2000:])
    return program


def built_benches(*words):
    """Returns the program of bench/benches, in a workspace outside the repository, which is proved and built first and run
    with these words."""
    crate = lay_out_benches(cache("benches-" + hashlib.sha256(str(TOP).encode()).hexdigest()[:12]))
    return run_benches(["rt", "run", "--", *words], crate, crate / "out/benches")


def unproved_benches(folder, *words):
    """Returns the same program, built in the directory without proofs, and run with these words."""
    program = folder / "benches"
    rt = without_sanitizer(folder / "kit", program)
    return run_benches([rt, "try", "--", *words], lay_out_benches(folder), program)

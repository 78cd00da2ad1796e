"""The crates of the repository and their dependencies, as crates.txt lists them."""
import functools
import os
import pathlib

TOP = pathlib.Path(__file__).resolve().parents[1]
CRATES = TOP / "crates"


def cache(name):
    """Returns a directory of the user's cache with this name."""
    return pathlib.Path(os.environ.get("XDG_CACHE_HOME") or pathlib.Path("~/.cache").expanduser()) / "yarib" / name


@functools.cache
def heads():
    """Returns for each line of crates.txt the words before the colon, a crate's name and optionally its kind, and those
    after it."""
    lines = [line.partition("#")[0].partition(":") for line in (TOP / "crates.txt").read_text().splitlines()]
    return [(head.split(), rest.split()) for head, _, rest in lines if head.strip()]


def needs():
    """Returns the crates of crates.txt, each with its dependencies."""
    return {name: rest for (name, *_), rest in heads()}


def all_crates():
    return sorted(needs())


def is_static(crate):
    return any(name == crate and "staticlib" in kind for (name, *kind), _ in heads())


def is_program(crate):
    return (CRATES / crate / "src/main.rt").exists()


def below(crates):
    """Returns these crates and every crate of the repository on which they depend."""
    known, found, waiting = needs(), set(), list(crates)
    while waiting:
        crate = waiting.pop()
        if crate in known and crate not in found:
            found.add(crate)
            waiting += known[crate]
    return found


def crate_of(file):
    """Returns the crate whose directory contains the file."""
    return file.relative_to(CRATES).parts[0]

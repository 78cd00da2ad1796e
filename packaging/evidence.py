"""Says what was proved of which sources: a record, which whoever has the toolchain checks by building the same commit."""
import hashlib
import json
import pathlib
import re
import subprocess

from dev.build.built import LOGIC, STATE, sources_sum
from dev.crates import TOP, below
from dev.versions import VERSION

ROOTS = ("rt_app", "yarib_c")
LAYER = ("places.c", "handles.c", "readers.c", "copies.c", "files.c", "about.c", "heap.c", "layer.h", "yarib.h", "yarib_check.h")


class Missing(Exception):
    """Something that a release needs isn't there."""


def sum_of(path):
    return hashlib.sha256(pathlib.Path(path).read_bytes()).hexdigest()


def printed(*words):
    return subprocess.run(words, stdout=subprocess.PIPE, text=True, check=True).stdout.strip()


def git(*words):
    return printed("git", "-c", f"safe.directory={TOP}", "-C", TOP, *words)


def verdict(crate):
    """Returns what the prover said of a crate when dev/build/build built it."""
    log = STATE / f"{crate}.log"
    lines = log.read_text(errors="replace").splitlines() if log.is_file() else []
    found = [line for line in lines if line.startswith("logic=proved ") and f" sum={LOGIC} " in f"{line} "]
    if len(found) != 1:
        raise Missing(f"{log} has no verdict `logic=proved` of logic {LOGIC}: run dev/build/build rt_app and dev/build/build yarib_c")
    axioms = [line.removeprefix("axioms ") for line in lines if line.startswith("axioms ")]
    return {"sources": sources_sum(crate), "verdict": found[0], "axioms": axioms}


def record(program, archive, library, gate):
    """Returns the evidence as text. `library` is the sum of the shared library, and `gate` what out/gate.json has."""
    comment = printed("readelf", "-p", ".comment", program)
    return json.dumps({
        "format": 1, "version": VERSION,
        "commit": git("rev-parse", "HEAD"), "tree": git("rev-parse", "HEAD^{tree}"), "committed": git("log", "-1", "--format=%cI"),
        "toolchain": printed("rt", "version"), "logic": LOGIC, "logic in the program": re.findall(r"logic=(\w+)", comment),
        "sha256": {"program": sum_of(program), "archive": sum_of(archive), "libyarib.so.0": library},
        "crates": {crate: verdict(crate) for crate in sorted(below(ROOTS))},
        "unproved files": {name: sum_of(TOP / "bindings/c" / name) for name in LAYER},
        "gate": gate,
    }, indent=1) + "\n"

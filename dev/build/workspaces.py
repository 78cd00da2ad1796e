"""Workspaces outside the repository: copies of its crates with their built libraries, and further crates that depend on
them. `rt ci` accepts no second crates.txt in the repository."""
import os
import shutil

from dev.build.built import PARTS
from dev.crates import CRATES, TOP, below, needs


def lay_out(room, crates, lines, with_libraries=True):
    """Copies these crates and their dependencies into the directory, optionally with their built libraries, and a crates.txt
    of their lines and the given ones."""
    used = below(crates)
    for crate in used:
        for part in PARTS:
            renew(CRATES / crate / part, room / "crates" / crate / part)
        if with_libraries:
            link_library(CRATES / crate / "out/rlib", room / "crates" / crate / "out/rlib")
    known = [f"{crate}: {' '.join(rest)}" for crate, rest in needs().items() if crate in used]
    (room / "crates.txt").write_text("\n".join([*known, *lines, ""]))
    shutil.copy(TOP / "HANDLES", room)


def add(room, folder):
    """Copies a further crate into the workspace, from a directory whose files have the suffix `.in`."""
    for part in PARTS:
        renew(folder / part, room / "crates" / folder.name / part, ".in")


def files_of(folder, suffix=""):
    """Returns the bytes of each file below the directory, by its path without the suffix."""
    return {str(path.relative_to(folder)).removesuffix(suffix): path.read_bytes()
            for path in folder.rglob("*") if path.is_file()}


def renew(folder, copy, suffix=""):
    """Updates the copy of a directory; the name of each file loses the suffix."""
    wanted = files_of(folder, suffix)
    if files_of(copy) == wanted:
        return
    shutil.rmtree(copy, ignore_errors=True)
    for name, text in wanted.items():
        (copy / name).parent.mkdir(parents=True, exist_ok=True)
        (copy / name).write_bytes(text)


def link_library(kept, copy):
    """Gives the copy of a crate the built library of the crate, unless it has the same one."""
    stamp = kept / "stamp"
    if stamp.exists() and not ((copy / "stamp").exists() and (copy / "stamp").read_bytes() == stamp.read_bytes()):
        shutil.rmtree(copy, ignore_errors=True)
        shutil.copytree(kept, copy, copy_function=linked)


def linked(one, other):
    """Makes a hard link to a file of a library: rt never writes into such a file."""
    try:
        os.link(one, other)
    except OSError:
        shutil.copy2(one, other)

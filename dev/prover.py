"""Runs the prover on a crate whose dependencies are built, as `rt must-fail` does. It reports what `rt check` would report,
but accepts the libraries that `rt ci` left, which `rt check` would build again."""
import functools
import pathlib
import subprocess

from dev.crates import CRATES, below, is_static, needs


@functools.cache
def kit():
    """Returns the directory of the toolchain whose `rt` is on PATH: that of the page that `rt doc` names."""
    return pathlib.Path(subprocess.run(["rt", "doc"], stdout=subprocess.PIPE, text=True,
                                       check=True).stdout.strip()).parent


def library(crate):
    return CRATES / crate / f"out/rlib/{crate}.rlib"


def words_for(name, named, folder, libraries=library):
    """Returns the prover's arguments for a crate in this directory, with these dependencies; `libraries` gives the path of
    a crate's library."""
    own = [one for one in named if one in needs()]
    root = "src/main.rt" if (folder / "src/main.rt").exists() else "src/lib.rt"
    words = ["--crate-name", name, root]
    for one in dict.fromkeys(["std", *(one for one in named if one not in own)]):
        words += ["--extern", f"{one}={kit()}/rlibs/{one}.rlib"]
    words += ["-L", f"dependency={kit()}/rlibs"]
    for one in own:
        words += ["--extern", f"{one}={libraries(one)}"]
    for place in sorted({libraries(one).parent for one in below(own)}):
        words += ["-L", f"dependency={place}"]
    words += ["--crate-type", "staticlib"] * is_static(name)
    return [*words, "--antt-project", f"{kit()}/rattle/logic/antt-project.json", "--logic-built",
            f"{kit()}/logic_built", "--links", f"{name}="]


def said_of(name, named, folder, more=(), seconds=None):
    """Returns the prover's output for the crate in this directory; it continues after open goals and reuses earlier runs.
    With a limit in seconds of processor time, it is ended then, and its last lines are missing."""
    words = [kit() / "bin/rattle", "check", *words_for(name, named, folder), "--jobs", "1", "--allow-holes", *more]
    return said_by([*words, "--incremental", "out/incremental"], folder, seconds)


def said_by(words, folder, seconds=None):
    """Returns the output of a command, which is ended after `seconds` of processor time, if there is a limit."""
    if seconds:
        words = ["sh", "-c", f'ulimit -t {seconds} && exec "$@"', "sh", *words]
    return subprocess.run(words, cwd=folder, stdin=subprocess.DEVNULL, stdout=subprocess.PIPE, stderr=subprocess.STDOUT,
                          text=True, errors="replace").stdout


def linking_words(program):
    """Returns the command that links PROGRAM.o, which the prover has compiled."""
    parts = [f"{program}.o", kit() / "c/libos_c.a", kit() / "c/liblibc_c.a"]
    return [kit() / "bin/rattle-link", "--target", "x86_64-unknown-linux-gnu", "--toolchain", kit() / "toolchain", "-o",
            program, *parts]

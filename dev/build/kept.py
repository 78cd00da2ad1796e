"""What earlier runs of ./test on this machine passed: an entry of the user's cache, named by a checksum of everything
on which the result depends. That is summed before the result is found and again afterwards; if it changed meanwhile,
nothing is kept. An entry that can't be read or written counts for nothing. Whoever can write to the directory is
trusted, as with what `rt ci` keeps.

The archive of the library for C is kept, the verdicts on mutants, and that on the changes of definitions. A function is
proved from its own text, the contracts of what it calls, types, definitions and lemmas, never from the body of another
function. So the verdict on a mutant depends on the toolchain, SCRIPTS, the mutant, and all files of its crate; of the
crates below, it depends on the sources without the bodies of functions, on specs/ and on the files of lemmas."""
import functools
import hashlib
import os
import re
import tempfile

from dev.build.built import PARTS
from dev.crates import CRATES, TOP, below, cache, heads
from dev.prover import kit
from dev.rust_sources import Source

# The scripts that decide about mutants and changes of definitions.
SCRIPTS = ("dev/mutants/*", "dev/build/workspaces.py", "dev/statements/definition_reader.py", "dev/prover.py",
           "dev/rust_sources.py", "dev/crates.py")


@functools.cache
def toolchain():
    """Returns what identifies the prover."""
    prover = os.stat(kit() / "bin/rattle")
    return [(kit() / name).read_bytes() for name in ("KIT-ID", "WHAT")], prover.st_size, prover.st_mtime_ns


class Entry:
    """A result, which is kept only if all on which it depends is the same before and after. `depends` returns that."""

    def __init__(self, kind, depends):
        self.path_now = lambda: cache(kind) / hashlib.sha256(repr((toolchain(), depends())).encode()).hexdigest()
        self.path = self.path_now()

    def said(self):
        """Returns the text that is kept, or None."""
        try:
            return self.path.read_text() or None
        except OSError:
            return None

    def keep(self, text):
        """Keeps a text, or the bytes of a file, which is written apart and then renamed, so that no other run meets half of
        it. Returns false, and keeps nothing, if something changed meanwhile."""
        is_same = self.path_now() == self.path
        if is_same:
            try:
                self.path.parent.mkdir(parents=True, exist_ok=True)
                with tempfile.NamedTemporaryFile("wb", dir=self.path.parent, delete=False) as new:
                    new.write(text if isinstance(text, bytes) else text.encode())
                os.replace(new.name, self.path)
            except OSError:
                pass
        return is_same


def texts(paths):
    """Returns the paths of these files in the repository, with their bytes."""
    return [(str(path.relative_to(TOP)), path.read_bytes()) for path in sorted(paths) if path.is_file()]


def files(crate, part):
    """Returns the files of a part of a crate."""
    return (CRATES / crate / part).rglob("*")


@functools.cache
def without_bodies(text):
    """Returns a source without the bodies of its functions, but for those whose value or type other functions can see."""
    source, dropped = Source(None, text), set()
    for one in source.functions:
        head = "\n".join(one.lines[:one.clauses_end()])
        if not re.search(r"\bconst fn\b|-> *[^{]*\bimpl\b", head):
            dropped |= set(range(one.start + one.clauses_end(), one.end))
    return "\n".join(line for number, line in enumerate(source.lines) if number not in dropped)


class Sums:
    """The sources as they are now, each of which is read once, and the sums on which verdicts depend."""

    def __init__(self):
        heads.cache_clear()
        self.lines = heads()
        self.scripts = texts(path for name in SCRIPTS for path in TOP.glob(name))
        self.shown = functools.cache(self.shown)
        self.own = functools.cache(lambda crate: texts(path for part in PARTS for path in files(crate, part)))

    def shown(self, crate):
        """Returns what other crates can see of a crate: contracts, types, definitions and lemmas."""
        sources = [(str(path), without_bodies(path.read_text())) for path in sorted(files(crate, "src")) if path.suffix == ".rt"]
        lemmas = [path for path in files(crate, "proofs") if path.parent == CRATES / crate / "proofs"]
        return repr((sources, texts([*files(crate, "specs"), *lemmas]))).replace(str(TOP), "")

    def shared(self, crate):
        """Returns the sum of what the verdicts on all mutants of a crate rest on, but for the crate's own bodies and proofs."""
        named = sorted(below([crate]))
        lines = [line for line in self.lines if line[0][0] in named]
        return hashlib.sha256(repr((self.scripts, lines, [self.shown(one) for one in named])).encode()).hexdigest()


class Kept:
    """What is kept of these mutants of a crate, for the sources as they are when this is made."""

    def __init__(self, crate, mutants):
        self.crate, self.now = crate, Sums()
        self.entries = {mutant.name: Entry("mutants", lambda mutant=mutant: self.of(mutant)) for mutant in mutants if mutant.form}

    def of(self, mutant):
        """Returns all on which the verdict on a mutant depends."""
        return self.now.shared(self.crate), self.now.own(self.crate), mutant.section

    def said_of(self, mutant):
        """Returns what was said of the mutant as it was refused, or None."""
        return self.entries[mutant.name].said() if mutant.form else None

    def keep(self, results):
        """Keeps what was said of each of these that are as they must be, unless something has changed since."""
        self.now = Sums()
        for mutant, (is_so, said) in results.items():
            if is_so:
                self.entries[mutant.name].keep(said)

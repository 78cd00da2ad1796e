"""The public clauses of the libraries that nothing has, so that one could be lost without anybody's noticing, and the
exports of the C library that ask their caller for something.

A clause of an exported function is had by one of these:

- a page of statements, which prints it;
- a mutant of the function, which the prover refuses at this clause, or at any goal if the function has no other clause;
- the proof of another function, which cites it, if no other function that it can call has a clause of this name;
- a function of a crate of examples that calls the function, and whose comment says "Needs `CLAUSE`": its own clause
says
  the same, so its proof fails without the clause."""
import collections
import functools
import re

from dev import prover
from dev.crates import CRATES, all_crates, below, is_program
from dev.mutants.mutant_copy import functions
from dev.mutants.mutant_lists import mutants_of
from dev.statements import statement_pages

ENSURES = re.compile(r"^\s*ensures\*?(?: (\w+))? \{", re.M)
REQUIRES = re.compile(r"^\s*requires\*?(?: \w+)? \{", re.M)
# In a proof the name of a call, what the prover adds to it if there are several, and the label of a clause or of a
# field.
CITED = re.compile(r"\b(\w+?)(?:-[\w-]+)?\.ensures(?:\.(\w+))?")
NEEDED = re.compile(r"`(\w+(?:::\w+)+(?:\.\w+)?)`")


class Function:
    """A function of a crate: its path as the prover writes it, its name on pages, and the labels of its clauses."""

    def __init__(self, crate, path, item):
        contract = "\n".join(item.written()[:item.clauses_end()])
        self.crate, self.item, self.path, self.name = crate, item, "::".join(path), item.name
        self.page_name = f"{crate}::{item.owner or item.file.stem}::{item.name}"
        self.labels = ENSURES.findall(contract)
        self.asks, self.is_c = bool(REQUIRES.search(contract)), 'extern "C"' in contract
        self.is_exported = item.is_pub and (self.is_c or is_reached(crate, path))

    def may_say(self, cited):
        """Returns true if a proof may cite this of the function: a clause's label, or a field of its only clause."""
        return cited in self.labels or self.labels == [""]

    def clause(self, label):
        return f"{self.page_name}.{label}" if label else self.page_name


@functools.cache
def exports(crate):
    """Returns the public modules of a crate, and the names that it exports from the others."""
    text = (CRATES / crate / "src/lib.rt").read_text()
    names = {word for use in re.findall(r"^pub use ([^;]+);", text, re.M) for word in re.findall(r"\w+", use)}
    return set(re.findall(r"^pub mod (\w+);", text, re.M)), names


def is_reached(crate, path):
    """Returns true if the crate exports the module of a function, its type or itself."""
    modules, names = exports(crate)
    *outer, name = path
    owner = outer[-1].partition("+")[0] if outer and outer[-1][0].isupper() else name
    return path[0] in modules or owner in names or not [one for one in outer if one[0].islower()]


def functions_of(crates):
    """Returns the functions of these crates, outside traits."""
    return [Function(crate, path, item) for crate in crates
            for found in functions(CRATES / crate / "src").values() for path, item in found]


def is_example(crate):
    return crate.endswith("_examples")


def libraries():
    return [crate for crate in all_crates() if not (is_program(crate) or is_example(crate))]


def has_mutant(function, label):
    """Returns true if a mutant of the function is refused at this clause."""
    goals = [mutant.goal or "" for mutant in mutants_of(function.crate) if mutant.function == function.path]
    return bool(goals) if len(function.labels) == 1 else any(goal.endswith(f"clause-{label}") for goal in goals)


class Callers:
    """Which clauses the proofs of other functions cite."""

    def __init__(self, ours):
        self.citations, self.named = collections.defaultdict(set), collections.defaultdict(list)
        for crate in all_crates():
            for file in (CRATES / crate / "proofs").rglob("*.antt"):
                for name, label in CITED.findall(file.read_text()):
                    self.citations[name].add((crate, file.parent.name.removeprefix("+"), label))
        for one in ours:
            self.named[one.name].append(one)
        self.kit = {name for part in ("core", "std") for file in (prover.kit() / "rattle" / part).rglob("*.rt")
                    for name in re.findall(r"\bfn (\w+)", file.read_text())}

    def have(self, function, label):
        """Returns true if a proof of another function cites this clause, which can be no other function's."""
        if function.name in self.kit:
            return False
        for crate, caller, cited in self.citations[function.name]:
            near = below([crate])
            able = [one for one in self.named[function.name] if one.crate in near and one.may_say(cited)
                    and (one.crate, one.name) != (crate, caller)]
            if able == [function] and (cited == label or function.labels == [""]):
                return True
        return False


def needed():
    """Returns the clauses that examples need, and a line for each that such an example doesn't call."""
    found, faults = set(), []
    for one in functions_of(filter(is_example, all_crates())):
        comment = " ".join(one.item.comment())
        for clause in NEEDED.findall(comment.partition("Needs ")[2]):
            name = clause.partition(".")[0].rpartition("::")[2]
            called = re.search(rf"\b{name}\(", "\n".join(one.item.lines[1:]))
            found.add(clause)
            faults += [] if called else [f"{one.page_name} says that it needs {clause}, and calls no {name}"]
    return found, faults


def faults():
    """Returns a line for each public clause that nothing has, and for each export that has a `requires`."""
    ours = functions_of(libraries())
    callers, (examples, found) = Callers(ours), needed()
    printed = {clause for page in statement_pages.PAGES for chapter in page.chapters for clause in chapter.clauses}
    for one in ours:
        for label in one.labels if one.is_exported else ():
            if not ({one.page_name, one.clause(label)} & printed or one.clause(label) in examples
                    or has_mutant(one, label) or callers.have(one, label)):
                found.append(f"{one.clause(label)}: no page, mutant, caller's proof or example has this public clause")
        if one.crate == "yarib_c" and one.is_c and one.asks:
            found.append(f"{one.page_name} is exported to C, and has a `requires` that nothing checks")
    return found

"""Puts mutants of functions into a copy of a crate, and empties the bodies of other functions, so that one check
decides about many mutants and the prover has less to check.

A function is proved from its own text and the contracts of what it calls, never from the body of another function. So
further mutants of one function are functions of their own in the copy, each with a copy of its proof. Every function
without a mutant waits forever, and its proof is a hole: the prover takes it by its contract. It stays whole only if
others see more of it than its contract, if its proof is for several functions, or if another proof cites a part of its
proof."""
import itertools
import re
import shutil

from dev.rust_sources import Source

EMPTY = "loop {}"
CITED = re.compile(r"\bproofs\.([\w.+'-]+)")
PROOF = """use Rattle.{crate}.proofs.{path}.Statement as stated

pub {name}_spec : {{M : Type 1}} → stated.statement M
{name}_spec = ?
"""
# A name of no goal.
UNKNOWN = "goal-of-no-function"
# An answer to a goal, at the head of a part of a file of answers.
ANSWER = re.compile(r"pub (\S+) : \w+\.\1\n")
# The most steps of the search for a goal without an answer. One that finds no proof takes up to 10,000,000 without a
# limit.
STEPS = 1_000_000


def module_of(file, src):
    """Returns the path of a source's module."""
    *module, name = file.relative_to(src).with_suffix("").parts
    return (*module, *[name] * (name not in ("lib", "main", "mod")))


def functions(src):
    """Returns the sources below this directory, each with its functions outside traits and their paths as the prover
    writes them. A method is below the module of its type, wherever its impl is."""
    files = {file: Source(file) for file in src.rglob("*.rt")}
    homes = {item.name: module_of(file, src) for file, one in files.items() for item in one.items
             if item.kind in ("struct", "enum")}

    def found(file):
        for item in files[file].items:
            if item.kind == "fn":
                yield (*module_of(file, src), item.name), item
            elif item.kind == "impl":
                path = (*homes.get(item.of_impl()[1], module_of(file, src)), item.impl_name())
                yield from (((*path, one.name), one) for one in item.members() if one.kind == "fn")

    return {file: list(found(file)) for file in files}


def cited(proofs):
    """Returns the paths of what files in other directories cite of a proof, apart from the theorem itself, `Met`."""
    found = set()
    for file in proofs.rglob("*.antt"):
        for path in CITED.findall(file.read_text()):
            parts = tuple(path.rstrip(".").split("."))
            if parts[:-1] != file.relative_to(proofs).parts[:-1] and parts[-1] != "Met":
                found.update(parts[:end] for end in range(1, len(parts) + 1))
    return found


def is_seen(item):
    """Whether other functions see more of a function than its contract: its value, or the type of its result."""
    return re.search(r"\bconst fn\b|-> *[^{]*\bimpl\b", "\n".join(item.lines[:item.clauses_end()]))


def changed_by(mutant, text):
    """Returns the function that a mutant changes, as it stands in this source with the mutant."""
    return Source(None, mutant.changed(text)).named(mutant.function)


def may_copy(folder, mutant):
    """Returns true if a mutant can be a function next to the one that it changes: a function of a module or of a type,
    and not of a trait, that doesn't call itself, and whose proof is its own."""
    *path, name = mutant.function.split("::")
    text = (folder / mutant.file).read_text()
    item, home = changed_by(mutant, text), folder.joinpath("proofs", *path)
    around = next(one for one in Source(None, text).items if one.start <= item.start < one.end)
    is_method = around.kind == "impl"
    is_free = around.kind == "fn" or is_method and not around.of_impl()[0]
    is_apart = (home / f"+{name}").exists() or (home / name / "Proof.antt").exists() or any(home.rglob(f"fn/{name}"))
    itself = rf"\b(?:self\.|(?:Self|{path[-1]})\b[^\n(]*::){name}\(" if is_method else rf"(?<![\w.:]){name}\("
    return is_free and not is_apart and not re.search(itself, "\n".join(item.lines[1:]))


def plant(folder, file, mutants, is_narrow):
    """Puts mutants of functions into a source of the copy, and returns the path of each one's function. The first of a
    function takes its place; the others are below it, each with a name of its own. If the search is narrow, the prover
    proves no goal without an answer."""
    text = (folder / file).read_text()
    lines, places, paths = text.split("\n"), {}, {}
    for mutant in mutants:
        item = Source(None, text).named(mutant.function)
        places.setdefault((item.start - len(item.above()), item.end), []).append(mutant)
    for (start, end), its in sorted(places.items(), reverse=True):
        written = []
        for number, mutant in enumerate(its, 1):
            item = changed_by(mutant, text)
            head, *rest = item.written()
            name = item.name if number == 1 else f"{item.name}_mutant_{number}"
            above = [line for line in item.above() if not (is_narrow and line.startswith("#[tactic("))]
            above += ["#[tactic(none)]"] * is_narrow
            written += [*(" " * item.margin + line for line in above),
                        head.replace(f"fn {item.name}", f"fn {name}", 1), *rest]
            paths[mutant] = "::".join([*mutant.function.split("::")[:-1], name])
        lines[start:end] = written
    (folder / file).write_text("\n".join(lines))
    return paths


def copy_proof(folder, function, other):
    """Gives a function of this copy the proof of another, for a text like the other's."""
    old, new = (folder.joinpath("proofs", *path.split("::")) for path in (function, other))
    if old == new or not old.exists():
        return
    shutil.copytree(old, new)
    cited = re.compile(rf"\bproofs\.{re.escape('.'.join(function.split('::')))}(?![\w+'-])")
    for file in new.rglob("*.antt"):
        file.write_text(cited.sub(f"proofs.{'.'.join(other.split('::'))}", file.read_text()))


def empty(crate, folder, whole):
    """Empties the functions of the crate in this directory, except those with these names; none, if a name is
    unknown."""
    src, proofs = folder / "src", folder / "proofs"
    found, named = functions(src), cited(proofs)
    if not set(whole) <= {"::".join(path) for its in found.values() for path, _ in its}:
        return
    for file, its in found.items():
        lines = its[0][1].source.lines if its else []
        for path, item in sorted(its, key=lambda one: -one[1].start):
            own, start, end = proofs.joinpath(*path), item.start + item.clauses_end(), item.end
            cycle = own.with_name(f"+{path[-1]}")
            is_cited = path in named or (*path[:-1], cycle.name) in named
            is_whole = "::".join(path) in whole or is_seen(item) or is_cited or "#[cycle(" in "\n".join(item.above())
            if is_whole or lines[end - 1].strip() != "}":
                continue
            lines[start:end - 1] = [EMPTY] if lines[start - 1].rstrip().endswith("{") else ["{", EMPTY]
            for proof in (own, cycle):
                shutil.rmtree(proof, ignore_errors=True)
            own.mkdir(parents=True)
            (own / "Proof.antt").write_text(PROOF.format(crate=crate, path=".".join(path), name=path[-1]))
        if its:
            file.write_text("\n".join(lines))


def without_answer(part, goal):
    """Returns this part of a file of answers with a hole in place of the answer at its head, unless it is to this goal.
    What else is in the part stays, since other answers may use it."""
    found = ANSWER.match(part)
    if not found or found[1] == goal:
        return part
    first, *lines = part.split("\n")
    own = (" ", ")", "]", "}", f"{found[1]} ", "unfolding ")
    rest = itertools.dropwhile(lambda line: not line or line.startswith(own), lines)
    return "\n".join([first, f"{found[1]} = ?", "", *rest]) + "\n"


def ask(crate, folder, function, goal=None):
    """Has the prover look in this function only for this goal, if it is given: other answers are holes, and one is a
    search if the goal has none. Further it answers a goal that the function doesn't have: a function with a wrong
    answer isn't proved, but the prover doesn't search again for answers to offer."""
    *module, name = function.split("::")
    folder = folder.joinpath("proofs", *module)
    own = f"+{name}" if (folder / f"+{name}").exists() else name
    file, goals = folder / own / "Answers.antt", f"Rattle.{crate}.proofs.{'.'.join([*module, own])}.Goals"
    text = file.read_text() if file.exists() else ""
    # A file may import a module only once.
    named = re.search(rf"^use {re.escape(goals)} as (\w+)$", text, re.M)
    head = "" if named else f"use {goals} as goal\n"
    more = f"\npub {UNKNOWN} : {named[1] if named else 'goal'}.{UNKNOWN}\n{UNKNOWN} c = ?\n"
    if goal:
        text = "".join(without_answer(part, goal) for part in re.split(r"^(?=pub )", text, flags=re.M))
        if not re.search(rf"^(?:pub )?{re.escape(goal)} :", text, re.M):
            text = rules_imported(text)
            more += f"\npub {goal} : {named[1] if named else 'goal'}.{goal}\n{goal} = search rules steps {STEPS}\n"
    file.parent.mkdir(parents=True, exist_ok=True)
    file.write_text(f"{head}{text}{more}")


def rules_imported(text):
    """Returns the text of a file of answers with the rules for the tactic `search` in scope."""
    library = "use Rattle.std.proofs.Common.{"
    words = re.search(rf"^{re.escape(library)}([^}}]*)", text, re.M)
    if not words:
        return f"{library}rules}}\n{text}"
    return text if "rules" in words[1].replace(",", " ").split() else text.replace(library, f"{library}rules, ", 1)

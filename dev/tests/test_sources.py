"""Rules of the sources, of the lists of mutants and of the tests. A failing test lists what is wrong."""
import re
import sys

from dev import runner
from dev.crates import CRATES, TOP, all_crates
from dev.mutants import mutant_lists
from dev.mutants.definition_copies import changes_of, listing_crates
from dev.mutants.mutant_lists import mutants_of
from dev.rust_sources import source
from dev.statements import clauses
from dev.testing import call
from dev.tests.pages import Rules, files_of_repository, name_of

# The words before a mutant in a comment at a test.
MARK = "Catches "
# A line of Python below such a comment: a test, or a row of a table of cases.
AT_TEST = re.compile(r"\s*(?:def test_|class \w+\(|with self\.subTest\(|for name|[(\"\w]+.*,$)")


def names_in_lists(crate):
    """Returns the names of a crate's mutants and changes of definitions."""
    return [one.name for one in [*mutants_of(crate), *changes_of(crate)]]


def is_of_trait(path, function):
    """Returns true for a method of a trait, whose clauses are the trait's: the path names the type and the trait."""
    owner = path.split("::")[-2].partition("+")[0]
    return owner[0].isupper() and owner != function.owner


def has_clause(function, label):
    return bool(re.search(rf"^\s*ensures\*? {label} ", "\n".join(function.written()[:function.clauses_end()]), re.M))


def is_declared(name, files):
    return any(re.search(rf"^\s*(?:pub )?{re.escape(name)} :", file.read_text(), re.M) for file in files)


def comments_of_rattle(file):
    """Yields each comment at a function that describes a mutant, and whether the function is a test."""
    for function in source(file).functions:
        comment = " ".join(function.comment())
        if MARK in comment:
            yield comment, "#[test]" in function.attributes()


def comments_of_python(file):
    """Yields each comment that describes a mutant, and whether the line below is a test's or a used function's."""
    text, comment = file.read_text(), []
    for line in text.splitlines():
        if line.lstrip().startswith("# "):
            comment.append(line.strip()[2:])
        elif not line.lstrip().startswith("@"):
            if any(one.startswith(MARK) for one in comment):
                name = re.match(r"\s*def (\w+)", line)
                yield " ".join(comment), AT_TEST.match(line) or name and len(re.findall(rf"\b{name[1]}\b", text)) > 1
            comment = []


def cited(text):
    """Yields each name of another crate that a test or a bench cites, with the file that has to have it."""
    named = re.findall(r"\bRattle\.(\w+)\.(specs|proofs)\.((?:\w+\.)+)\{([^}]*)\}", text)
    named += [(crate, part, path.replace("::", "."), name)
              for crate, part, path, name in re.findall(r"\b(\w+)::(specs|proofs)::((?:\w+::)+)([\w-]+)", text)]
    for crate, part, path, names in named:
        if (CRATES / crate).is_dir() and not path.startswith(("declared.", "contracts.")):
            module = (CRATES / crate / part).joinpath(*path.split(".")[:-1]).with_suffix(".antt")
            yield from ((module, name.strip()) for name in names.split(","))


class Lists(Rules):
    """The lists of mutants and of changes of definitions."""

    def test_mutants_can_be_made(self):
        """Each can be made from the function that it names, and names the goal that it leaves open."""
        faults = [(f"crates/{crate}/must-fail: {one.name}", one.fault(CRATES / crate), one.goal)
                  for crate in mutant_lists.listing_crates() for one in mutants_of(crate)]
        self.assertGreater(len(faults), 100)
        self.assert_none(f"{name}: {fault}" for name, fault, _ in faults if fault)
        self.assert_none(f"{name} names no goal; dev/mutants/mutants prints it" for name, _, goal in faults if not goal)

    def test_goals_are_clauses(self):
        """If a mutant leaves a clause of its function open, the function has it: a dropped clause is missed here."""
        goals = [(crate, one, goal[1], source(CRATES / crate / one.file).named(one.function))
                 for crate in mutant_lists.listing_crates() for one in mutants_of(crate)
                 if (goal := re.match(r"returns.*clause-(\w+)$", one.goal or ""))]
        self.assertGreater(len(goals), 50)
        self.assert_none(f"crates/{crate}/must-fail: {one.name}: {one.function} has no clause `{label}`"
                         for crate, one, label, function in goals
                         if not is_of_trait(one.function, function) and not has_clause(function, label))

    def test_changes_have_examples(self):
        changes = [(crate, change) for crate in listing_crates() for change in changes_of(crate)]
        self.assertGreater(len(changes), 50)
        self.assert_none(f"crates/{crate}/must-fail/definitions.md: {change.name} isn't written as a change is"
                         for crate, change in changes if not change.form)
        self.assert_none(f"crates/{crate}/must-fail/definitions.md: {change.name}: there is no example {change.example}"
                         for crate, change in changes if change.form
                         and not is_declared(change.example, TOP.glob("crates/*_examples/proofs/**/*.antt")))

    def test_names_differ(self):
        """No two mutants or changes of a crate have the same name."""
        names = {crate: names_in_lists(crate) for crate in all_crates()}
        self.assert_none(f"crates/{crate}/must-fail: two have the name {name}" for crate, listed in names.items()
                         for name in sorted({name for name in listed if listed.count(name) > 1}))

    def test_comments_are_at_tests(self):
        """Each comment that describes a mutant which no clause refuses is at a test, and ends with a full stop."""
        files = [TOP / (module.replace(".", "/") + ".py") for module in runner.modules()]
        files += [*(TOP / "tests/libraries").rglob("*.rt.in"), *CRATES.glob("*/src/**/*.rt")]
        found = {file: list(comments_of_python(file) if file.suffix == ".py" else comments_of_rattle(file))
                 for file in files}
        self.assertGreater(sum(map(len, found.values())), 50)
        self.assert_none(f"{name_of(file)}: `{comment}` is at no test, or ends without a stop"
                         for file, comments in found.items() for comment, is_test in comments
                         if not (is_test and comment.endswith(".")))
        self.assert_none(f"{name_of(file)}: a comment describes a mutant at no function"
                         for file, comments in found.items()
                         if sum(comment.count(MARK) for comment, _ in comments)
                         != len(re.findall(rf"^ *(?:///?|#) {MARK}", file.read_text(), re.M)))


class Clauses(Rules):
    def test_public_clauses(self):
        """A page, a mutant, the proof of a caller or an example has each, and no export for C has a `requires`."""
        self.assert_none(clauses.faults())


class Sources(Rules):
    def test_cited_names_exist(self):
        """The crates have what the proofs of tests and benches cite of them: these run without a proof."""
        files = [file for folder in ("tests/libraries", "bench/benches") for file in (TOP / folder).rglob("*.in")]
        words = {}
        for file in files:
            for module, name in cited(file.read_text()):
                if module not in words:
                    words[module] = set(re.findall(r"[^\s(){},;]+", module.read_text())) if module.is_file() else set()
        self.assertGreater(len(words), 5)
        self.assert_none(f"{name_of(file)}: cites {name}, which {name_of(module)} doesn't have" for file in files
                         for module, name in cited(file.read_text()) if name not in words[module])

    def test_private_definitions(self):
        """Crates use specs/inside/ of others only as dev/statements/reach says."""
        self.assert_ended(call([sys.executable, TOP / "dev/statements/reach"]))

    def test_accesses_of_the_lock(self):
        """The lock and the shared table share only the lock's table among threads, and access it by nothing else."""
        self.assert_ended(call([sys.executable, TOP / "dev/statements/accesses", "--check"]))

    def test_converters_find_modules_in_their_own_directory(self):
        files = [file for folder in ("convert", "convert/samples", "bindings/python")
                 for file in (TOP / folder).iterdir()]
        self.assert_none(f"{name_of(file)}: changes where Python looks for modules; put them into dev/"
                         for file in files
                         if file.is_file() and re.search(r"\bsys\.path\b", file.read_text(errors="replace")))

    def test_runner_finds_each_test(self):
        """No file that is named as tests are, apart from those of a binding's own language, is forgotten."""
        found = {TOP / (module.replace(".", "/") + ".py") for module in runner.modules()}
        self.assert_none(f"{name_of(file)}: no directory of dev/runner.py has it" for file in files_of_repository()
                         if re.fullmatch(r"test_\w+\.py", file.name) and file not in found
                         and not file.is_relative_to(TOP / "bindings/python"))

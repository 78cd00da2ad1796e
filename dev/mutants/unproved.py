"""The mutants of what isn't proved: the C layer and the bindings of Python, Go and Rust.
bindings/LANGUAGE/must-fail/mutants.md lists them in the form of the crates' mutants, with the test that has to notice
each in the place of the prover's function:

    ## a-change-asks-for-no-barrier

    ```
    file: places.c
    old: TEXT
    new: TEXT
    in: see_readers
    noticed by: test_daemon refuse_barriers
    ```

`⏎` denotes the end of a line. The old text is in the function that is named exactly once, as NAME, or TYPE.NAME for a
method; without a line `in:` it is outside all functions exactly once. So other functions may have the same text."""
import ast
import functools
import itertools
import re
from typing import NamedTuple

from dev.crates import TOP
from dev.mutants.mutant_lists import BadMutant, sections_of

FORM = re.compile(r"([\w-]+)\n\n```\nfile: (\S+)\nold: (.+)\nnew: ?(.*)\n(?:in: ([\w.]+)\n)?noticed by: (.+)\n```\n+")
C_FUNCTION = re.compile(r"^(?![\s#/}])[^\n;]*?(\w+)\([^;{]*\)\n\{\n.*?^\}\n", re.M | re.S)
GO_HEAD = re.compile(r"^()func (?:\(\w+ \*?(?P<type>\w+)\) )?(?P<name>\w+)\(")
RUST_HEAD = re.compile(r"^( *)(?:pub(?:\(\w+\))? )?(?:const |unsafe |extern \"C\" )*fn (?P<name>\w+)")
RUST_TYPE = re.compile(r"^impl\b.*?(\w+)(?:<[^{]*>)? (?:where .*)?\{$")


class Mutant(NamedTuple):
    """A mutant of a list. `function` is None if it changes text outside all functions."""
    language: str
    name: str
    file: str
    old: str
    new: str
    function: str
    noticed_by: str

    def changed(self, text):
        """Returns the text of its file with its change."""
        spans = functions(self.file, text)
        own = [(start, end) for name, start, end in spans if name == self.function]
        if self.function and not own:
            raise BadMutant(f"{self.name}: {self.file} has no function {self.function}")
        places = [found.start() for found in re.finditer(f"(?={re.escape(self.old)})", text)]
        if self.function:
            places = [at for at in places if any(start <= at and at + len(self.old) <= end for start, end in own)]
        else:
            places = [at for at in places if not any(start <= at < end for _, start, end in spans)]
        if len(places) != 1:
            where = self.function or f"{self.file}, outside its functions,"
            raise BadMutant(f"{self.name}: the 'old:' text is in {where} {len(places)} times, and not once")
        return text[: places[0]] + self.new + text[places[0] + len(self.old):]


def offsets(text):
    """Returns where each line begins, and the text's size."""
    return list(itertools.accumulate(map(len, text.splitlines(keepends=True)), initial=0))


def python_functions(text):
    """Returns the functions of a module and the methods of its classes."""
    starts, found, tree = offsets(text), [], ast.parse(text)
    owners = [("", tree), *((f"{one.name}.", one) for one in tree.body if isinstance(one, ast.ClassDef))]
    for prefix, owner in owners:
        for one in owner.body:
            if isinstance(one, (ast.FunctionDef, ast.AsyncFunctionDef)):
                first = min([one.lineno, *(decorator.lineno for decorator in one.decorator_list)])
                found.append((prefix + one.name, starts[first - 1], starts[one.end_lineno]))
    return found


def end_of(lines, first, indent):
    """Returns the last line of a function that begins on this line: that of its closing brace, or of its
    declaration."""
    opening = next(at for at in range(first, len(lines)) if lines[at].endswith(("{", "}", ";")))
    if not lines[opening].endswith("{"):
        return opening
    return next(at for at in range(opening, len(lines)) if lines[at] == indent + "}")


def indented_functions(text, head):
    """Returns the functions of a module of Go or Rust, and the methods after the type's name, by how they are
    indented."""
    lines, starts, found, owner = text.splitlines(), offsets(text), [], ""
    for number, line in enumerate(lines):
        if kind := RUST_TYPE.match(line):
            owner = kind[1]
        elif line == "}":
            owner = ""
        elif begun := head.match(line):
            type_name = begun.groupdict().get("type") or owner
            name = f"{type_name}.{begun['name']}" if type_name else begun["name"]
            found.append((name, starts[number], starts[end_of(lines, number, begun[1]) + 1]))
    return found


@functools.cache
def functions(file, text):
    """Returns the name of each function of a file, and where it begins and ends."""
    if file.endswith(".py"):
        return python_functions(text)
    if file.endswith((".go", ".rs")):
        return indented_functions(text, GO_HEAD if file.endswith(".go") else RUST_HEAD)
    return [(found[1], *found.span()) for found in C_FUNCTION.finditer(text)]


def mutants_of(language):
    """Returns the mutants of a language's list, in order."""
    found = []
    for section in sections_of(TOP / "bindings" / language / "must-fail/mutants.md"):
        form = FORM.fullmatch(section)
        if not form:
            raise BadMutant(f"{section.partition(chr(10))[0]} isn't written as a mutant is")
        name, file, old, new, function, noticed_by = form.groups()
        found.append(Mutant(language, name, file, old.replace("⏎", "\n"), new.replace("⏎", "\n"), function, noticed_by))
    return found

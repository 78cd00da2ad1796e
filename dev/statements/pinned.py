"""The definitions that a public clause depends on, and what shows a change of them: a statement page (dev/statements/statement), or
an example below a line `-- NAME` in a crate of examples. What nothing shows could be weakened without a word."""
import re

from dev.statements import statement_pages
from dev.crates import CRATES
from dev.statements.definition_reader import LIBRARY_CRATES, Definition, imports, resolved
from dev.rust_sources import sources


def public_clauses():
    """Yields the contract of each public function of the libraries that has one."""
    for crate in LIBRARY_CRATES:
        for file in sources(crate):
            for function in file.functions:
                contract = "\n".join(function.written()[:function.clauses_end()])
                if function.is_pub and re.search(r"^\s*(requires|ensures)\b", contract, re.M):
                    yield statement_pages.Clause(f"{crate}::{function.owner or file.file.stem}::{function.name}")


def tested():
    """Yields the key of each definition that an example tests: below a line with its name, in a file that imports it."""
    for file in (*CRATES.glob("*_examples/proofs/**/*.antt"), *CRATES.glob("*/proofs/Examples.antt")):
        text = file.read_text()
        used = imports(text)
        for name in re.findall(r"^-- ([\w'?-]+)$", text, re.M):
            yield from (one.key for one in resolved(*used.get(name, ("", name))) if isinstance(one, Definition))


def is_private(definition):
    """Returns true for a type, whose fields the compiler checks, and for a definition of invariants of private fields."""
    return definition.file.suffix != ".antt" or "inside" in definition.file.parts


def unpinned(written):
    """Yields a sentence for each definition that neither a page nor an example has, and for each law that no page has; the
    pages are written."""
    printed = {clause.partition(".")[0] for page in statement_pages.PAGES for one in page.chapters for clause in one.clauses}
    seen = {*tested(), *(key for key, page in written.home.items() if page)}
    for clause in public_clauses():
        if clause.owner == "laws" and clause.name not in printed:
            yield f"{clause.name} is on no statement page"
        for one in statement_pages.in_order([clause], {})[0]:
            if one.key not in seen and not is_private(one):
                seen.add(one.key)
                yield f"{one.file.relative_to(CRATES)}: {one.name} is on no statement page, and no example tests it"

"""The pages of statements: public clauses, and below them the definitions that they rest on (dev/statements/statement). Their
sentences are in statement_pages.toml. A chapter has one fence of clauses and one of definitions. A line in a fence names the
files of the definitions and clauses below it. It has no numbers of lines, so a page changes only if its statements do."""
import functools
import itertools
import pathlib
import re
import sys
import textwrap
import tomllib
from dataclasses import dataclass

from dev import prover
from dev.crates import CRATES, TOP, all_crates
from dev.statements.definition_reader import Definition, imports, parse_module, rests_on, rust_named, type_of, unique, words_of
from dev.rust_sources import source, sources
from dev.statements.statement_forms import WIDTH, contract_lines, joined, shown_parts, type_lines, with_comment


@dataclass(eq=False)
class Chapter:
    """A chapter of a page: its sentence, what has to hold for it, its clauses, what ties them to the sources, and what the
    toolchain says of it."""
    title: str
    said: str
    premises: str
    clauses: list
    ties: list = ()
    kit: list = ()


@dataclass(eq=False)
class Page:
    """A page in docs/: its file, its title, its introduction and its chapters."""
    name: str
    title: str
    said: str
    chapters: list


WORDS = tomllib.loads(pathlib.Path(__file__).with_suffix(".toml").read_text())
# The page that explains signs and words, the signs that a reader has to know, the definitions whose first line is all that
# the pages print, the words of the kit's library, and the page with one clause and all that it rests on.
SIGNS, LEGEND, BRIEF, KIT, WHOLE = (WORDS[key] for key in ("signs_page", "signs", "brief", "words", "whole"))
# The types and traits of the kit that the pages name.
KIT_TYPES = WORDS["types"]
PAGES = [Page(**{**page, "chapters": [Chapter(**one) for one in page["chapters"]]}) for page in WORDS["page"]]
PLAIN = {"Bool", "Err", "List", "None", "Ok", "Option", "Result", "Some", "false", "true", "none", "some", "ℕ"}


def end(said):
    sys.exit(f"dev/statements/statement: {said}")


# A field of a struct, on one line.
FIELD = re.compile(r"\s*(?:pub(?:\(\w+\))? )?(\w+):")


class Tie:
    """Members of an `impl`, or fields of a struct, that tie a definition to the sources: read like a clause."""

    def __init__(self, file, head, members, said):
        self.file, self.said = CRATES / file, said
        item = next(item for item in source(self.file).items if item.lines[0] == head + " {")
        parts = {one.name: one.lines for one in item.members()}
        if item.kind == "struct":
            parts = {field[1]: [line] for line in item.lines if (field := FIELD.match(line))}
        if missing := set(members) - set(parts):
            end(f"{head}: no " + ", ".join(sorted(missing)))
        kept = [line for name in members for line in parts[name]]
        self.lines = [item.lines[0], *kept, "}"]

    def shown(self):
        """Returns its lines in a fence."""
        return with_comment(*type_lines(commented("///", wrapped(self.said, width=WIDTH - 4)), self.lines))

    def rests_on(self):
        ghosts, text = imports(source(self.file).text), "\n".join(self.lines[1:-1])
        head = self.lines[0] if self.lines[0].startswith("impl") else ""
        rust = [word for word in re.findall(r"(?<![\w.])[A-Z]\w*", head + text) if word not in ghosts]
        found = [*words_of(text, {}, ghosts), *(one for word in rust for one in rust_named(self.file, word))]
        return [one for one in unique(found) if isinstance(one, Definition)]


class Clause:
    """The contract of a public function: its comment, its clauses, and what they rest on."""

    def __init__(self, said):
        path, _, label = said.partition(".")
        parts = path.split("::")
        if len(parts) < 3 or parts[0] not in all_crates():
            end(f"{said}: not CRATE::MODULE::FUNCTION or CRATE::TYPE::FUNCTION")
        function = public_function(parts[0], *parts[-2:])
        if not function:
            end(f"no public function {said}")
        self.name, self.owner = said, parts[-2]
        self.file, self.comment = function.file, function.comment()
        self.head, self.clauses = parts_of_contract(function, function.owner)
        if label:
            self.clauses = [one for one in self.clauses if re.match(rf"\s*(requires\b|ensures\*? {label}\b)", one[0])]
            if not any("ensures" in clause[0] for clause in self.clauses):
                end(f"{said}: no such label")

    def shown(self):
        """Returns its lines in a fence."""
        return contract_lines(self.head, self.clauses, commented("///", self.comment))

    def rests_on(self):
        ghosts = imports(source(self.file).text)
        terms = "\n".join(re.sub(r"^\s*(requires|ensures)\*?( \w+)? \{", "{", "\n".join(clause))
                          for clause in self.clauses)
        head, modeled = "\n".join(self.head), " ".join(re.findall(r"⟦(.*?)⟧", terms, re.S))
        rust = re.findall(r"[A-Z]\w*", head) + [self.owner] * bool(re.search(r"\bself\b", head))
        rust += re.findall(r"[A-Z]\w*", modeled)
        rust += [word for word in re.findall(r"(?<![\w.])[A-Z]\w*", terms) if word not in ghosts]
        return unique([*words_of(terms, {}, ghosts), *(one for word in rust for one in rust_named(self.file, word))])


# The words before `fn` that the clauses of a page have in common.
PUBLIC = re.compile(r'^pub (extern "C" )?')
# What a line of a head doesn't end with, and the space after it while the head is filled into lines.
KEPT, HELD = re.compile(r"(->|:|&(?:'\w+ )?mut|&'\w+|\bfn|\bmut) "), "\u00a0"


def parts_of_contract(function, owner=None):
    """The lines of a function's head and those of each clause, without its margin. The head has the type of a method, if it
    is given, and is filled into lines; that the function is public, or an export, isn't said."""
    head, clauses = [], []
    for line in function.written()[:function.clauses_end()]:
        if re.match(r"\s*(requires|ensures)\b", line):
            clauses.append([])
        (clauses[-1] if clauses else head).append(line[function.margin:])
    if not any("//" in line for line in head):
        whole = PUBLIC.sub("", joined(head).replace(",)", ")", 1))
        whole = whole.replace(f"fn {function.name}", f"fn {owner}::{function.name}", 1) if owner else whole
        head = [line.replace(HELD, " ") for line in wrapped(KEPT.sub(rf"\1{HELD}", whole), "        ")]
    return head, clauses


def public_function(crate, owner, name):
    """The function of this name that is of this type, or of no type in a file of this name."""
    return next((one for source in sources(crate) for one in source.functions
                 if one.is_pub and one.name == name and owner == (one.owner or source.file.stem)), None)


def in_order(speakers, known, brief=()):
    """Returns the definitions that clauses, ties and definitions use, each after all its users: those that aren't known,
    and those that are; and the library's words. Of a brief definition only the first line is shown, so its own uses don't
    count."""
    order, library, visited = [], {}, set()

    def look_at(speaker):
        for one in reversed(speaks_of(speaker)):
            if not isinstance(one, Definition):
                library.setdefault(one[0], set()).add(one[1])
            elif one.key not in visited:
                visited.add(one.key)
                if one.key not in brief:
                    look_at(one)
                order.append(one)

    for speaker in reversed(speakers):
        look_at(speaker)
    order.reverse()
    return [one for one in order if one.key not in known], [one for one in order if one.key in known], library


def by_file(order, brief):
    """The definitions, each below all that speak of it, those of a crate together as far as that allows, and in it those
    of a file."""
    uses = {one.key: () if one.key in brief else {used.key for used in speaks_of(one) if isinstance(used, Definition)}
            for one in order}
    found, waiting = [], list(order)
    while waiting:
        ready = [one for one in waiting if not any(one.key in uses[other.key] for other in waiting if other is not one)]
        ready = ready or waiting[:1]
        near = [one for one in ready if found and place_of(one) == place_of(found[-1])]
        found.append(next((one for one in near if one.file == found[-1].file), (near or ready)[0]))
        waiting.remove(found[-1])
    return found


def place_of(one):
    """Returns the crate of a definition, or that of the toolchain."""
    return name_of_file(one.file).parts[0]


@functools.cache
def speaks_of(one):
    return rests_on(one) if isinstance(one, Definition) else one.rests_on()


def shown(definition, brief=()):
    """The lines of a definition in a fence: its comment, the parameters around it, and itself."""
    is_spec = definition.file.suffix == ".antt"
    mark, (comment, lines) = "--" if is_spec else "///", shown_parts(definition)
    if definition.key in brief:
        lines = [re.sub(r" (where|\{)$", "", definition.lines[0])]
        comment += wrapped(f"Only its first line: {brief[definition.key]}", width=116)
    if definition.context and is_spec:
        said = f"for every {joined(definition.context)}"
        fits = comment and len(f"-- {comment[-1]}; {said}") <= WIDTH
        comment[-1:] = [f"{comment[-1]}; {said}"] if fits else [*comment[-1:], said]
    return with_comment(commented(mark, comment), lines)


@functools.cache
def count(definition):
    """Returns the number of lines of a definition, without those of comments."""
    lines = with_comment([], shown_parts(definition)[1])
    return sum(not line.strip().startswith(("--", "//")) for line in lines)


# A link of a comment to another part of the sources, which leads nowhere on a page.
SOURCE_LINK = re.compile(r"\[(`[^`]+`)\]\([\w:]+\)")


def commented(mark, lines):
    return [f"{mark} {SOURCE_LINK.sub(lambda link: link[1], line)}" for line in lines if line.strip()]


def below_crates(mark, ones, lines_of):
    """Returns the lines of each of these, with a line above the first of each crate that names the files, in order."""
    lines = []
    for _, group in itertools.groupby(ones, place_of):
        group = list(group)
        lines += [*wrapped(f"{mark}{mark} {files_of(group)}", f"{mark}{mark}   "),
                  *(line for one in group for line in lines_of(one))]
    return lines


def files_of(group):
    """Returns the files of definitions of a crate, as the line above them names these."""
    folders = {}
    for file in dict.fromkeys(name_of_file(one.file).with_suffix("") for one in group):
        folders.setdefault(file.parts[1], []).append("/".join(file.parts[2:]))
    return f"{place_of(group[0])}: " + "; ".join(f"{folder}/ {', '.join(files)}" for folder, files in folders.items())


def name_of_file(file):
    """A file of a crate, or of the toolchain, as a page names it."""
    return file.relative_to(CRATES if file.is_relative_to(CRATES) else prover.kit() / "rattle")


def fenced(language, lines):
    """A fence with these lines; nothing without lines."""
    return [f"```{language}", *lines, "```"] if lines else []


def wrapped(prose, margin="", width=120):
    """The lines of a sentence or an item of a list."""
    return textwrap.wrap(prose, width, subsequent_indent=margin, break_long_words=False, break_on_hyphens=False)


class Written:
    """What is written so far: the page of each definition, and the kit's words of each page."""

    def __init__(self, page=None):
        self.home = {}
        self.turn_to(page)

    def turn_to(self, page):
        self.page, self.library, self.definitions, self.lines = page, {}, 0, 0

    def counts(self, definitions, lines):
        self.definitions += definitions
        self.lines += lines


def from_others(old, spoken_of, written):
    """Returns the lines that name definitions of other pages that are used here, with the names of the pages."""
    pages = {}
    for one in old:
        if one.key in spoken_of:
            pages.setdefault(written.home[one.key] or written.page, []).append(f"`{one.name}`")
    said = [f"from [{page.title}]({page.name}): {', '.join(names)}" for page, names in pages.items()
            if page is not written.page]
    whole = "; ".join(said)
    return ["", *wrapped(f"{whole[0].upper()}{whole[1:]}, and what these rest on.")] if said else []


def definitions_of(speakers, written, brief):
    """What the speakers rest on, as far as it isn't further up."""
    new, old, words = in_order(speakers, written.home, brief)
    new = by_file(new, brief)
    bare = [one.key for one in new if not one.comment]
    if bare:
        end("no comment says what this is: " + ", ".join(bare))
    spoken_of = {one.key for speaker in speakers + new for one in speaks_of(speaker) if isinstance(one, Definition)}
    out = from_others(old, spoken_of, written)
    out += fenced("agda", below_crates("--", new, lambda definition: shown(definition, brief)))
    for one in new:
        written.home[one.key] = None if one.key in brief else written.page
        written.counts(1, 1 if one.key in brief else count(one))
    for module, names in words.items():
        written.library.setdefault(module, set()).update(names)
    return out


@functools.cache
def speakers_of(one):
    """Returns what a chapter prints above its definitions: its clauses, and what ties these to the sources."""
    return [*map(Clause, one.clauses), *(Tie(**tie) for tie in one.ties)]


def chapter(one, written):
    """A chapter: its sentence and its premises, its clauses, and what they rest on."""
    speakers = speakers_of(one)
    out = ["", f"## {one.title}", "", *wrapped(f"{one.said} *Premises:* {one.premises}")]
    out += fenced("rust", below_crates("//", speakers, lambda one: one.shown()))
    for said in one.kit:
        out += of_kit(written=written, **said)
    return out + definitions_of(speakers, written, BRIEF)


@functools.cache
def lines_in_all(one):
    """How many lines a chapter's clauses and ties rest on, wherever they are printed, and those of the toolchain."""
    rest, _, _ = in_order(speakers_of(one), (), BRIEF)
    of_toolchain = sum((types + terms for said in one.kit for types, terms in [kit_parts(**said)]), [])
    return sum(1 if part.key in BRIEF else count(part) for part in rest) + sum(map(count, of_toolchain))


def kit_items(tables, found_in):
    """Returns what these tables name, files with names of each; `found_in` returns what a file of the toolchain has."""
    return [found_in(file, prover.kit() / "rattle" / file)[name] for file, names in tables.items() for name in names]


def kit_types(file, path):
    return {item.name: type_of(file.partition("/")[0], item) for item in source(path).items
            if item.kind in ("struct", "trait")}


def kit_functions(_, path):
    return {one.name: one for one in source(path).functions if one.is_pub}


def kit_parts(types, definitions, **_):
    """Returns the types and the definitions that a chapter takes from the toolchain."""
    return kit_items(types, kit_types), kit_items(definitions, parse_module)


def of_kit(said, types, functions, definitions, written):
    """What the toolchain says of a chapter: its types and the contracts of its functions, and the definitions in these.
    Each table has files, with the names to show from each."""
    kinds, terms = kit_parts(types, definitions)
    written.counts(len(kinds + terms), sum(map(count, kinds + terms)))
    calls = below_crates("//", kit_items(functions, kit_functions), shown_function)
    return ["", *wrapped(said), *fenced("rust", below_crates("//", kinds, shown_of_kit) + calls),
            *fenced("agda", below_crates("--", terms, shown_of_kit))]


def shown_of_kit(definition):
    """The lines of a definition of the toolchain, below its comment."""
    mark, (comment, lines) = "--" if definition.file.suffix == ".antt" else "///", shown_parts(definition)
    return [*(f"{mark} {line}" for line in wrapped(" ".join(comment), width=116)), *lines]


def shown_function(function):
    return contract_lines(*parts_of_contract(function), commented("///", function.comment()))


def check_words(written):
    """Ends with a fault if a page uses a word of the kit that its table of words lacks, and that isn't Rust's."""
    told = {word for words in KIT for word in re.findall(r"[^\W\d][\w?]*", words)}
    used = {name for names in written.library.values() for name in names if name and "◌" not in name}
    if missing := used - told - PLAIN:
        end("statement_pages.toml has no meaning for: " + ", ".join(sorted(missing)))


def signs_page():
    """The page that explains the signs and the kit's words of the other pages, with a list of these."""
    return page_text([
        f"# {SIGNS['title']}", "", *wrapped(SIGNS["said"]), "", *(f"- [{page.title}]({page.name})" for page in PAGES), "",
        "## Form", "", *wrapped(SIGNS["form"]), "", "## Signs", "", "| Sign | How to read it |", "|---|---|", *rows(LEGEND), "",
        "## Words of the kit's library", "", "| Word | What it says |", "|---|---|",
        *rows({f"`{word}`": said for word, said in {**KIT, **KIT_TYPES}.items()})])


def rows(table):
    return [f"| {word} | {said} |" for word, said in table.items()]


def anchor(title):
    return re.sub(r"[^\w -]", "", title).lower().replace(" ", "-")


def statement_page(page, written):
    """A page of chapters."""
    written.turn_to(page)
    body, table = [], []
    for one in page.chapters:
        definitions, lines = written.definitions, written.lines
        body += chapter(one, written)
        counts = f"{written.definitions - definitions} | {written.lines - lines} | {lines_in_all(one)}"
        table.append(f"| [{one.title}](#{anchor(one.title)}) | {counts} |")
    check_words(written)
    said = (f"{page.said} To judge the clauses, read them and the definitions below them, on this page {written.lines} "
            f"lines in {written.definitions} definitions and types. [{SIGNS['title']}]({SIGNS['file']}) explains their "
            "form and signs.")
    return page_text([f"# {page.title}", "", *wrapped(said), "",
                      "| Chapter | New definitions | Their lines | Lines in all |", "|---|---|---|---|", *table, *body])


def page_text(lines):
    return "\n".join(lines).rstrip("\n") + "\n"


def figures(page, lines):
    """Yields each number of lines that README.md may give for a page, with the pattern of its link: the page's, and that of
    each chapter. README.md names only some chapters."""
    link = r"\[(\d+)({}\]\(docs/" + re.escape(page.name) + r"{}\))"
    yield re.compile(link.format(r"\slines", "")), lines
    for one in page.chapters:
        yield re.compile(link.format("", "#" + anchor(one.title))), lines_in_all(one)


def generated(written):
    """Yields each file that is generated, with its text; `written` says afterwards what the pages have."""
    readme = (TOP / "README.md").read_text()
    yield page_file(SIGNS["file"]), signs_page()
    yield page_file(WHOLE["file"]), whole_promise()
    for page in PAGES:
        yield page_file(page.name), statement_page(page, written)
        for at, (pattern, number) in enumerate(figures(page, written.lines)):
            readme, found = pattern.subn(rf"[{number}\2", readme)
            if at == 0 and not found:
                sys.exit(f"README.md: docs/{page.name} has {number} lines of definitions")
    yield TOP / "README.md", readme


def check():
    """Ends with a fault if a file differs from what is generated. Returns what the pages have."""
    written = Written()
    for file, text in generated(written):
        if not file.exists() or file.read_text() != text:
            sys.exit(f"{file.relative_to(TOP)} is not what dev/statements/statement --write would write")
    return written


def write():
    for file, text in generated(Written()):
        file.write_text(text)
        print(f"{file.relative_to(TOP)}: {text.count(chr(10))} lines")


def page_file(name):
    return TOP / "docs" / name


def of_clauses(said):
    """Returns the lines of any clauses and of what they rest on, and the numbers of these definitions and of their
    lines."""
    speakers, written = [Clause(one) for one in said], Written(PAGES[0])
    out = fenced("rust", below_crates("//", speakers, lambda one: one.shown()))
    out += definitions_of(speakers, written, BRIEF)
    library = [f"- `{module}`: " + ", ".join(f"`{name}`" for name in sorted(filter(None, names)))
               for module, names in sorted(written.library.items())]
    return [*out, "", "Words of the kit's library:", "", *library], written.definitions, written.lines


def print_clauses(said):
    """Prints any clauses and what they rest on."""
    lines, definitions, count_of_lines = of_clauses(said)
    print("\n".join([*lines, f"{definitions} definitions, {count_of_lines} lines"]))


def whole_promise():
    """Returns the text of the page that prints one clause with all that it rests on, with these lines and their
    numbers."""
    lines, definitions, count_of_lines = of_clauses([WHOLE["clause"]])
    head, _, rest = page_file(WHOLE["file"]).read_text().partition("```rust\n")
    head = re.sub(r"\d+ definitions of \d+ lines", f"{definitions} definitions of {count_of_lines} lines", head)
    return "\n".join([*head.splitlines(), *lines, "", "## " + rest.partition("\n## ")[2]])

"""Definitions in specs/ and types in src/: their positions, their lines, and the definitions that they use."""
import functools
import re
import sys

from dev.crates import CRATES, crate_of, needs
from dev.rust_sources import indent_of, source, sources

# The libraries that have definitions, in the order of crates.txt: each after its dependencies.
LIBRARY_CRATES = tuple(
    crate for crate in needs() if (CRATES / crate / "specs").is_dir() and (CRATES / crate / "src/lib.rt").exists()
    and not crate.endswith("_tests"))

WORD = re.compile(r"(\.?)([^\W\d][\w'?]*(?:-[^\W\d][\w']*)*|\d+)|(\"(?:[^\"\\]|\\.)*\")|([^\s\w(){}\[\],;.\"'\\]+)")
IMPORT = re.compile(r"^\s*(?:ghost )?(?:pub )?use (Rattle[\w.«»?]*|mathlib[\w.«»?]*|lib[\w.«»?]*?)"
                    r"(?:\.\{([^}]*)\})?(?: as (\w+))?;?\s*$", re.M)
DECLARED = re.compile(r"(?:abbrev |unfoldable )?(?:pub )?(?:abbrev |unfoldable )?(?:(record|data|ruleset) )?([^\s:(){}]+)")
RUST_TYPES = ("struct", "enum", "trait", "type", "const")


class Definition:
    """A definition in specs/ or a type in src/: its position, its comment, its lines, and the parameters around it."""

    def __init__(self, key, file, line, comment, lines, context=()):
        self.key, self.file, self.line, self.comment, self.lines = key, file, line, comment, lines
        self.context = context
        self.name = key.rpartition(".")[2]


def uncommented(text):
    return re.sub(r"(?m)(?:^|(?<=\s))--.*$", "", text)


def imports(text):
    """Returns what each word of a file denotes: a name of a module, or (without a name) the module itself."""
    found = {}
    for module, items, alias in IMPORT.findall(text):
        if not items:
            found[alias or module.rpartition(".")[2]] = (module, None)
        for item in items.split(","):
            name, _, other = item.strip().partition(" as ")
            if name:
                found[other or name] = (module, name)
    return found


@functools.cache
def spec_module(module):
    """Returns the definitions of a module of specs/ by name, and what its other words denote; None for modules of the kit."""
    match = re.fullmatch(r"Rattle\.(\w+)\.(specs|proofs)\.(.+)", module)
    if not match:
        return None
    file = CRATES / match[1] / match[2] / (match[3].replace(".", "/") + ".antt")
    return (parse_module(module, file), imports(file.read_text())) if file.exists() else None


def parse_module(module, file, text=None):
    """Returns the definitions of a file, or of another text of it, by name. A definition has the lines of all its cases."""
    found, last = {}, None
    text = file.read_text() if text is None else text
    for number, comment, lines, margin, context in items_of(text.split("\n")):
        head = lines[0].strip()
        if re.match(r"(pub )?(use|mod|open)\b", head):
            last = None
            continue
        declared = DECLARED.match(head)
        name = declared[2] if declared and head[0] not in "]})" else "unfolding"
        if name == "unfolding" or name in found and not re.match(r"(abbrev|unfoldable|pub|record|data) ", head):
            last = last if name == "unfolding" else found[name]
        else:
            last = found[name] = Definition(f"{module}.{name}", file, number, comment, [], context)
        if last:
            last.lines += [line[margin:] for line in lines]
    return found


def items_of(lines):
    """Yields what begins at the margin of the file or of a section: its line, the comment above it, its lines, the margin, and
    the parameters of the sections around it."""
    comment, sections, number = [], [(0, None)], 0
    while number < len(lines):
        line = lines[number]
        number += 1
        if not line.strip():
            comment = []
            continue
        while indent_of(line) < sections[-1][0]:
            sections.pop()
        margin = sections[-1][0]
        if line.strip().startswith("--"):
            comment.append(line.strip()[2:].strip())
        elif re.match(r"module _|mutual\b", line.strip()):
            number, parameters = read_section(lines, number - 1)
            sections.append((indent_of(line) + 2, parameters))
            comment = []
        else:
            end = end_of_item(lines, number, margin)
            own = [line, *filter(str.strip, lines[number:end])]
            yield number, comment, own, margin, [parameters for _, parameters in sections if parameters]
            comment, number = [], end


def end_of_item(lines, number, margin):
    """Returns where an item ends: before a line at its margin, or before an empty line, unless an indented one follows it."""
    while number < len(lines) and (indent_of(lines[number]) > margin or not lines[number].strip()
                                   and number + 1 < len(lines) and indent_of(lines[number + 1]) > margin):
        number += 1
    return number


def read_section(lines, number):
    """Returns the number of the line after a section's head, and its parameters."""
    head = ""
    while not re.search(r"\bwhere$|^mutual$", head):
        head = f"{head} {lines[number].strip()}".strip()
        number += 1
    parameters = re.fullmatch(r"module _ ?(.*?) ?where", head)
    return number, parameters and parameters[1]


@functools.cache
def constructors(definition):
    if not re.match(r"(pub )?data ", definition.lines[0]):
        return set()
    return {match[1] for line in definition.lines[1:] if (match := re.match(r"\s+(\S+) :", line))}


def is_type(item, name):
    return item.name == name and item.kind in RUST_TYPES


@functools.cache
def rust_type(crate, name):
    """Returns a struct, enum, trait, type or constant of the crate as written in its source."""
    return next((type_of(crate, item) for one in sources(crate) for item in one.items if is_type(item, name)), None)


def type_of(crate, item):
    body = [line for line in item.written() if line.strip() and not line.strip().startswith("#[")]
    model = next((other for other in item.source.items if other.kind == "impl"
                  and other.of_impl() == ("Model", item.name)), None)
    value = model and re.search(r"ghost Value = (\{.*?\});", "\n".join(model.written()))
    if value:
        body = [re.sub(r"\s*[{;].*", "", body[0]) + f" // contracts see it as {value[1]}"]
    return Definition(f"{crate}::{item.file.stem}.{item.name}", item.file, item.start + 1, item.comment(), body)


def rust_words(definition):
    """Yields the types of the repository that a Rust type names, and what its ghost parts name, except in proofs of
    fields."""
    ghosts = imports(source(definition.file).text)
    code = "\n".join(re.sub(r"//(?! contracts see it as).*", "", line) for line in definition.lines)
    for word in re.findall(r"[A-Za-z_]\w*", re.sub(r"\} by \{[^}]*\}", "}", code)):
        if word in ghosts:
            yield from resolved(*ghosts[word])
        elif word[0].isupper() and word != definition.name:
            yield from rust_named(definition.file, word)


@functools.cache
def rust_named(file, word):
    """Returns the type of the repository that a word of a source file names, in a list that is empty if there is none."""
    is_own = any(is_type(item, word) for item in source(file).items)
    crate, _, rest = ("crate", "", word) if is_own else source(file).uses.get(word, "").partition("::")
    crate = crate_of(file) if crate == "crate" else crate
    found = crate in needs() and rust_type(crate, rest.rpartition("::")[2])
    return [found] if found else []


def resolved(module, name):
    """Yields the definition that a name of a module denotes, or (module, name) if it belongs to the kit's library."""
    declared = re.fullmatch(r"Rattle\.(\w+)\.specs\.declared\.(.+)", module)
    if declared and (CRATES / declared[1]).is_dir():
        *_, outer, last = ["", *declared[2].split(".")]
        named = {"TheVariants": outer, "TheInside": outer, "TheConstants": name}.get(last, last)
        found = rust_type(declared[1], named)
        if not found:
            sys.exit(f"dev/statements/definition_reader.py: no type {named} in {declared[1]}")
        yield found
        return
    ours = spec_module(module)
    if not ours:
        yield (module, name)
        return
    definitions, used = ours
    own = definitions.get(name) or maker_of(name, definitions)
    if own:
        yield own
    elif name in used:
        yield from resolved(*used[name])
    else:
        sys.exit(f"dev/statements/definition_reader.py: no {name} in {module}")


def maker_of(name, definitions):
    """Returns which of these definitions has the constructor of this name, or None."""
    return next((one for one in definitions.values() if name in constructors(one)), None)


def words_of(text, local, used):
    """Yields what the words of a term denote: definitions of the repository, and (module, name) for the kit's library. A
    variable with the name of a definition counts as that definition: the page may have one too many, but misses none."""
    text = uncommented(text)
    tokens = [(*match.group(1, 2, 4), *match.span()) for match in WORD.finditer(text)]
    seen = {one for _, word, sign, _, _ in tokens for one in (word, sign)}
    for dot, word, _, start, end in tokens:
        if not word:
            continue
        is_projection = dot and start and re.match(r"[\w')\]⟧]", text[start - 1])
        is_field = re.search(r"\bpub $", text[:start]) or (
            re.match(r"\s*=(?!=)", text[end:]) and re.search(r"(?:[{;]\s*|\n\s+)$", text[:start + len(dot)]))
        if is_projection or is_field:
            continue
        if own := local.get(word) or maker_of(word, local):
            yield own
        elif word in used:
            target, name = used[word]
            follows = re.match(r"\.([^\W\d][\w'?]*)", text[end:])
            if name or follows:
                yield from resolved(target, name or follows[1])
    for name, (target, item) in used.items():
        if item and "◌" in item and set(part for part in item.split("◌") if part) <= seen:
            yield (target, item)


@functools.cache
def rests_on(definition):
    """Returns what the definition uses: definitions of the repository, and (module, name) for the kit's library."""
    if definition.file.suffix == ".rt":
        return unique(rust_words(definition), definition)
    text = "\n".join([*definition.lines, *definition.context])
    return unique(words_of(text, *spec_module(definition.key.rpartition(".")[0])), definition)


def unique(found, but=None):
    """Returns each of these definitions and words once, without this definition."""
    kept = {}
    for one in found:
        kept.setdefault(one.key if isinstance(one, Definition) else one, one)
    return [one for key, one in kept.items() if not (but and key == but.key)]


@functools.cache
def example_files():
    """Returns the files of examples of each crate whose definitions they test. A library's examples are in a crate of
    examples, in a file with the second part of the library's name and in a directory of that name; those of the program are
    in its proofs/."""
    found = {crate_of(file): [file] for file in CRATES.glob("*/proofs/Examples.antt")}
    for crate in LIBRARY_CRATES:
        name = crate.partition("_")[2].capitalize()
        files = [*CRATES.glob(f"*_examples/proofs/{name}.antt"), *sorted(CRATES.glob(f"*_examples/proofs/{name}/*.antt"))]
        found |= {crate: files} if files else {}
    return found

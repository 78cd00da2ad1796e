"""The changes of definitions that crates list in must-fail/definitions.md, each with the example that refuses it; and
copies of definitions in specs/ and of the examples that test them, so that one check covers many changes.

For each change, three things are copied into files of a crate above the crates of examples: the changed definition, the
example that refuses it, and everything on which both depend."""
import collections
import pathlib
import re

from dev.crates import CRATES, below, crate_of, needs
from dev.statements.definition_reader import constructors, example_files, imports, parse_module, uncommented
from dev.mutants.mutant_lists import BadMutant, pairs_of, sections_of
from dev.prover import said_by, said_of
from dev.build.workspaces import lay_out

DECLARED = re.compile(r" *(?:(?:pub|abbrev|unfoldable|record|data) )*([^\s:(){}\[\],;]+)")
WORD = re.compile(r"(?<![\w.'])[^\W\d][\w']*(?:-[\w']+)*")
USE = re.compile(r"(?:pub )?use ([\w.«»'-]+?)(?:\.\{([^}]*)\})?(?: as (\w+))?$")
ERROR = re.compile(r"^(?:note: )?\S*\bproofs/(H\d+_\w+)\.antt: ?(\d+):\d+: (?!warning: )", re.M)
VERDICT = re.compile(r"^(?:logic|holes)=", re.M)

LISTS = "*/must-fail/definitions.md"
FORM = re.compile(r"([\w-]+)\n\n```\nfile: (specs/\S+)\n((?:old: .+\nnew:.*\n)+)refused by: (\S+)\n```\n+")


# -- the lists of changes

class Change:
    """A change of a list: its crate and name; and if its form is valid, its file, its pairs of old and new, and its
    example."""

    def __init__(self, crate, section):
        self.crate, self.name = crate, section.partition("\n")[0]
        self.form = FORM.fullmatch(section)
        _, self.file, pairs, self.example = self.form.groups() if self.form else ("",) * 4
        self.pairs = pairs_of(pairs)

    def changed(self, text):
        """Returns the file's text after each pair was replaced, one after another."""
        for old, new in self.pairs:
            if text.count(old) != 1:
                raise BadMutant(f"an 'old:' text is in {self.file} {text.count(old)} times, and not once: {old}")
            text = text.replace(old, new)
        return text


def listing_crates():
    return sorted(file.parent.parent.name for file in CRATES.glob(LISTS))


def changes_of(crate):
    """Returns the changes that a crate lists, in order."""
    return [Change(crate, section) for section in sections_of(CRATES / crate / "must-fail/definitions.md")]


# -- files and what is declared in them

class Block:
    """A declaration of a file, or a whole `module _` with all that it declares: its lines and their numbers."""

    def __init__(self, file, number, line):
        self.file, self.lines, self.numbers, self.name = file, [line], [number], declared_name(line)

    def is_example(self):
        return not re.match(r"(pub )?(abbrev|module|record|data|unfoldable)\b", self.lines[0])

    def text(self):
        return "\n".join(self.lines)


def words_of(text):
    return set(WORD.findall(uncommented(text)))


def declared_name(line):
    found = DECLARED.match(line)
    return found[1] if found else None


class File:
    """A file of specs/ or proofs/, or another text of it: its `use` lines and its blocks."""

    def __init__(self, path, text=None):
        self.crate, self.path = crate_of(path), path
        parts = path.relative_to(CRATES / self.crate).with_suffix("").parts
        self.module = ".".join(["Rattle", self.crate, *parts])
        self.uses, self.blocks, self.owner = [], [], {}
        text = path.read_text() if text is None else text
        self.read(text.split("\n"))
        blocks = {number: block for block in self.blocks for number in block.numbers}
        for read in parse_module(self.module, path, text).values():
            self.owner.update({name: blocks[read.line] for name in (read.name, *constructors(read))})
        self.imported = imports(text)

    def read(self, lines):
        current = None
        for number, line in enumerate(lines, 1):
            used = USE.match(line)
            if line.startswith("--") or used:
                self.uses += [used.groups()] if used else []
                current = None
            elif re.match(r"(pub )?mod ", line) or not line.strip():
                continue
            elif current and (line[0] in " })]" or line.startswith("unfolding ") or declared_name(line) == current.name):
                current.lines.append(line)
                current.numbers.append(number)
            else:
                current = Block(self, number, line)
                self.blocks.append(current)


class Crate:
    """The files of a crate's specs/ and proofs/ and of its examples, and which block speaks of which."""

    def __init__(self, name):
        self.name = name
        paths, folder = example_files()[name], CRATES / name
        self.examples = list(map(File, paths))
        others = [*sorted(folder.glob("specs/**/*.antt")), *sorted(folder.glob("proofs/*.antt"))]
        files = [*(File(path) for path in others if path not in paths), *self.examples]
        self.files = {file.module: file for file in files}
        self.speaks = {block: self.spoken_of(block) for file in files for block in file.blocks}
        self.known = {}

    def example(self, name):
        """Returns the block of the example with this name, or None."""
        return next((file.owner[name] for file in self.examples if name in file.owner), None)

    def spoken_of(self, block):
        found, file = set(), block.file
        for word in words_of(block.text()):
            module, name = (file.module, word) if word in file.owner else file.imported.get(word, (None, None))
            if module in self.files and name in self.files[module].owner:
                found.add(self.files[module].owner[name])
        return found - {block}

    def resting_on(self, block):
        """Returns all blocks of the crate that depend on this one, including itself."""
        if block not in self.known:
            found, more = set(), {block}
            while more:
                found |= more
                more = {other for other, spoken in self.speaks.items() if other not in found and spoken & found}
            self.known[block] = found
        return self.known[block]


# -- the copies that try them

class Copy:
    """Definitions with changed texts, or unchanged, and the examples that test them."""

    def __init__(self, crate, number, texts, examples, uses=None):
        """texts: the new text of each of these blocks, all of the same file; uses: the new `use` lines of that file."""
        self.crate, self.number, self.texts, self.examples, self.new_uses = crate, number, texts, examples, uses
        resting = set().union(*(crate.resting_on(block) for block in texts))
        self.needed, ahead = set(texts), [*examples]
        while ahead:
            block = ahead.pop()
            if block not in self.needed:
                self.needed.add(block)
                ahead += [other for other in crate.speaks[block] if other in resting or other.file in crate.examples]

    def name_of(self, file):
        return f"H{self.number}_" + file.module.removeprefix("Rattle.").replace(".", "_")

    def uses(self, file, kept):
        """Returns the `use` lines of the copy of a file. Copied names come from the copies, all others from their
        original place, except unused types, which may be private to the crate."""
        out, words = [], set().union(*(words_of(self.text_of(block)) for block in kept))
        is_changed = self.new_uses is not None and any(block in self.texts for block in kept)
        for module, items, alias in self.new_uses if is_changed else file.uses:
            if items is None:
                out.append(f"use {module}" + (f" as {alias}" if alias else ""))
                continue
            lists = {False: [], True: []}
            for item in (one.strip() for one in items.split(",")):
                if ".specs.declared." in module and item.rpartition(" as ")[2] not in words:
                    continue
                origin = self.crate.files.get(module)
                lists[bool(origin) and origin.owner.get(item.partition(" as ")[0]) in self.needed].append(item)
            out += [f"use {module}.{{{', '.join(lists[False])}}}"] * bool(lists[False])
            if lists[True]:
                copied = self.name_of(self.crate.files[module])
                out.append(f"use Rattle.{COPIES}.proofs.{copied}.{{{', '.join(lists[True])}}}")
        own = sorted(name for name, block in file.owner.items() if block not in kept and name in words)
        return out + [f"use {file.module}.{{{', '.join(own)}}}"] * bool(own)

    def text_of(self, block):
        return self.texts.get(block) or block.text()

    def files(self):
        """Yields each file: its name, its text, and its blocks. There is an empty line before each block and none in
        it."""
        for file in self.crate.files.values():
            kept = [block for block in file.blocks if block in self.needed]
            if not kept:
                continue
            lines = self.uses(file, kept)
            for block in kept:
                body = self.text_of(block).split("\n")
                if not body[0].startswith("module "):
                    body[0] = re.sub(r"^(?!(?:\w+ )*pub )((?:abbrev |unfoldable )?)", r"\1pub ", body[0])
                lines += ["", *body]
            yield self.name_of(file), "\n".join(lines) + "\n", kept


# A crate that only has copies, above the crates of examples.
COPIES = "changed_definitions"
ROOT = "//! Copies of definitions, changed, and of the examples that try them.\n#![tactic(auto)]\n"


class Scratch:
    """A workspace of some crates of examples and their dependencies, with a crate of copies above them."""

    def __init__(self, examples, room):
        self.folder = pathlib.Path(room) / "crates" / COPIES
        used = below(examples)
        self.named = sorted(used | {name for crate in used for name in needs()[crate]})
        lay_out(pathlib.Path(room), examples, [f"{COPIES}: {' '.join(self.named)}"])
        for part in ("src", "proofs"):
            (self.folder / part).mkdir(parents=True)
        (self.folder / "src/lib.rt").write_text(ROOT)

    def tried(self, copies, is_gate, seconds):
        """Returns for each copy the blocks that the prover refuses, with None for an error elsewhere; returns None if
        there is no verdict after `seconds` of processor time. ./test only checks the crate of copies, based on the
        libraries that `rt ci` just built; the check for a developer is based on what earlier checks kept in out/."""
        written = {}
        for copy in copies:
            for name, text, blocks in copy.files():
                written[name] = (copy, blocks)
                self.file(name).write_text(text)
        (self.folder / "proofs/Lib.antt").write_text("".join(f"pub mod {name}\n" for name in sorted(written)))
        printed = (said_of(COPIES, self.named, self.folder, seconds=seconds) if is_gate else
                   said_by(["rt", "check", "--jobs", "1", "--allow-holes"], self.folder, seconds))
        refused = self.refused_in(printed, written) if VERDICT.search(printed) else None
        for name in written:
            self.file(name).unlink(missing_ok=True)
        return refused

    def refused_in(self, printed, written):
        """Returns the blocks of each copy that have the printed errors. There is an empty line before each block of a
        file."""
        refused = collections.defaultdict(set)
        for name, line in ERROR.findall(printed):
            copy, blocks = written[name]
            before = self.file(name).read_text().split("\n")[: int(line)].count("") if self.file(name).exists() else 0
            refused[copy].add(blocks[before - 1] if 0 < before <= len(blocks) else None)
        return refused

    def file(self, name):
        return self.folder / f"proofs/{name}.antt"

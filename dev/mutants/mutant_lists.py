"""The mutants that crates list in must-fail/mutants.md, each with the function in which the prover refuses it."""
import re

from dev.crates import CRATES
from dev.rust_sources import Source

FORM = re.compile(r"([\w-]+)\n\n```\nfile: (src/\S+\.rt)\n((?:old: .+\nnew:.*\n)+)"
                  r"refused in: ([\w:+]+?)(?:: ([\w-]+))?\n```\n+")
PAIR = re.compile(r"^old: (.+)\nnew: ?(.*)$", re.M)


class BadMutant(Exception):
    """The reason why a mutant can't be made."""


def pairs_of(text):
    """Returns the pairs of old and new that a section has; in these `⏎` denotes the end of a line."""
    return [tuple(one.replace("⏎", "\n") for one in pair) for pair in PAIR.findall(text)]


def sections_of(file):
    """Returns the sections of a list, in order: each a name, and below it what is changed."""
    return re.split(r"^## ", file.read_text(), flags=re.M)[1:] if file.exists() else []


class Mutant:
    """A mutant of a list: its crate, text and name. If its form is valid, it also has its file, its pairs of old and
    new, the function that the prover refuses, as the prover names it, and the goal of that function that stays open."""

    def __init__(self, crate, section):
        self.crate, self.section, self.name = crate, section, section.partition("\n")[0]
        self.form = FORM.fullmatch(section)
        _, self.file, pairs, self.function, self.goal = self.form.groups() if self.form else ("",) * 5
        self.pairs = pairs_of(pairs)

    def changed(self, text):
        """Returns the file's text after each pair was replaced in the mutant's function, one after another."""
        for old, new in self.pairs:
            source = Source(None, text)
            item = source.named(self.function)
            start, end = (source.offset(item.start), source.offset(item.end)) if item else (0, 0)
            places = [start + found.start() for found in re.finditer(f"(?={re.escape(old)})", text[start:end])]
            if len(places) != 1:
                raise BadMutant(f"an 'old:' text is in {self.function} {len(places)} times, and not once: {old}")
            text = text[: places[0]] + new + text[places[0] + len(old) :]
        return text

    def fault(self, folder):
        """Returns the reason why it can't be checked on the current crate, or None."""
        if not self.form:
            return "it isn't written as a mutant is"
        if not (folder / self.file).exists():
            return f"there is no file {self.file}"
        try:
            text = self.changed((folder / self.file).read_text())
        except BadMutant as fault:
            return str(fault)
        return None if Source(None, text).named(self.function) else f"it leaves no function {self.function}"


def listing_crates(crates=CRATES):
    return sorted(file.parent.parent.name for file in crates.glob("*/must-fail/mutants.md"))


def mutants_of(crate, crates=CRATES):
    """Returns the mutants that a crate lists, in order."""
    return [Mutant(crate, section) for section in sections_of(crates / crate / "must-fail/mutants.md")]

"""The pages of the repository, and what they show: fenced blocks, and commands with their outputs. A page shows a
command in a fenced block as `$ COMMAND`, with its output below."""
import os
import re
import shlex

from dev.crates import TOP
from dev.testing import TestCase

FOLDERS = (".", "docs", "dev/statements", "convert", "map", "bindings/c", "bindings/python", "bindings/rust",
           "bindings/go")
PAGES = sorted(page for folder in FOLDERS for page in (TOP / folder).glob("*.md"))
# Directories that aren't the repository's own.
BUILT = {".git", "out", "target", "__pycache__"}


class Rules(TestCase):
    """Tests that each look at many files, and list all faults that they find."""
    longMessage = False

    def assert_none(self, faults):
        """Fails with a line for each fault."""
        found = list(faults)
        self.assertFalse(found, "\n".join(["", *found]))


def name_of(file):
    """Returns a file's path from the top of the repository."""
    return str(file.relative_to(TOP))


def files_of_repository():
    """Yields each file and each directory of the repository, without what is built."""
    for at, folders, files in os.walk(TOP):
        folders[:] = sorted(folder for folder in folders if folder not in BUILT)
        yield from (TOP / at / name for name in [*folders, *sorted(files)])


def fences(page, language=r"\w*"):
    return re.findall(rf"^```{language}\n(.*?)^```$", page.read_text(), re.M | re.S)


def commands():
    """Yields each command of a page: the page, the command's words and its output."""
    for page in PAGES:
        for block in fences(page):
            for part in re.split(r"^\$ ", block, flags=re.M)[1:]:
                command, _, output = part.partition("\n")
                yield page, shlex.split(command, comments=True), output


def calls():
    """Yields each call of the program on a page: the page, the arguments and the output."""
    for page, words, output in commands():
        if words[0] in ("yarib", "./yarib", "./try"):
            yield page, words[1:], output


def named_file(name):
    """Returns the file that a page names, relative to the top or to examples/."""
    return TOP / name if (TOP / name).exists() else TOP / "examples" / name


def prose_of(file):
    """Yields the numbered lines of prose of a page or of a source's comments, without quoted names and without links'
    targets."""
    is_fenced = False
    for number, line in enumerate(file.read_text().splitlines(), 1):
        if file.suffix == ".md":
            is_fenced ^= line.lstrip().startswith("```")
            prose = "" if is_fenced else line
        else:
            comment = re.search(r"(?:^|\s)(?:///?!?|--) ?(.*)" if file.suffix == ".rt" else r"^\s*-- (.*)", line)
            prose = comment[1] if comment else ""
        yield number, re.sub(r"\]\([^)]*\)|`[^`]*`", "", prose)

"""Rust sources: their code without comments, their imports, and their items and functions, each with its comment, its
attributes and its position. Items are recognized by the layout of `rt fmt`."""
import functools
import re

from dev.crates import CRATES

COMMENT_OR_LITERAL = re.compile(r' *//.*|"(?:[^"\\]|\\(?s:.))*"|\'(?:[^\'\\]|\\.)\'')
HEAD = re.compile(r"(pub(?:\([^)]*\))? )?(?:unsafe |const |async |extern \"C\" )*"
                  r"(fn|struct|enum|trait|impl|type|const|static|mod|use|ghost(?! use))\b[ <]*(\w*)")
# The start of a line that continues the item above it: it is indented further, closes brackets or begins a body.
GOES_ON = re.compile(r"[\s{}()\]]|where\b|$")


def code_of(text, emptied=False):
    """Returns the text without comments. Literals, which may contain anything, are emptied, or all their lines indented."""
    def kept(found):
        if found[0].lstrip().startswith("//"):
            return ""
        return found[0][0] * 2 if emptied else found[0].replace("\n", "\n" + " " * 16)
    return COMMENT_OR_LITERAL.sub(kept, text)


def indent_of(line):
    return len(line) - len(line.lstrip())


def type_name(written):
    """Returns a type's name as the prover writes it at an impl: `Tuple2` for a pair, `RefSliceU8` for `&[u8]`."""
    if written.startswith("("):
        return f"Tuple{written.count(',') + 1}"
    name = re.match(r"&?(?:mut )?\[?(\w+)", written)[1]
    if name[0].isupper():
        return name
    return "Ref" * written.startswith("&") + "Slice" * ("[" in written) + name.capitalize()


def parameters(written):
    """Returns the names of the type parameters and constants that `<..>` introduces."""
    return re.findall(r"(?:^|,) *(?:const )?(\w+)", re.sub(r"<[^<>]*>|\([^()]*\)", "", written[1:-1]))


class Item:
    """An item of a source, or a member of an item: its lines of code, and the type or trait around it."""

    def __init__(self, source, head, start, margin, owner):
        self.source, self.file, self.start, self.margin, self.owner = source, source.file, start, margin, owner
        self.kind, self.name = head[2], head[3]
        self.is_pub = self.kind == "ghost" or head[1] == "pub "

    def end_at(self, end):
        """Gives it the lines above this one, without empty ones at the end."""
        while not self.source.code[end - 1].strip():
            end -= 1
        self.end, self.lines = end, self.source.code[self.start:end]
        return self

    def written(self):
        """Returns its lines with their comments."""
        return self.source.lines[self.start:self.end]

    def above(self):
        """Returns the lines of its comment and its attributes, directly above it."""
        start = self.start
        while start and re.match(r" *(///|#\[)", self.source.lines[start - 1]):
            start -= 1
        return [line.strip() for line in self.source.lines[start:self.start]]

    def comment(self):
        return [line[3:].strip() for line in self.above() if line.startswith("///")]

    def attributes(self):
        return [line for line in self.above() if line.startswith("#[")]

    def clauses_end(self):
        """Returns the index of the line at which a function's body begins, after its head and its clauses."""
        for number, line in enumerate(self.lines):
            is_own = line.lstrip().startswith("{")
            if indent_of(line) == self.margin and (is_own or line.rstrip().endswith("{")):
                return number if is_own else number + 1
        return len(self.lines)

    def of_impl(self):
        """Returns the trait of an impl, or None, and its type: `Any` if that is a parameter of the impl."""
        head = " ".join(line.strip() for line in self.lines).partition("{")[0]
        head = re.sub(r"^(unsafe )?impl\s*", "", head)
        end = closing(head, 0, "<>") if head.startswith("<") else 0
        trait, parted, owner = head[end:].partition(" where ")[0].strip().rpartition(" for ")
        owner = "Any" if owner in parameters(head[:end]) else type_name(owner)
        return (re.match(r"(?:\w+::)*(\w+)", trait.strip())[1] if parted else None), owner

    def impl_name(self):
        """Returns the name of an impl as the prover writes it: `T` for the methods of a type, or of `Drop` for it; `T+A` for
        those of only the type `T<A>`; `TTrAB` for those of the trait `Tr<A<B>>` for `T`, without parameters of the impl, or `TTr`
        if that is `Tr<T>` or `Tr`; `TATr` for those of a trait for only the type `T<A>`."""
        trait, owner = self.of_impl()
        if trait in (None, "Drop"):
            only = re.match(rf"impl {owner}<(\w+)>", self.lines[0].strip())
            return f"{owner}+{only[1]}" if only else owner
        only = re.match(rf"impl {trait} for {owner}<(\w+)>", self.lines[0].strip())
        head = " ".join(self.lines)
        own = parameters(head[4:closing(head, 4, "<>")]) if head.startswith("impl<") else []
        start = re.search(rf"\b{trait}\b", head).end()
        given = re.sub(r"\w+::", "", head[start:closing(head, start, "<>")] if head[start] == "<" else "")
        given = "".join(type_name(word) for word in re.findall(r"\w+", given) if word not in own)
        return f"{owner}{only[1] if only else ''}{trait}{given if given != owner else ''}"

    def members(self):
        """Returns the members of an impl, a trait or a module."""
        owner = self.of_impl()[1] if self.kind == "impl" else self.name if self.kind == "trait" else None
        return list(self.source.items_at(self.margin + 4, self.start + 1, self.end, owner))


class Source:
    """A source file, or another text of it: its lines, and the same without comments."""

    def __init__(self, file, text=None):
        self.file, self.text = file, file.read_text() if text is None else text
        self.lines, self.code = self.text.split("\n"), code_of(self.text).split("\n")

    def items_at(self, margin, start, end, owner=None):
        """Yields the items that begin at this margin between these lines."""
        current = None
        for number in range(start, end):
            line = self.code[number]
            is_within = not line[:margin].strip()
            head = is_within and HEAD.match(line, margin)
            if current and (head or not (is_within and GOES_ON.match(line, margin))):
                yield current.end_at(number)
                current = None
            if head:
                current = Item(self, head, number, margin, owner)
        if current:
            yield current.end_at(end)

    @functools.cached_property
    def items(self):
        return list(self.items_at(0, 0, len(self.code)))

    @functools.cached_property
    def functions(self):
        """Returns all functions, including those in impls, traits and modules."""
        found, waiting = [], list(self.items)
        while waiting:
            item = waiting.pop(0)
            if item.kind == "fn":
                found.append(item)
            elif item.kind in ("impl", "trait", "mod"):
                waiting = item.members() + waiting
        return found

    def named(self, path):
        """Returns the function of this source that the prover names by this path, or None."""
        *owners, name = path.split("::")
        is_method = owners and owners[-1][0].isupper()
        found = [one for item in self.items if item.kind == "impl" and item.impl_name() == owners[-1]
                 for one in item.members()] if is_method else self.items
        return next((one for one in found if one.kind == "fn" and one.name == name), None)

    def offset(self, line):
        """Returns where this line, counted from 0, begins in the text."""
        return sum(len(one) + 1 for one in self.lines[:line])

    @functools.cached_property
    def uses(self):
        """Returns the path that each imported word denotes."""
        text = re.sub(r"(?m)^\s*ghost use .*$", "", self.text)
        return {other.rpartition("::")[2]: "::".join(part for part in (path, name) if part)
                for use in re.findall(r"(?m)^\s*(?:pub )?use ([^;]+);", text) for path, name, other in taken_by(use)}


def closing(text, start, pair):
    """Returns the index after the bracket that closes the one at the start."""
    depth = 0
    for index in range(start, len(text)):
        depth += (text[index] == pair[0]) - (text[index] == pair[1] and text[index - 1] != "-")
        if not depth:
            return index + 1
    return len(text)


def taken_by(use):
    """Yields the imports of a `use`: each path, the name in it, and its local name."""
    head, brace, inner = use.partition("{")
    path = head.rstrip(":") if brace else head.rpartition("::")[0]
    for item in inner.rstrip("} \n").split(",") if brace else [use.rpartition("::")[2]]:
        name, _, other = item.strip().partition(" as ")
        if name:
            yield path, name, other or name


@functools.cache
def source(file):
    return Source(file)


def sources(crate):
    """Returns the sources of a crate. None is for tests: those are in tests/libraries/."""
    return [source(file) for file in sorted((CRATES / crate / "src").rglob("*.rt"))]

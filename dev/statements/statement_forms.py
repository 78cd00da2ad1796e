"""The form in which the statement pages print definitions, types and contracts: the words of the sources on fewer lines.

- The words that only say how far a proof sees through a definition are left out.
- What is broken in the sources, but fits into a line, is joined. Short cases and fields share a line.
- Clauses are printed as the sources have them.
- A comment of one line is printed after a field, a case of an `enum`, a definition or its head, if both fit into a line."""
import itertools
import re

WIDTH = 120
# Between two cases or fields on one line.
GAP = ";  "
KEYWORDS = re.compile(r"^(\s*)(?:(?:pub|abbrev|unfoldable) )+")
LITERAL = re.compile(r'"(?:[^"\\]|\\.)*"')
BRACED = re.compile(r"(pub(\(\w+\))? )?(struct|enum|trait|impl)\b")
OPEN, CLOSED = "([{⟦", ")]}⟧"
# Where a term is broken rather than elsewhere: in front of these, between as few brackets as possible.
OPERATORS = ("→", "↔", "⊎", "×", "then", "else", "in", "++", "∷", "≡")


def joined(lines):
    """Returns the text of lines, on one line."""
    return re.sub(r"(?<=\() | (?=\))|;(?= \})", "", " ".join(line.strip() for line in lines))


def broken(text, margin="", indent="    "):
    """Returns the lines of a term, the first below `margin` and the others below `indent`."""
    lines = []
    while len(margin + text) > WIDTH:
        places = [(rank, -at) for at, rank in breaks(text) if len(margin) + at <= WIDTH and at > (WIDTH - len(margin)) // 3]
        if not places:
            break
        at = -min(places)[1]
        lines.append(margin + text[:at])
        text, margin = text[at + 1:], indent
    return [*lines, margin + text]


def masked(text):
    """Returns a term whose literals have no spaces, brackets and operators any more, of the same length."""
    return LITERAL.sub(lambda literal: "_" * len(literal[0]), text)


def depths(text):
    """Yields each sign of a term, with its place and the number of brackets around it."""
    depth = 0
    for at, sign in enumerate(text):
        depth += (sign in OPEN) - (sign in CLOSED)
        yield at, sign, depth


def breaks(text):
    """Yields each space of a term, with the number of brackets around it and the rank of what follows it."""
    text = masked(text)
    for at, sign, depth in depths(text):
        if sign == " ":
            word = text[at + 1:].partition(" ")[0]
            rank = OPERATORS.index(word) if word in OPERATORS else len(OPERATORS)
            yield at, (depth, 0 if text[at - 1] == ";" else rank)


def packed(parts, gap=GAP):
    """Returns the lines of these parts, each of which has its lines: parts of one line and without a comment share a line as
    far as they fit."""
    out, is_open = [], False
    for part in parts:
        line = part[0].strip()
        is_short = len(part) == 1 and "//" not in line
        if is_open and is_short and len(out[-1] + gap + line) <= WIDTH:
            out[-1] += gap + line
        else:
            out += part
        is_open = is_short
    return out


def split_at(text, sign):
    """Returns the parts of a term between the signs that no bracket encloses."""
    parts, start, hidden = [], 0, masked(text)
    for at, _, depth in depths(hidden):
        if not depth and hidden.startswith(sign, at):
            parts.append(text[start:at])
            start = at + len(sign)
    return [*parts, text[start:]]


def blocks_of(lines, margin):
    """Returns what begins at this margin, each with its further lines and its closing bracket."""
    found = []
    for line in lines:
        if found and (len(line) - len(line.lstrip()) > margin or line.strip()[0] in CLOSED):
            found[-1].append(line)
        else:
            found.append([line])
    return found


# -- definitions

def definition_lines(lines):
    """Returns the lines of a definition of specs/."""
    lines = [KEYWORDS.sub(r"\1", line) for line in lines]
    if re.match(r"(record|data) ", lines[0]):
        return record_lines(lines)
    if any(re.search(r"(^|\s)(--|let) ", line) for line in lines):
        return lines
    signature, *cases = [joined(block) for block in blocks_of(lines, 0)]
    return [*broken(signature), *case_lines(list(map(broken, cases)))]


def case_lines(cases):
    """Returns the lines of cases: several on a line if that halves their number, so that others stay below one another."""
    lines = packed(cases)
    return lines if 2 * len(lines) <= sum(map(len, cases)) + 1 else [line for case in cases for line in case]


def record_lines(lines):
    """Returns the lines of a `record` or a `data`: its head, and its fields or cases between its comments."""
    end = next((at for at, line in enumerate(lines) if line.rstrip().endswith(" where")), None)
    if end is None:
        return lines
    blocks = blocks_of([KEYWORDS.sub(r"\1", line) for line in lines[end + 1:]], 2)
    out, has_comments = broken(joined(lines[:end + 1]).replace(" : Type 0 where", " where")), False
    for is_comment, group in itertools.groupby(blocks, lambda block: block[0].strip().startswith("--")):
        has_comments |= is_comment
        out += sum(group, []) if is_comment else packed(broken(joined(block), "  ", "      ") for block in group)
    whole = " ".join(line.strip() for line in out)
    return [whole] if len(out) == 2 and len(whole) <= WIDTH and not has_comments else out


# -- types in src/

def type_lines(comment, lines):
    """Returns the comment and the lines of a type, a trait, an impl or a constant in src/."""
    if not BRACED.match(lines[0]) or lines[-1] != "}":
        return comment, lines
    members, above = [], []
    for block in blocks_of(lines[1:-1], 4):
        text = joined(block).replace(", }", " }")
        if text.startswith("//"):
            above.append(text)
        elif not text.endswith((",", ";")) or "//" in text:
            return comment, lines
        else:
            members.append((above, text))
            above = []
    return comment, member_lines(lines[0], members)


def member_lines(head, members):
    """Returns the lines of a type or an impl with these members, each with its comment. Those without one share a line."""
    if not any(above for above, _ in members):
        whole = f"{head} {' '.join(text for _, text in members)}".rstrip(",") + " }"
        if len(whole) <= WIDTH:
            return [whole]
    parts = []
    for above, text in members:
        behind = f"    {text} // " + " ".join(line.lstrip("/ ") for line in above)
        fits = above and len(behind) <= WIDTH
        parts.append([behind] if fits else [*(f"    {line}" for line in above), *broken(text, "    ", "        ")])
    return [head, *packed(parts, " "), "}"]


def shown_parts(definition):
    """Returns the comment and the lines of a definition or a type as a page prints them."""
    if definition.file.suffix == ".antt":
        return list(definition.comment), definition_lines(definition.lines)
    return type_lines(list(definition.comment), definition.lines)


def with_comment(comment, lines):
    """Returns the lines of a definition below its comment. A comment of one line is printed after the head, and cases after
    their type, if that makes fewer lines."""
    found = [[*comment, *lines]]
    for form in [lines, [GAP.join(lines)]] if len(lines) == 2 and is_type(lines) else [lines]:
        if len(comment) == 1 and (len(form) == 1 or is_head(form)) and "//" not in form[0]:
            found.append([f"{form[0]}  {comment[0].replace('///', '//', 1)}", *form[1:]])
        found.append([*comment, *form])
    return min((form for form in found if form == found[0] or all(len(line) <= WIDTH for line in form)), key=len)


def is_head(lines):
    """Returns true if the first of these lines is a head, which the value follows."""
    return lines[0].endswith((" where", " =", " {")) or is_type(lines)


def is_type(lines):
    """Returns true if the first of these lines is the type of a definition, and the others are its cases."""
    return len(split_at(lines[0], " : ")) > 1 and " = " not in lines[0] and not lines[1].startswith(" ")


# -- contracts

def contract_lines(head, clauses, comment=()):
    """Returns the lines of a function's comment, head and clauses."""
    return [*comment, *head, *(line for clause in clauses for line in clause)]

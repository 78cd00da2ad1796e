"""Random feeds, of a fixed seed each, which the library for C and the program execute alike."""
import random

from dev.models.table_model import dotted


def random_feed(seed):
    """Returns a text of version 2 without faults: few prefixes, one within another, so that each command meets the
    others."""
    draw, lines = random.Random(seed), ["version 2"]
    for _ in range(draw.choice((40, 400, 2000))):
        length = draw.choice((0, 1, 2, 8, 9, 23, 24, 25, 30, 31, 32))
        base = draw.choice((0, 1 << 31, 10 << 24, 0xFFFFFFE0)) + draw.randrange(32)
        prefix = f"{dotted(base >> 32 - length << 32 - length)}/{length}"
        hop = draw.choice(("discard", dotted(draw.randrange(1 << 32))))
        put = f"{prefix} {draw.choice((0, draw.randrange(9), (1 << 32) - 1))} {hop}"
        name = draw.choices(("add", "replace", "withdraw", "lookup", "dump", "purge"),
                            (60, 10, 15, 20, 3, draw.random() / 9))[0]
        words = {"add": put, "replace": put, "withdraw": prefix, "lookup": dotted(base)}
        lines.append(f"{name} {words[name]}" if name in words else name)
        if draw.random() < 0.02:
            lines.append(draw.choice(("", "# said")))
    return "\n".join(lines) + "\n"


def random_lines(seed, size):
    """Returns lines that add a route, many of them with a fault or two."""
    draw, lines = random.Random(seed), []
    for _ in range(size):
        hop = draw.choice(("discard", dotted(draw.randrange(1 << 32))))
        length = draw.randrange(33)
        prefix = f"{dotted(draw.randrange(1 << length) << 32 - length)}/{length}"
        line = f"add {prefix} {draw.choice((0, 7, 4294967295))} {hop}"
        for _ in range(draw.choice((0, 0, 1, 1, 2))):
            at = draw.randrange(len(line))
            put = draw.choice(("", "0", "9", " ", ".", "/", "a", line[at] * 2, "255", "\r"))
            line = line[:at] + put + line[at + draw.randrange(2):]
        lines.append(line)
    return lines

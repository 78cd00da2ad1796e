"""The place and the colour of an address on a map: the curve, the palettes, and the classes of equal colour."""
import array
import functools
import itertools
import operator

from .reading import DISCARD, END, NO_FEED, NO_LENGTH, NO_ROUTE, SAME_FEED, SAME_LENGTH, UNCHANGED

# The curve of Hilbert (1891) goes through the four quarters of a square, and through each in the same way, turned. For
# each way: the quarters in order, by column and row, and the way through each. The first way begins at the top left and
# ends at the top right; so do the maps of CAIDA and ISI.
WAYS = (
    ((0, 0, 1), (0, 1, 0), (1, 1, 0), (1, 0, 2)),
    ((0, 0, 0), (1, 0, 1), (1, 1, 1), (0, 1, 3)),
    ((1, 1, 3), (0, 1, 2), (0, 0, 2), (1, 0, 0)),
    ((1, 1, 2), (1, 0, 3), (0, 0, 3), (0, 1, 1)),
)
# The colours of each scheme. Kinds of things (`kind`) have hues near those of Okabe and Ito (2008), lengths (`length`)
# go from one end of the lightness to the other. `ground` is where nothing is to be shown, `rest` what has no colour of
# its own, `ink` what is written with, and the colour of `discard`. map/tests/test_colours.py says what is tested of them.
SCHEMES = {
    "light": {
        "page": "#ffffff", "ground": "#ececec", "ink": "#000000", "quiet": "#595959", "rest": "#7c7c7c",
        "kind": ["#2b88e7", "#cb6e07", "#1e6b35", "#a238a5", "#203f74", "#741411"],
        "length": ["#898b05", "#607a5c", "#1f6973", "#324a74", "#3d0193", "#261b43"],
    },
    "dark": {
        "page": "#111111", "ground": "#1c1c1c", "ink": "#ffffff", "quiet": "#a6a6a6", "rest": "#8c8c8c",
        "kind": ["#48c7ff", "#f3a13a", "#92fe8e", "#b230a1", "#3266e8", "#e1330c"],
        "length": ["#b7ff46", "#71eb96", "#94bfb1", "#6b9ef1", "#816cfa", "#a83bb5"],
    },
}
COLOURS = len(SCHEMES["light"]["kind"])
# the lowest length of each colour
LENGTHS = (0, 9, 16, 20, 23, 25)
# the change of an address, in the order of the legend
CHANGES = ("unchanged", "another next hop", "gets a route", "loses its route", "is discarded", "isn't discarded any more",
           "the same next hop by another route")
CHANGE_COLOURS = ("ground", "kind0", "kind2", "kind5", "ink", "kind1", "kind3")


def place(number, order):
    """Column and row of the number-th square on the curve, of 2^order in a row."""
    column = row = way = 0
    for shift in range(2 * order - 2, -1, -2):
        right, down, way = WAYS[way][number >> shift & 3]
        column, row = 2 * column + right, 2 * row + down
    return column, row


def style():
    """The colours as CSS: those of the scheme that the reader prefers."""
    light, dark = (" ".join(f"--{name}: {colour};" for name, colour in named(scheme)) for scheme in SCHEMES.values())
    return f":root {{ {light} }}\n@media (prefers-color-scheme: dark) {{ :root {{ {dark} }} }}"


def named(scheme):
    """The colours of a scheme, by name."""
    for name, colour in scheme.items():
        if isinstance(colour, str):
            yield name, colour
        else:
            yield from ((f"{name}{number}", one) for number, one in enumerate(colour))


class Colouring:
    """A colouring by a column: the class of each value of the column, and for each class its text, its colour and the
    number of its addresses. The class 0 is the ground."""

    def __init__(self, name, column, classes, legend, totals):
        self.name, self.column, self.classes = name, column, classes
        self.legend = [[text, colour, 0] for text, colour in legend]
        for value, addresses in totals.items():
            self.legend[classes[value]][2] += addresses


def totals_of(sizes, column):
    """The number of addresses of each value of a column; `sizes` has the number of addresses of each range."""
    totals = dict.fromkeys(column, 0)
    for value, size in zip(column, sizes):
        totals[value] += size
    return totals


def sizes_of(firsts):
    """The number of addresses of each range."""
    return list(map(operator.sub, itertools.chain(firsts[1:], (END,)), firsts))


def by_size(name, column, totals, size, fixed, text=str, rest=""):
    """Colours the largest values by number of addresses, after those with a fixed text and colour; the others are the rest."""
    classes, legend = array.array("B", [0] * size), [("", "ground")]
    for value, said, colour in fixed:
        if colour == "ground":
            legend[0] = (said, colour)
        elif value in totals:
            classes[value] = len(legend)
            legend.append((said, colour))
    left = sorted(totals.keys() - {value for value, *_ in fixed}, key=lambda value: (-totals[value], value))
    own = COLOURS - sum(colour.startswith("kind") for _, colour in legend)
    for number, value in enumerate(left):
        classes[value] = len(legend)
        if number < own:
            legend.append((text(value), f"kind{number}"))
    if left[own:]:
        legend.append((f"{len(left) - own} {rest}", "rest"))
    return Colouring(name, column, classes, legend, totals)


def by_length(name, column, totals, fixed):
    """Colours the lengths of prefixes, several with the same colour, after the values with a fixed text and colour."""
    classes, legend = array.array("B", [0] * 256), []
    for value, said, colour in fixed:
        classes[value] = len(legend)
        legend.append((said, colour))
    for number, (least, end) in enumerate(zip(LENGTHS, (*LENGTHS[1:], 33))):
        for length in range(least, end):
            classes[length] = len(legend)
        legend.append((f"/{least} to /{end - 1}", f"length{number}"))
    return Colouring(name, column, classes, legend, totals)


def feed_text(made):
    """Returns a function from a feed's number to its text in a legend."""
    return lambda number: f"feed {made.feeds.texts[number]}"


def of_table(table):
    """The ways to colour a table."""
    hops, answers, sizes = table.hops, table.sides[""], sizes_of(table.firsts)
    hop, feed, length = (totals_of(sizes, column) for column in (answers.hops, answers.feeds, answers.lengths))
    return [
        by_size("next hop", "hop", hop, len(hops.addresses),
                [(NO_ROUTE, "no route", "ground"), (DISCARD, "discard", "ink")], hops.text, "further next hops"),
        by_size("feed", "feed", feed, 256, [(NO_FEED, "no route", "ground")], feed_text(table), "further feeds"),
        by_length("length", "length", length, [(NO_LENGTH, "no route", "ground")]),
    ]


def of_comparison(made, changes):
    """The ways to colour a comparison; `changes` has the change of each range."""
    hops, sizes = made.hops, sizes_of(made.firsts)
    fixed = [(UNCHANGED, "unchanged", "ground"), (DISCARD, "discard", "ink"), (NO_ROUTE, "no route", "kind5")]
    colourings = [by_size("change", "change", totals_of(sizes, changes), len(CHANGES),
                          list(zip(range(len(CHANGES)), CHANGES, CHANGE_COLOURS)))]
    for side, answers in reversed(made.sides.items()):
        hop, feed, length = (totals_of(sizes, column) for column in (answers.hops, answers.feeds, answers.lengths))
        colourings.append(by_size(f"{side}next hop", f"{side}hop", hop, len(hops.addresses), fixed, hops.text,
                                  "further next hops"))
        if made.are_routes:
            colourings += [
                by_size(f"{side}feed", f"{side}feed", feed, 256,
                        [(SAME_FEED, "unchanged", "ground"), (NO_FEED, "no route", "ink")], feed_text(made),
                        "further feeds"),
                by_length(f"{side}length", f"{side}length", length,
                          [(SAME_LENGTH, "unchanged", "ground"), (NO_LENGTH, "no route", "ink")]),
            ]
    return colourings


def changes_of(made):
    """The change of each range: a number of `CHANGES`."""
    old, new = (answers.hops for answers in made.sides.values())
    return array.array("B", map(functools.lru_cache(change), old, new))


def change(old, new):
    """The change of an address with these next hops."""
    if new == UNCHANGED:
        return 0
    if old == new:
        return 6
    if new == DISCARD:
        return 4
    if NO_ROUTE in (old, new):
        return 2 if old == NO_ROUTE else 3
    return 5 if old == DISCARD else 1

"""Tests that the curve is continuous, and that people can distinguish the colours."""
import itertools
import math
import re

from map.tests.pages import BY_ROUTE, PageCase
from map.yarib_map import chart

# the numbers of the /8s in the top row of the well-known maps
TOP_ROW = (0, 1, 14, 15, 16, 19, 20, 21, 234, 235, 236, 239, 240, 241, 254, 255)
CELLS = 65536
# contrasts that WCAG 2.1 wants of text (1.4.3) and of parts of a picture (1.4.11)
OF_TEXT, OF_PARTS = 4.5, 3
OKABE_ITO = ["#e69f00", "#56b4e9", "#009e73", "#f0e442", "#0072b2", "#d55e00", "#cc79a7", "#000000"]
# what people without long, middle or short cones see (Machado, Oliveira and Fernandes 2009), in linear RGB
SIGHTS = {
    "all cones": ((1, 0, 0), (0, 1, 0), (0, 0, 1)),
    "no long cones": ((0.152286, 1.052583, -0.204868), (0.114503, 0.786281, 0.099216), (-0.003882, -0.048116, 1.051998)),
    "no middle cones": ((0.367322, 0.860646, -0.227968), (0.280085, 0.672501, 0.047413), (-0.011820, 0.042940, 0.968881)),
    "no short cones": ((1.255528, -0.076749, -0.178779), (-0.078411, 0.930809, 0.147602), (0.004733, 0.691367, 0.303900)),
}


def cells_of(ways):
    """Returns the cells to which a curve of these ways comes, in order."""
    def through(column, row, width, way):
        if width == 1:
            yield column, row
            return
        for right, down, next_way in ways[way]:
            yield from through(column + right * width // 2, row + down * width // 2, width // 2, next_way)

    return list(through(0, 0, 256, 0))


def linear(colour):
    """Returns the parts of a colour that light adds up by."""
    parts = [int(colour[at : at + 2], 16) / 255 for at in (1, 3, 5)]
    return [part / 12.92 if part <= 0.04045 else ((part + 0.055) / 1.055) ** 2.4 for part in parts]


def contrast(one, other):
    """Returns the contrast of two colours, by WCAG 2.1."""
    less, more = sorted(sum(map(math.prod, zip((0.2126, 0.7152, 0.0722), linear(colour)))) for colour in (one, other))
    return (more + 0.05) / (less + 0.05)


def seen(colour, sight):
    """Returns a colour as it is perceived, in Oklab (Ottosson 2020), whose distances are perceived differences."""
    def times(matrix, parts):
        return [sum(map(math.prod, zip(row, parts))) for row in matrix]

    parts = [min(max(part, 0), 1) for part in times(SIGHTS[sight], linear(colour))]
    cones = times(((0.4122214708, 0.5363325363, 0.0514459929), (0.2119034982, 0.6806995451, 0.1073969566),
                   (0.0883024619, 0.2817188376, 0.6299787005)), parts)
    return times(((0.2104542553, 0.7936177850, -0.0040720468), (1.9779984951, -2.4285922050, 0.4505937099),
                  (0.0259040371, 0.7827717662, -0.8086757660)), [cone ** (1 / 3) for cone in cones])


def closest(colours):
    """Returns the lowest distance of two of the colours for any sight, and which they are."""
    return min((math.dist(seen(one, sight), seen(other, sight)), one, other, sight)
               for one, other in itertools.combinations(colours, 2) for sight in SIGHTS)


def schemes_of(page):
    """Returns the colours of a page, by name: those of the light scheme and of the dark one."""
    return [dict(re.findall(r"--(\w+): (#\w{6});", root)) for root in re.findall(r":root \{ (.*?) \}", page.text)]


class Curve(PageCase):
    """The curve that a page holds: it comes to each cell once, from a neighbour, and stays in a square for each /8."""

    def setUp(self):
        self.cells = cells_of(self.page_of("diff-to-map", BY_ROUTE).about["ways"])

    def test_each_cell_once(self):
        self.assertEqual(len(set(self.cells)), CELLS)
        self.assertEqual([chart.place(number, 8) for number in range(CELLS)], self.cells)

    def test_each_cell_from_a_neighbour(self):
        jumps = [(one, other) for one, other in itertools.pairwise(self.cells)
                 if abs(one[0] - other[0]) + abs(one[1] - other[1]) != 1]
        self.count(len(self.cells) - 1)
        self.assertEqual(jumps, [])

    def test_prefixes_are_squares(self):
        for length in (2, 4, 6, 8, 10, 12, 14):
            with self.subTest(f"the /{length}s"):
                count, others = CELLS >> length, []
                width = math.isqrt(count) - 1
                for first in range(0, CELLS, count):
                    columns, rows = zip(*self.cells[first : first + count])
                    if (max(columns) - min(columns), max(rows) - min(rows)) != (width, width):
                        others.append(first // count)
                self.count(1 << length)
                self.assertEqual(others, [])

    def test_top_row(self):
        top = [self.cells.index((16 * block, 0)) // 256 for block in range(16)]
        self.assertEqual(tuple(top), TOP_ROW)


class Colours(PageCase):
    """The colours of both schemes."""

    def setUp(self):
        self.page = self.page_of("diff-to-map", BY_ROUTE)
        self.schemes = dict(zip(("light", "dark"), schemes_of(self.page), strict=True))

    def kinds_and_lengths(self, scheme):
        """Returns the colours of kinds of things, and those of lengths."""
        return [[scheme[name] for name in scheme if re.fullmatch(rf"{kind}\d", name)] for kind in ("kind", "length")]

    def test_the_reader_chooses_the_scheme(self):
        self.assertRegex(self.page.text, r"@media \(prefers-color-scheme: dark\) \{ :root")

    def test_numbers_of_colours(self):
        for name, scheme in self.schemes.items():
            with self.subTest(name):
                self.assertEqual([len(colours) for colours in self.kinds_and_lengths(scheme)], [6, 6])

    def test_contrasts(self):
        for name, scheme in self.schemes.items():
            kinds, lengths = self.kinds_and_lengths(scheme)
            with self.subTest(f"parts of a picture, {name}"):
                for colour in (*kinds, *lengths, scheme["rest"], scheme["ink"]):
                    self.assertGreaterEqual(contrast(colour, scheme["ground"]), OF_PARTS, f"{colour} on the ground")
            with self.subTest(f"texts, {name}"):
                for text, behind in (("ink", "page"), ("quiet", "page"), ("ink", "ground")):
                    self.assertGreaterEqual(contrast(scheme[text], scheme[behind]), OF_TEXT, f"{text} on {behind}")

    def test_neighbouring_colours(self):
        """They can be distinguished, by all, at least as well as the closest two of Okabe and Ito's."""
        least, *_ = closest(OKABE_ITO)
        for name, scheme in self.schemes.items():
            kinds, lengths = self.kinds_and_lengths(scheme)
            for what, colours in (("kinds", (*kinds, scheme["rest"], scheme["ink"])), ("lengths", (*lengths, scheme["ink"]))):
                with self.subTest(f"{what}, {name}"):
                    distance, *pair = closest(colours)
                    self.assertGreaterEqual(distance, least, pair)

"""Tests that a page answers each address as `yarib lookup` does, and colours it accordingly."""
import collections
import itertools
import pathlib

from map.tests.answers import COLOURS, COMPARISONS, TABLES, AnswerCase, files_of, yarib
from map.tests.pages import END, text_of

NEEDS = {"program"}
# Of differences at many addresses the first are shown.
MOST_SHOWN = 5


class Answers(AnswerCase):
    """The answers and the colours of pages."""

    def assert_page(self, page, begin, expected):
        """Fails unless the page has the expected answer and colours of each address; an answer changes only at addresses of
        `begin`."""
        self.assertEqual(set(page.firsts) - begin, set())
        self.assert_answers(page, expected)
        self.assert_colours(page, expected)
        ends = sorted(begin | {END})
        sizes = [(expected[first][1], end - first) for first, end in itertools.pairwise(ends)]
        for one in page.about["colourings"]:
            totals = collections.Counter()
            for colours, size in sizes:
                totals[colours[one["name"]]] += size
            self.assert_legend(one, totals)

    def assert_answers(self, page, expected):
        sides = [""] if page.about["kind"] == "table" else ["old ", "new "]
        others = []
        for address, (answer, _) in expected.items():
            number = page.range_of(address)
            # both answers of an unchanged range are the same word
            found = " -> ".join(dict.fromkeys([page.answer(side, number) for side in sides]))
            if found != answer:
                others.append((text_of(address), found, answer))
        self.count(len(expected))
        self.assertEqual(others[:MOST_SHOWN], [])

    def assert_colours(self, page, expected):
        legends = {one["name"]: {text for text, *_ in one["legend"]} for one in page.about["colourings"]}
        others = []
        for address, (_, colours) in expected.items():
            for name, text in page.colours(page.range_of(address)).items():
                if text != colours[name] and (colours[name] in legends[name] or " further " not in text):
                    others.append((name, text_of(address), text, colours[name]))
        self.count(len(expected) * len(legends))
        self.assertEqual(others[:MOST_SHOWN], [])

    def assert_legend(self, colouring, totals):
        """Fails unless a legend counts the addresses of each text. The addresses of a text that isn't in the legend are
        counted with others, and none of them has more than a text that is in it. This happens only if all colours are
        used."""
        name, legend = colouring["name"], colouring["legend"]
        left = {text: count for text, count in totals.items() if text not in {text for text, *_ in legend}}
        own, colours = [], [colour for _, colour, _ in legend]
        self.assertEqual(len(set(colours)), len(colours), name)
        for text, colour, count in legend:
            others = " further " in text
            self.assertEqual(count, sum(left.values()) if others else totals[text], f"{name}: {text}")
            if others:
                self.assertEqual(int(text.split()[0]), len(left), f"{name}: {text}")
            elif colour.startswith("kind") and text != "no route":
                own.append(count)
        if left:
            self.assertGreaterEqual(sum(colour.startswith("kind") for colour in colours), COLOURS, name)
            self.assertGreaterEqual(min(own), max(left.values()), name)


def table_test(names):
    return lambda self: self.assert_page(*self.table(files_of(names)))


def comparison_test(old, new, by):
    return lambda self: self.assert_page(*self.comparison(files_of(old), files_of(new), by))


for name, names in TABLES.items():
    setattr(Answers, f"test_table_of_{name.replace(' ', '_')}", table_test(names))
for name, (old, new) in COMPARISONS.items():
    for by in ("hop", "route"):
        setattr(Answers, f"test_comparison_of_{name.replace(' ', '_')}_by_{by}", comparison_test(old, new, by))


def names_of(files):
    return [pathlib.Path(file).name.removesuffix(".feed") for file in files]


class Forms(AnswerCase):
    """A page is the same if `yarib` prints objects. With names it has the files' names instead of numbers."""

    def assert_same(self, page, other):
        self.assertEqual((page.held, page.about), (other.held, other.about))

    def assert_forms_of_table(self, files):
        plain, by_json, named, named_json = (
            self.page_of_output("table-to-map", yarib("table", "--best", "--total", *options, *files))
            for options in ((), ("--json",), ("--names",), ("--names", "--json")))
        self.assert_same(by_json, plain)
        self.assert_same(named_json, named)
        self.assertEqual(named.held, plain.held)
        self.assertEqual(named.about["feeds"][1:], names_of(files[int(number) - 1] for number in plain.about["feeds"][1:]))

    def assert_forms_of_comparison(self, old, new):
        for options in ((), ("--by", "route"), ("--names", "--by", "route")):
            words = *options, *old, "--", *new
            plain = self.page_of_output("diff-to-map", yarib("diff", *words))
            self.assert_same(self.page_of_output("diff-to-map", yarib("diff", "--json", *words)), plain)
        self.assertEqual(set(plain.about["feeds"][1:]) - set(names_of((*old, *new))), set())

    def test_table_of_examples(self):
        self.assert_forms_of_table(files_of(TABLES["three files"]))

    def test_table_of_random_routes(self):
        self.assert_forms_of_table(files_of(TABLES["random routes"]))

    def test_comparison_of_examples(self):
        self.assert_forms_of_comparison(*map(files_of, COMPARISONS["a file more"]))

    def test_comparison_of_random_routes(self):
        self.assert_forms_of_comparison(*map(files_of, COMPARISONS["random routes"]))

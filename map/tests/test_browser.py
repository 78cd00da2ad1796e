"""Tests that a browser that opens a page draws and shows what `yarib lookup` answers. A script that is added at the end of a
copy of the page looks at it, and writes what it finds into the page."""
import bisect
import html
import itertools
import json
import random
import re
import shutil
import unittest

from map.tests.answers import COMPARISONS, DENSE, TABLES, AnswerCase, files_of
from map.tests.pages import END, row, text_of
from map.tests.test_colours import schemes_of
from map.yarib_map import chart

NEEDS = {"program"}
BROWSERS = ("chromium", "chromium-browser", "google-chrome")
BROWSER = next(filter(None, map(shutil.which, BROWSERS)), None)
# the number of cells that are checked in each view
CELLS_ASKED = 150
MOST_NAMED = 12
# Reads in each view, for each colouring, the colour of each of the checked dots, also if only the legend's last line is
# shown. For the cell of each dot it reads the text with the pointer on it, and the view after a click on it. Labels and
# lines would cover the dots.
ASKING = """
<pre id="found"></pre>
<script>
begun.then(async () => {
  element("labels").checked = false;
  const found = [], paper = element("paper").getContext("2d"), goes = go, box = element("paper").getBoundingClientRect();
  // a browser goes to so many places at once no more
  let asked = "";
  go = (place) => (asked = place);
  for (const { base, length, side, places } of ASKED) {
    Object.assign(shown, { base, length });
    const colours = about.colourings.map((_, colouring) => {
      shown.colouring = colouring;
      return [-1, about.colourings[colouring].legend.length - 1].map((only) => {
        shown.only = only;
        draw();
        return places.map((place) => {
          const [x, y] = place.map((part) => ((part + 0.5) * PIXELS) / side);
          const [red, green, blue] = paper.getImageData(x, y, 1, 1).data;
          return "#" + (2 ** 24 + red * 65536 + green * 256 + blue).toString(16).slice(1);
        });
      });
    });
    shown.only = -1;
    const pointed = places.map((place) => {
      // the middle of the cell
      const [x, y] = place.map((part) => ((Math.floor((part * SIDE) / side) + 0.5) * box.width) / SIDE);
      const where = { clientX: box.left + x, clientY: box.top + y, pointerType: "mouse" };
      element("paper").dispatchEvent(new PointerEvent("pointermove", where));
      element("paper").dispatchEvent(new PointerEvent("click", where));
      return [element("range").textContent, [...element("answers").children].map((one) => one.textContent), asked];
    });
    goes(asked);
    found.push({ colours, pointed, hash: location.hash });
  }
  element("found").textContent = JSON.stringify(found);
});
</script>
"""
# Executes steps on a page, each after the one before has finished; records the address, the names, the number of colours
# in use, the view, and the counts of the legend after each.
DOING = """
<pre id="found"></pre>
<script>
function press(key) {
  element("paper").dispatchEvent(new KeyboardEvent("keydown", { key }));
}
function ask(text) {
  element("wanted").value = text;
  element("find").requestSubmit();
}
function alone(one) {
  element("legend").children[one].firstChild.click();
}
function by(number) {
  element("colourings").querySelectorAll("input")[number].click();
}
begun.then(async () => {
  const found = [];
  for (const step of STEPS) {
    step();
    await new Promise((done) => setTimeout(done, 100));
    const counts = [...document.querySelectorAll("#legend .share")].map((one) => one.textContent.split(" ")[0]);
    const view = `${dotted(shown.base)}/${shown.length}`;
    found.push([location.hash, element("range").textContent, new Set(colours()).size, view, counts.join(" ")]);
  }
  element("found").textContent = JSON.stringify(found);
});
</script>
"""
STEPS_OF = """10.0.0.0-10.0.255.255 via 192.0.2.1 -> via 192.0.2.2
10.2.0.0-10.8.255.255 no route -> via 192.0.2.2
10.10.0.0-10.255.255.255 via 192.0.2.1 -> no route
"""
# Steps on the page of that comparison, and the results that are expected then.
STEPS = [
    ('element("previous").click()', "", "", 4),
    ('element("next").click()', "#10.0.0.0", "10.0.0.0", 4),
    ('element("next").click()', "#10.2.0.0", "10.2.0.0", 4),
    ('element("next").click()', "#10.10.0.0", "10.10.0.0", 4),
    ('element("next").click()', "#10.10.0.0", "10.10.0.0", 4),
    ('element("previous").click()', "#10.2.0.0", "10.2.0.0", 4),
    ('press("ArrowRight")', "#10.2.0.0", "10.2.0.3", 4),
    ('press("ArrowLeft")', "#10.2.0.0", "10.2.0.0", 4),
    ('press("ArrowLeft")', "#10.2.0.0", "10.2.0.0", 4),
    ('press("ArrowDown")', "#10.2.0.0", "10.2.0.1", 4),
    ('press("Enter")', "#10.2.0.1", "10.2.0.1", 4),
    ('press("Escape")', "#10.0.0.0/8", "", 4),
    ('press("Escape")', "#0.0.0.0/0", "", 4),
    ('press("Escape")', "#0.0.0.0/0", "", 4),
    ('ask("10.1.2.3")', "#10.1.2.3", "10.1.2.3", 4),
    ('ask("10.1.2.256")', "#10.1.2.3", "10.1.2.3", 4),
    ('ask("10.1.2.3/33")', "#10.1.2.3", "10.1.2.3", 4),
    ('ask(" 10.16.0.0/12 ")', "#10.16.0.0/12", "10.16.0.0/24", 4),
    ('press("Enter")', "#10.16.0.0/24", "10.16.0.0", 4),
    ('location.hash = "nowhere"', "#nowhere", "", 4),
    ("alone(1)", "#nowhere", "", 2),
    ("alone(2)", "#nowhere", "", 2),
    ("alone(2)", "#nowhere", "", 4),
    ("alone(3)", "#nowhere", "", 2),
    ("by(1)", "#nowhere", "", 3),
    ("alone(1)", "#nowhere", "", 2),
    ("by(2)", "#nowhere", "", 3),
]
# Steps on the same page that lead only to ranges of the legend's only shown line, and the counts of the view.
FILTER_STEPS = [
    ("0", "", "", 4, "10.0.0.0/8", "131,072 65,536 458,752 16,121,856"),
    ('ask("0.0.0.0/0")', "#0.0.0.0/0", "", 4, "0.0.0.0/0", "4,278,321,152 65,536 458,752 16,121,856"),
    ('ask("10.2.0.0/16")', "#10.2.0.0/16", "", 4, "10.2.0.0/16", "0 0 65,536 0"),
    ('ask("10.10.0.0")', "#10.10.0.0", "10.10.0.0", 4, "10.10.0.0/16", "0 0 0 65,536"),
    ("alone(1)", "#10.10.0.0", "10.10.0.0", 2),
    ('element("previous").click()', "#10.0.0.0", "10.0.0.0", 2),
    ('element("next").click()', "#10.0.0.0", "10.0.0.0", 2),
    ("alone(3)", "#10.0.0.0", "10.0.0.0", 2),
    ('element("next").click()', "#10.10.0.0", "10.10.0.0", 2),
    ("alone(3)", "#10.10.0.0", "10.10.0.0", 4),
    ('element("previous").click()', "#10.2.0.0", "10.2.0.0", 4),
    ("by(1)", "#10.2.0.0", "10.2.0.0", 3),
    # the new next hop of the first two ranges
    ("alone(2)", "#10.2.0.0", "10.2.0.0", 2),
    ('element("next").click()', "#10.2.0.0", "10.2.0.0", 2),
    ('element("previous").click()', "#10.0.0.0", "10.0.0.0", 2),
]
# Tables, and the view that the page opens with.
HOMES = [
    ("", "0.0.0.0/0"),
    ("10.1.2.3/32", "10.1.0.0/16"),
    ("10.1.0.0/16", "10.1.0.0/16"),
    ("10.1.2.0/24 10.1.255.0/24", "10.1.0.0/16"),
    ("10.1.2.0/24 10.2.0.0/24", "10.0.0.0/8"),
    ("10.0.0.0/8", "10.0.0.0/8"),
    ("10.0.0.0/8 11.0.0.0/32", "0.0.0.0/0"),
    ("0.0.0.0/0 10.1.0.0/16", "0.0.0.0/0"),
    ("255.255.255.255/32", "255.255.0.0/16"),
]


def views(page, expected):
    """Yields the views to be compared, with some of their dots: those where an answer begins or ends, the last, and random
    ones."""
    draw = random.Random(61)
    begins = [address for address in expected if page.firsts[page.range_of(address)] == address]
    bases = {(0, 0)} | {(draw.choice(begins) >> 32 - length << 32 - length, length) for length in (8, 16) for _ in range(3)}
    for base, length in sorted(bases):
        order = min(page.about["order"], (32 - length) // 2)
        size = 1 << 32 - length - 2 * order
        within = [(address - base) // size for address in begins if base <= address < base + (1 << 32 - length)]
        dots = set(draw.sample(within, min(len(within), CELLS_ASKED)))
        dots |= {draw.randrange(4**order) for _ in range(CELLS_ASKED)}
        dots.add(4**order - 1)
        if base <= DENSE < base + (1 << 32 - length):
            dots.add((DENSE - base) // size)
        # the positions of the dots in the view, from their positions among all addresses
        side, whole = 2**order, length // 2 + order
        places = [[part % side for part in chart.place((base + dot * size) // size, whole)] for dot in sorted(dots)]
        yield {"base": base, "length": length, "size": size, "side": side, "dots": sorted(dots), "places": places}


class Ranges:
    """The expected answers of all addresses: for each of these addresses the answer and the colours, which hold up to the
    next."""

    def __init__(self, expected):
        self.addresses = sorted(expected)
        self.expected = [expected[address] for address in self.addresses]

    def parts(self, first, last):
        """Yields the ranges within these addresses with a single text, each with that text."""
        at = bisect.bisect(self.addresses, first) - 1
        while first <= last:
            behind = self.addresses[at + 1] if at + 1 < len(self.addresses) else END
            yield first, min(behind - 1, last), self.expected[at]
            first, at = behind, at + 1


# for a comparison, the strength of a cell's colour by the highest share of its addresses that change
SHARES = ((1 / 16, 0.4), (1 / 4, 0.6), (3 / 4, 0.8), (1, 1))


def mixed(scheme, colour, share, is_table):
    """Returns a colour mixed with the ground's: for a comparison by the share of the addresses that change."""
    strength = 1 if is_table else next(strength for most, strength in SHARES if share <= most)
    parts = zip(*([int(scheme[name][at : at + 2], 16) for at in (1, 3, 5)] for name in ("ground", colour)))
    return "#" + "".join(f"{int(ground + (own - ground) * strength + 0.5):02x}" for ground, own in parts)


def expected_colours(scheme, colouring, ranges, first, last, is_table):
    """Returns the commonest colour of addresses but for the ground's, or the first in the legend of several such
    colours. Then the colour if only the legend's last line is shown: that one, if any address has it."""
    legend = colouring["legend"]
    texts = {text: number for number, (text, *_) in enumerate(legend)}
    counts = [0] * (len(texts) + 1)
    for begin, end, (_, colours) in ranges.parts(first, last):
        counts[texts.get(colours[colouring["name"]], len(texts) - 1)] += end + 1 - begin
    most = max(range(1, len(counts)), key=lambda number: counts[number])
    alone, size = len(legend) - 1, last + 1 - first
    shares = (size - counts[0]) / size, counts[alone] / size
    return [mixed(scheme, legend[number if counts[number] else 0][1], share, is_table)
            for number, share in zip((most, alone), shares)]


def expected_words(ranges, first, size, length):
    """Returns the name of a cell, and the answers that are shown of it."""
    last, lines = first + size - 1, []
    # neighbours with the same text are a single range of a comparison, and of a table if a single route is the answer
    for answer, found in itertools.groupby(ranges.parts(first, last), key=lambda part: part[2][0]):
        found = list(found)
        lines.append((f"{text_of(found[0][0])}-{text_of(found[-1][1])} " if size > 1 else "") + answer)
    more = len(lines) - MOST_NAMED
    if more > 0:
        lines[MOST_NAMED:] = [f"and {more:,} more range{'s' if more > 1 else ''}"]
    return [f"{text_of(first)}/{length}" if size > 1 else text_of(first), lines]


@unittest.skipUnless(BROWSER, f"none of {', '.join(BROWSERS)} on PATH")
class Browser(AnswerCase):
    """What a browser draws of pages and shows on them."""

    def found_by_browser(self, page, script, is_dark=False):
        """Returns the results of a script at the end of the page."""
        self.write({"page.html": page.text.replace("</body>", script + "</body>")})
        scheme = f"--blink-settings=preferredColorScheme={0 if is_dark else 1}"
        ended = self.call(BROWSER, "--headless", "--no-sandbox", "--disable-gpu", scheme, "--virtual-time-budget=60000",
                          "--window-size=1600,1200", "--dump-dom", (self.folder / "page.html").as_uri(), timeout=300)
        found = re.search(r'<pre id="found">(.*?)</pre>', ended.stdout, re.S)
        self.assertTrue(found and found[1], f"{BROWSER} shows no answer: {ended.stdout[-500:]} {ended.stderr[-500:]}")
        return json.loads(html.unescape(found[1]))

    def assert_steps(self, steps):
        """Fails unless buttons, keys and queries lead to the right view."""
        functions = ", ".join(f"() => {{ {step}; }}" for step, *_ in steps)
        page = self.page_of("diff-to-map", STEPS_OF)
        done = self.found_by_browser(page, DOING.replace("STEPS", f"[{functions}]"))
        for number, ((step, *wanted), found) in enumerate(zip(steps, done, strict=True), 1):
            with self.subTest(f"step {number}: {step}"):
                self.assertEqual(found[: len(wanted)], wanted)

    def test_steps(self):
        self.assert_steps(STEPS)

    def test_steps_within_a_line_of_the_legend(self):
        self.assert_steps(FILTER_STEPS)

    def test_homes(self):
        """A page opens where the routes are."""
        for prefixes, view in HOMES:
            with self.subTest(prefixes or "no route"):
                table = "".join(map(row, prefixes.split()))
                page = self.page_of_output("table-to-map", table)
                (*_, found, _), = self.found_by_browser(page, DOING.replace("STEPS", "[() => {}]"))
                self.assertEqual(found, view)

    def assert_shown(self, page, _, expected, is_dark):
        """Fails unless the browser draws and shows what is expected of each address."""
        asking, ranges = list(views(page, expected)), Ranges(expected)
        scheme = schemes_of(page)[is_dark]
        script = ASKING.replace("ASKED", json.dumps(asking))
        for view, found in zip(asking, self.found_by_browser(page, script, is_dark), strict=True):
            with self.subTest(f"the view of {text_of(view['base'])}/{view['length']}"):
                self.assert_view(page, scheme, ranges, view, found)
                self.assertEqual(found["hash"], f"#{found['pointed'][-1][-1]}")

    def assert_view(self, page, scheme, ranges, view, found):
        """Fails unless the dots of a view have their colours, and their cells their words and the target of a click."""
        base, length, size = view["base"], view["length"], view["size"]
        cell, is_table = 1 << 16 - length, page.about["kind"] == "table"
        for number, dot in enumerate(view["dots"]):
            first = base + dot * size
            for colouring, colours in zip(page.about["colourings"], found["colours"], strict=True):
                self.assertEqual([shown[number] for shown in colours],
                                 expected_colours(scheme, colouring, ranges, first, first + size - 1, is_table),
                                 f"dot {dot} by {colouring['name']}")
            begin = first - first % cell
            target = text_of(begin) + (f"/{length + 16}" if length < 16 else "")
            self.assertEqual(found["pointed"][number], [*expected_words(ranges, begin, cell, length + 16), target], f"dot {dot}")


def table_test(names, is_dark):
    return lambda self: self.assert_shown(*self.table(files_of(names)), is_dark)


def comparison_test(old, new, by, is_dark):
    return lambda self: self.assert_shown(*self.comparison(files_of(old), files_of(new), by), is_dark)


for is_dark, scheme in enumerate(("light", "dark")):
    for name in ("three files", "random routes"):
        setattr(Browser, f"test_table_of_{name.replace(' ', '_')}_{scheme}", table_test(TABLES[name], bool(is_dark)))
    for by, name in itertools.product(("hop", "route"), ("a file more", "random routes")):
        setattr(Browser, f"test_comparison_of_{name.replace(' ', '_')}_by_{by}_{scheme}",
                comparison_test(*COMPARISONS[name], by, bool(is_dark)))

#!/usr/bin/env python3
"""Draws what the benches measured, out of bench/figures/.

It writes time_by_prefixes.svg, time_by_feeds.svg, time_beside_others.svg, time_by_processors.svg, lock_by_threads.svg and
trie_by_size.svg into docs/pictures/. Each axis begins at zero, but for the lower ones, which have one place for each number that was measured.
"""
import argparse
import html
import math
import pathlib
import statistics
import sys

sys.path[0] = str(pathlib.Path(__file__).resolve().parents[1])
from bench import results
from dev.crates import TOP

FOLDER = TOP / "docs/pictures"
INK, QUIET, BLUE, GREEN, ORANGE = "#222", "#777", "#1f5fa8", "#1a7f37", "#b3541e"
# The width of a panel, by the number of panels in a figure.
WIDTHS = {1: 560, 2: 300, 3: 260, 4: 230}
HEIGHT, LEFT, ABOVE, GAP = 220, 70, 70, 70
SVG = f"""<svg xmlns="http://www.w3.org/2000/svg" width="{{width}}" height="{{height}}" \
viewBox="0 0 {{width}} {{height}}" font-family="Helvetica, Arial, sans-serif">
<title>{{title}}</title>
<defs><marker id="arrow" viewBox="0 0 8 8" refX="8" refY="4" markerWidth="7" markerHeight="7" \
orient="auto"><path d="M0 0 L8 4 L0 8 z" fill="{QUIET}"/></marker></defs>
<rect width="{{width}}" height="{{height}}" fill="#ffffff"/>
{{shapes}}
</svg>
"""
PROGRAM = [("plain Rust", ORANGE, True), ("yarib, batch 1", QUIET, False), ("batch 16", GREEN, False),
           ("batch 256", BLUE, False)]
QUERIES = [("table --best", BLUE, False), ("lookup", GREEN, False), ("diff without a peer", ORANGE, False),
           ("diff of two tables", QUIET, False)]


def top_of(most):
    """The lowest of 1, 2, 2.5, 4, 5, 8 and 10 times a power of ten that isn't below `most`, and its number of parts."""
    power = 10.0 ** (math.ceil(math.log10(most)) - 1)
    steps = ((1, 5), (2, 4), (2.5, 5), (4, 4), (5, 5), (8, 4), (10, 5))
    return next((factor * power, parts) for factor, parts in steps if factor * power >= most)


def text(x, y, words, anchor="middle", size=13, fill=INK, weight="normal"):
    return (f'<text x="{x:g}" y="{y:g}" text-anchor="{anchor}" font-size="{size}" fill="{fill}" '
            f'font-weight="{weight}">{html.escape(words)}</text>')


def path(points, stroke, dash):
    """The shapes of one line through the points, with a dot at each."""
    dashed = ' stroke-dasharray="6 4"' if dash else ""
    joined = " ".join(f"{x:g},{y:g}" for x, y in points)
    return [f'<polyline points="{joined}" fill="none" stroke="{stroke}" stroke-width="2"{dashed}/>',
            *(f'<circle cx="{x:g}" cy="{y:g}" r="3" fill="{stroke}"/>' for x, y in points)]


def panel(left, width, title, below, kinds, lines, most):
    """The shapes of one pair of axes: a place below for each number, and lines over them."""
    numbers = sorted({number for line in lines for number, _ in line})
    top, parts = top_of(most)
    place = lambda number: round(left + width * (numbers.index(number) + 0.5) / len(numbers), 1)
    height = lambda value: round(ABOVE + HEIGHT * (1 - value / top), 1)
    shapes = [text(left + width / 2, ABOVE - 14, title, weight="bold")]
    for value in (top * part / parts for part in range(parts + 1)):
        y, stroke = height(value), "#ddd" if value else QUIET
        shapes += [f'<line x1="{left:g}" y1="{y:g}" x2="{left + width:g}" y2="{y:g}" stroke="{stroke}" stroke-width="1"/>',
                   text(left - 8, y + 4, f"{value:,g}", "end", 12, QUIET)]
    shapes += [text(place(number), ABOVE + HEIGHT + 18, f"{number:,}", size=12, fill=QUIET) for number in numbers]
    shapes.append(text(left + width / 2, ABOVE + HEIGHT + 38, below, size=12))
    for (_, colour, dash), line in zip(kinds, lines):
        shapes += path([(place(number), height(value)) for number, value in line], colour, dash)
    return shapes


def chart(figures, title, unit, below, kinds, panels_of):
    """A picture of figures with a panel for each title, with lines of these kinds (name, colour, whether dashed), each panel
    to the same scale. A panel is the values of each kind: pairs of a number below and a measure."""
    kept = results.kept(figures)
    panels = panels_of(kept["rows"])
    width = WIDTHS[len(panels)]
    shapes = [text(LEFT, 24, f"{title} ({unit})", "start", 15, weight="bold")]
    most = max(value for _, lines in panels for line in lines for _, value in line)
    for column, (name, lines) in enumerate(panels):
        shapes += panel(LEFT + column * (width + GAP), width, name, below, kinds, lines, most)
    x = LEFT
    for name, colour, dash in kinds:
        shapes += path([(x, ABOVE + HEIGHT + 62), (x + 28, ABOVE + HEIGHT + 62)], colour, dash)
        shapes.append(text(x + 36, ABOVE + HEIGHT + 66, name, "start", 12))
        x += 60 + 7 * len(name)
    about = f"{kept['machine']}{results.MEMORY[kept.get('memory')]}; {kept['made']}"
    shapes.append(text(LEFT, ABOVE + HEIGHT + 90, about, "start", 11, QUIET))
    return SVG.format(width=LEFT + len(panels) * (width + GAP) - GAP + 30, height=ABOVE + HEIGHT + 100,
                      title=html.escape(title), shapes="\n".join(shapes))


def program_lines(rows, number):
    """The lines of the program's kinds: microseconds for each line of text, by this number. The plain program executes
    one command at a time; the minimum of its three times is used."""
    numbers = sorted({row[number] for row in rows})
    of = {(row[number], row["batch"]): [time * 1000 / row["lines"] for time in row["clock"]] for row in rows}
    plain = [(each, min(of[each, batch][1] for batch in (1, 16, 256))) for each in numbers]
    return [plain] + [[(each, of[each, batch][0]) for each in numbers] for batch in (1, 16, 256)]


def feed_panels(rows):
    return [(f"{some} processor{'s' if some > 1 else ''}", program_lines([row for row in rows if row["on"] == some], "files"))
            for some in sorted({row["on"] for row in rows})]


def busy_panels(rows):
    return [(title, busy_lines([row for row in rows if bool(row["others"]) == busy]))
            for title, busy in (("nothing else on the machine", False), ("with busy processes", True))]


def busy_lines(rows):
    """Microseconds a line of the plain program and of both batches, by the number of files: the middle of the rounds.
    What one file takes is the middle over the cases of its batch."""
    plain = statistics.median(row["clock"][2][0] * 1000 / row["lines"] for row in rows)
    lines = [[(files, plain) for files in (1, *sorted({row["files"] for row in rows}))]]
    for batch in (1, 256):
        mine = [row for row in rows if row["batch"] == batch]
        one = statistics.median(row["clock"][1][0] * 1000 / row["lines"] for row in mine)
        lines.append([(1, one)] + [(row["files"], row["clock"][0][0] * 1000 / row["lines"]) for row in mine])
    return lines


def query_panels(rows):
    return [("1,050,000 prefixes each", [[(row["on"], row["clock"][0]) for row in rows if row["query"] == query]
                                         for query, _, _ in QUERIES])]


def lock_panels(rows):
    return [(title, [[(row["threads"], row[measure][kind]) for row in rows if row["levels"] == 6] for kind in range(3)])
            for title, measure in (("wall-clock time", "clock"), ("processor time", "processors"))]


def trie_panels(rows):
    calls = {"insert": "insertion", "longest": "longest match", "together": "64 longest matches", "remove": "removal"}
    return [(title, [[(row["prefixes"], row["clock"][kind]) for row in rows if row["call"] == call] for kind in (0, 1)])
            for call, title in calls.items()]


PICTURES = {
    "time_by_prefixes": ("sizes", "One file, a table that changes", "µs a line", "prefixes", PROGRAM,
                         lambda rows: [("wall-clock time", program_lines(rows, "prefixes"))]),
    "time_by_feeds": ("batches", "Feeds that announce the same 20,000 prefixes", "µs a line, wall-clock time", "feeds",
                      PROGRAM, feed_panels),
    "time_beside_others": ("busy", "The same lines in one file and in several", "µs a line, wall-clock time", "files",
                           [*PROGRAM[:2], PROGRAM[3]], busy_panels),
    "time_by_processors": ("queries", "Queries of 8 full tables in 16 files", "seconds, wall-clock time", "processors",
                           QUERIES, query_panels),
    "lock_by_threads": ("lock", "A passage of six levels, one increment inside", "ns", "threads",
                        [("yarib's lock", BLUE, False), ("the same in C", ORANGE, True), ("std's mutex", QUIET, False)],
                        lock_panels),
    "trie_by_size": ("trie", "The trie", "ns a call, wall-clock time", "prefixes",
                     [("yarib's trie", BLUE, False), ("plain Rust", ORANGE, True)], trie_panels),
}


def main():
    parser = argparse.ArgumentParser(description=__doc__, formatter_class=argparse.RawDescriptionHelpFormatter)
    parser.add_argument("--check", action="store_true", help="write nothing: compare the pictures with what would be written")
    is_check, stale = parser.parse_args().check, []
    for name, picture in PICTURES.items():
        file, drawn = FOLDER / f"{name}.svg", chart(*picture)
        if not is_check:
            file.write_text(drawn)
        elif not file.exists() or file.read_text() != drawn:
            stale.append(file.name)
    if stale:
        sys.exit(f"bench/draw_figures.py: out of date, run bench/draw_figures.py: {', '.join(stale)}")


if __name__ == "__main__":
    main()

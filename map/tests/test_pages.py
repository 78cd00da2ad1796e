"""Tests the scripts and their pages: what a page holds and says of itself, that nothing in it is read as HTML or loaded, and
how a call ends whose input can't be read or whose output can't be written."""
import html.parser
import re
import resource
import sys

from map.tests.pages import BY_ROUTE, MAPS, RANGE, ROW, PageCase, row, script
from map.yarib_map import page

# a name with what a terminal would obey
RAW = "\x1b[2Jx\x85\u202e\n"
HOSTILE = "</title><script>alert('&amp;')</script>\"{{data}} \N{SNOWMAN}"
SIDES = ("next hop", "feed", "length")
# Scripts with what they read, and the title, the kind, the dots in a row and the colourings of the page.
HEADS = {
    "a table": ("table-to-map", ROW + row("10.1.0.0/16", via="192.0.2.2") + row("11.0.0.0/8", via="discard"),
                ("Prefixes of the table: 3", "table", 1024, [*SIDES])),
    "a comparison of next hops": ("diff-to-map", RANGE + "10.0.2.0-10.0.2.9 no route -> discard\n", (
        "Ranges answered otherwise: 2", "comparison", 256, ["change", "new next hop", "old next hop"])),
    "a comparison of routes": ("diff-to-map", BY_ROUTE, (
        "Ranges answered otherwise: 1", "comparison", 256,
        ["change", *(f"{side} {name}" for side in ("new", "old") for name in SIDES)])),
}
PAGES = {"a table": ("table-to-map", ROW), "a comparison of next hops": ("diff-to-map", RANGE),
         "a comparison of routes": ("diff-to-map", BY_ROUTE)}
LOADING = ("link", "img", "iframe", "object", "embed", "base")
FORBIDDEN = ("://", "url(", "@import", "import(", "fetch(", "innerHTML", "eval(")


class Elements(html.parser.HTMLParser):
    """The elements of a page, and its texts outside of data and scripts."""

    def __init__(self, text):
        super().__init__()
        self.tags, self.ids, self.texts, self.inside = [], [], [], ""
        self.feed(text)
        self.close()

    def handle_starttag(self, tag, attributes):
        self.inside = tag
        self.tags.append((tag, dict(attributes)))
        self.ids += [value for name, value in attributes if name == "id"]

    def handle_data(self, data):
        self.texts.append((self.inside, data))

    def texts_of(self, *tags):
        return [data for tag, data in self.texts if tag in tags]


class Pages(PageCase):
    """What a page holds."""

    def test_heads(self):
        """Without a title a page has the number of the rows; first comes how the map is coloured at first."""
        for name, (command, text, wanted) in HEADS.items():
            with self.subTest(name):
                found = self.page_of(command, text)
                names = [colouring["name"] for colouring in found.about["colourings"]]
                self.assertEqual((found.title, found.about["kind"], 1 << found.about["order"], names), wanted)

    def assert_whole(self, text):
        """Fails unless the page names nothing that isn't in it, and its script no element that isn't there."""
        elements = Elements(text)
        named = set(re.findall(r'element\("(\w+)"\)', text[text.rindex("<script>") :]))
        self.assertEqual(named - set(elements.ids), set())
        self.assertEqual(len(elements.ids), len(set(elements.ids)))
        self.assertEqual([(tag, attributes) for tag, attributes in elements.tags
                          if tag in LOADING or {"src", "href", "action", "onload"} & set(attributes)], [])
        self.assertEqual([word for word in FORBIDDEN if word in text], [])
        self.assertIn("content=\"default-src 'none';", text)

    def test_elements(self):
        for name, (command, text) in PAGES.items():
            with self.subTest(name):
                self.assert_whole(self.page_of(command, text).text)

    def test_title_is_text(self):
        self.assertNotIn("<", page.for_script(HOSTILE))
        plain, hostile = (self.page_of("table-to-map", ROW, "--title", title) for title in ("plain", HOSTILE))
        self.assertEqual(hostile.title, HOSTILE)
        self.assertEqual([tag for tag, _ in Elements(hostile.text).tags], [tag for tag, _ in Elements(plain.text).tags])
        self.assertEqual(Elements(hostile.text).texts_of("title", "h1").count(HOSTILE), 2)

    def test_title_that_is_no_text(self):
        self.assertEqual(self.page_of("table-to-map", ROW, "--title", b"\xff<").title, "?<")

    def test_origin(self):
        """A page names its time, its script and its source, which is text whatever is in it."""
        self.write({"table.txt": ROW})
        file = self.folder / "table.txt"
        for name, words, origin in (("standard input", (), "standard input"), ("a file", (file,), str(file)),
                                    ("a file and a command", (file, "--command", "yarib x"), "yarib x"),
                                    ("a command", ("--command", "yarib table --best --total a.feed"),
                                     "yarib table --best --total a.feed"),
                                    ("a command with HTML", ("--command", HOSTILE), HOSTILE),
                                    ("a command that a terminal would obey", ("--command", RAW), repr(RAW)[1:-1])):
            with self.subTest(name):
                found = Elements(self.page_of("table-to-map", ROW, *words).text).texts_of("footer")
                self.assertEqual(found[0], f"Made on 2026-11-29 at 10:30 UTC by table-to-map from {origin}.")

    def test_times_that_are_refused(self):
        for name, seconds in (("nothing", ""), ("a letter", "x"), ("an exponent", "1e3"), ("30 digits", "9" * 30)):
            with self.subTest(name):
                ended = script("diff-to-map", input=RANGE, variables={"SOURCE_DATE_EPOCH": seconds})
                self.assert_ended(ended, stderr=None, returncode=1)
                self.assertIn(f"SOURCE_DATE_EPOCH is {seconds!r} instead of a number of seconds", ended.stderr)

    def test_empty_input(self):
        """Of nothing there is a page, on which every address has the one answer."""
        for command, answer, meaning in (("table-to-map", "no route", "no address has a route"),
                                         ("diff-to-map", "unchanged", "every address is answered alike")):
            with self.subTest(command):
                held = self.page_of(command, "", stderr=f"{command}: standard input: no row: {meaning}\n")
                self.assert_whole(held.text)
                self.assertEqual(held.firsts, [0])
                for one in held.about["colourings"]:
                    self.assertEqual(one["legend"][0], [answer, "ground", 1 << 32])
                    self.assertEqual({count for *_, count in one["legend"][1:]} | {0}, {0})


class Calls(PageCase):
    """How a call of a script ends."""

    def assert_called(self, *words, stderr, returncode=1):
        """Fails unless table-to-map ends with this status, writes nothing and has this line on standard error, or these
        words in it if the arguments are wrong."""
        ended = script("table-to-map", *words, input="version 2\n")
        self.assert_ended(ended, stderr=None, returncode=returncode)
        if returncode == 2:
            self.assertIn(stderr, ended.stderr)
        else:
            self.assertEqual(ended.stderr, stderr)

    def test_refused_input(self):
        self.assert_called(stderr="table-to-map: standard input: line 1: 'version' is not a prefix\n")

    def test_refused_file(self):
        self.write({"faulty.txt": ROW + ROW})
        file = self.folder / "faulty.txt"
        self.assert_called(file, stderr=f"table-to-map: {file}: line 2: 10.0.0.0/8 occurs again: "
                                        "`yarib table --best` has one row for each prefix\n")

    def test_missing_file(self):
        file = self.folder / "none.txt"
        self.assert_called(file, stderr=f"table-to-map: {file}: No such file or directory\n")

    def test_missing_file_with_a_name_that_a_terminal_would_obey(self):
        self.assert_called(self.folder / RAW,
                           stderr=f"table-to-map: {self.folder}/{repr(RAW)[1:-1]}: No such file or directory\n")

    def test_directory(self):
        self.assert_called(self.folder, stderr=f"table-to-map: {self.folder}: Is a directory\n")

    def test_unknown_arguments(self):
        for name, words, message in (("an option", ("--titel", "x"), "unrecognized arguments: --titel"),
                                     ("two files", ("one", "two"), "unrecognized arguments: two\n"),
                                     ("a name that a terminal would obey", ("a", RAW),
                                      f"table-to-map: error: unrecognized arguments: {repr(RAW)[1:-1]}\n")):
            with self.subTest(name):
                self.assert_called(*words, stderr=message, returncode=2)

    def test_output_that_cannot_be_written(self):
        for name, output, message in (("a full disk", ">/dev/full", "No space left on device"),
                                      ("a closed output", ">&-", "it is closed")):
            with self.subTest(name):
                ended = self.call("sh", "-c", f'exec "$0" "$1" {output}', sys.executable, MAPS / "table-to-map", input=ROW)
                self.assert_ended(ended, stderr=f"table-to-map: standard output: {message}\n", returncode=1)

    def test_output_that_is_full_in_a_write(self):
        """It ends with status 1, also if Python doesn't buffer its output."""
        limit = lambda: resource.setrlimit(resource.RLIMIT_FSIZE, (10000, 10000))
        for command, text in (("table-to-map", ROW), ("diff-to-map", RANGE)):
            for buffer, unbuffered in (("with a buffer", ""), ("without a buffer", "1")):
                with self.subTest(f"{command} {buffer}"), open(self.folder / "full", "w") as full:
                    ended = script(command, input=text, stdout=full, preexec_fn=limit, variables={"PYTHONUNBUFFERED": unbuffered})
                    self.assert_ended(ended, stderr=f"{command}: standard output: File too large\n", returncode=1)

    def test_help(self):
        for command, call in (("diff-to-map", "yarib diff OLD.. -- NEW.. | diff-to-map > map.html"),
                              ("table-to-map", "yarib table --best --total FILE.. | table-to-map > map.html")):
            with self.subTest(command):
                ended = script(command, "--help")
                self.assert_ended(ended, stdout=None)
                self.assertIn(call, ended.stdout)

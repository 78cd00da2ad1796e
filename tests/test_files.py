"""The program's files: names, what can't be read, and reports on standard error."""
from dev.models import calls
from dev.models.table_model import E1, E8, MAX_FEEDS
from tests.cases import ProgramCase, route
from tests.texts import ROW, ROW_OUT

NEEDS = {"program"}

FAULTY = "yarib: {}: faulty lines: {}, the first is line {}: {}\n".format
OVER = "yarib: {}: adds over the limit: {}, the first is line {}\n".format
TWICE = "yarib: {}: duplicate adds: {}, the first is line {}\n".format
GONE = "yarib: {}: replaces and withdraws without a route: {}, the first is line {}\n".format
FOUND = "10.0.0.1 route "


class Names(ProgramCase):
    # Catches a program that names the last unreadable file instead of the first: `run no nor`.
    def test_unreadable_files(self):
        (self.folder / "folder").mkdir()
        for words, file in (
            ("no nor", "no"), ("nor no", "nor"), ("row.feed no nor", "no"), ("faulty.feed no", "no"),
            ("folder", "folder"), ("row.feed folder no", "folder"), ("row.feed/x", "row.feed/x"),
            ("-- --limit", "--limit"),
        ):
            self.assert_unreadable(f"run {words}", file)
        for name in ("", "no such file", "né.feed", "x" * 300, "/no/such/file", "-", "it's $HOME",
                     "a missing name\nof two lines", "y" * 5_000):
            self.assert_unreadable(["run", name], name, name=f"the missing file {name[:20]!r}")

    # Catches a program that can't read a file with a name of 300 bytes: the file.
    def test_names(self):
        long, absolute = "d" * 150 + "/" + "f" * 149, str(self.folder / "absolute.feed")
        for name in ("a name.feed", "é.feed", " ", "it's $HOME", "ＡＢＣ", "a name\nof two lines", long, absolute):
            self.write({name: ROW})
            self.assert_prints(["run", name], ROW_OUT, name="an absolute path" if name == absolute else repr(name[:20]))

    def test_names_that_begin_with_a_dash(self):
        for name in ("-", "--", "--limit", "-h"):
            self.write({name: ROW})
            self.assert_prints(["run", "--", name], ROW_OUT)
        self.assert_prints("run -", ROW_OUT, input="frob\n")
        self.assert_prints("run row.feed --", ROW_OUT)
        self.assert_misused("run --", "<FILE>")

    def test_words_that_are_no_text(self):
        for words in ([b"run", b"\xff.feed"], [b"run", b"row.feed", b"\xc3"], [b"\x80"],
                      [b"replay", b"--levels", b"\xf0\x9f"]):
            self.assert_refused(words, "arguments are not UTF-8")


class Reports(ProgramCase):
    """What the program reports of each file on standard error, and the status."""

    # Catches a program that reports an invalid address but not the feed files: `lookup --limit 1 --addresses`.
    # Catches status 0 for an invalid address: `lookup --addresses asked.txt row.feed`.
    def test_feeds_and_addresses(self):
        more = "frob\nadd 11.0.0.0/8 1 192.0.2.1\nadd 12.0.0.0/8 1 192.0.2.1\nlookup 1\n"
        self.write({"three.feed": ROW + more, "asked.txt": "10.0.0.1\n" + "#" * 129 + "\nx\n10.0.0.2\n"})
        answer, both = FOUND + route(1), FOUND + route(1) + "10.0.0.2 route " + route(1)
        faulty, over, asked = FAULTY("three.feed", 2, 2, E1), OVER("three.feed", 2, 3), FAULTY("asked.txt", 2, 2, E8)
        self.assert_prints("lookup --address 10.0.0.1 three.feed", answer, faulty, 2)
        self.assert_prints("lookup --limit 1 --address 10.0.0.1 three.feed", answer, faulty + over, 2)
        self.assert_prints("table --limit 1 three.feed row.feed", route(1) + route(2), faulty + over, 2)
        self.assert_prints("lookup --addresses asked.txt row.feed", both, asked, 2)
        self.assert_prints("lookup --limit 1 --addresses asked.txt three.feed", both, asked + faulty + over, 2)

    # Catches a program that reads the new files first: `diff missing -- nor`.
    # Catches a program that reports the new files first: `diff gone.feed -- faulty.feed`.
    def test_old_files_first(self):
        self.write({"gone.feed": "withdraw 10.0.0.0/8\n"})
        gone, faulty = GONE("gone.feed", 1, 1), FAULTY("faulty.feed", 1, 1, E1)
        self.assert_prints("diff gone.feed -- faulty.feed", "", gone + faulty, 2)
        self.assert_prints("diff faulty.feed -- gone.feed", "", faulty + gone, 2)
        self.assert_unreadable("diff missing -- nor", "missing")
        self.assert_unreadable("diff nor -- missing", "nor")

    # Catches a program that reports nothing from the third file on, of a file given twice, or of its second mention: `a
    # third file and one that is named again`.
    # Catches a program that prints only the last component of a path: `all kinds of one file`.
    # Catches a program that reports a duplicate `add` as one over the limit: `an add of what is there`.
    # Catches a program that reports the last line of a kind, the first line of another kind, or a number that leaves
    # out skipped or faulty lines: `all kinds of one file`.
    # Catches status 0 of `table` if there were only `add`s over the limit: `table --limit 1 over.feed`.
    def test_each_file(self):
        """Each file is reported, by the whole of its name and each time it is given."""
        long = "a folder/deep/kinds.feed"
        self.write({
            long: f"# note\n\n{ROW}{ROW}replace 11.0.0.0/8 1 192.0.2.1\nwithdraw 12.0.0.0/8\nwithdraw 12.0.0.0/8\n"
                  "add 13.0.0.0/8 1 192.0.2.1\nfrob\ndump 1\n",
            "again.feed": ROW + ROW, "gone.feed": "withdraw 10.0.0.0/8\n",
            "over.feed": ROW + "add 11.0.0.0/8 1 192.0.2.1\n",
        })
        kinds = FAULTY(long, 2, 9, E1) + OVER(long, 1, 8) + TWICE(long, 1, 4) + GONE(long, 3, 5)
        again, gone = TWICE("again.feed", 1, 2), GONE("gone.feed", 1, 1)
        table_of = ["table", "--best", "--limit", "1"]
        self.assert_prints([*table_of, long], route(1), kinds, 2, name="all kinds of one file")
        self.assert_prints([*table_of, "again.feed"], route(1), again, name="an add of what is there")
        self.assert_prints([*table_of, "gone.feed"], "", gone, name="a withdrawal of what isn't there")
        self.assert_prints([*table_of, "row.feed", "gone.feed", long, "again.feed", long, "gone.feed"], route(1),
                           gone + kinds + again + kinds + gone, 2, name="a third file and one that is named again")
        self.assert_prints("table --limit 1 over.feed", route(1), OVER("over.feed", 1, 2), 2)
        turns, more = divmod(MAX_FEEDS, 3)
        names = ["again.feed", "gone.feed", "row.feed"] * turns + ["again.feed", "gone.feed"][:more]
        reports = {"again.feed": again, "gone.feed": gone}
        self.assert_prints([*table_of, *names], route(1), "".join(reports.get(name, "") for name in names),
                           name="MAX_FEEDS files, with a report of most")

    # Catches counts of rejected input that stop at 255, 1,000 or 65,535.
    def test_tens_of_thousands_of_each_kind(self):
        self.write({"many.feed": ROW + "frob\n" * 70_001 + "add 11.0.0.0/8 1 192.0.2.1\n" * 70_002 + ROW * 70_003
                    + "withdraw 12.0.0.0/8\n" * 70_004})
        self.assert_prints("table --best --limit 1 many.feed", route(1), FAULTY("many.feed", 70_001, 2, E1)
                           + OVER("many.feed", 70_002, 70_003) + TWICE("many.feed", 70_003, 140_005)
                           + GONE("many.feed", 70_004, 210_008), 2)


class CutFiles(ProgramCase):
    # Catches a program that reports a cut file only if its last line is a command: `table comment.feed`.
    # Catches a program that reports a file that has no line, or one whose last line is empty: `no-line.feed`.
    # Catches a report with a status of its own, or one that replaces that of rejected input: `table faulty-line.feed`.
    def test_calls(self):
        self.assert_calls(calls.CUT_FILES, calls.CUT)

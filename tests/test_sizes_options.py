"""Most options that change what `table`, `lookup` and `diff` print, at, just above and far above sizes at which a
needless refusal would show: the whole output of each call is compared with a plain model. The others are `--total`,
`--prefixes`, `--keep-invalid`, the choice of feeds by `diff`, and `--count` with names or JSON."""
from dev.models.table_model import json_text, members, row
from tests.launching import LaunchedCase, apart, printed, single_routes

NEEDS, PROVED = {"program"}, True
SIZES = (1, 64, 65, 2_001, 2_113, 5_001, 65_537, 300_001)

# The options of calls, and the line that each prints for the route of a place {0}, a single address, in the first file,
# which is named rows.feed.
WHOLE = ("{0}/32", 1, 1, "192.0.2.1")
OBJECT, NAMED_OBJECT = (json_text(members(WHOLE, **names, file="rows.feed")) for names in ({}, {"name": "rows"}))
ROW, NAMED_ROW = row("{0}/32").strip(), row("{0}/32", "rows").strip()
RECORD = "{0}/32,1,rows,rows.feed,1,192.0.2.1,"
OF_TABLE = [*((options, ROW) for options in (
    ["--within", "10.0.0.0/7"], ["--feed", "1"], ["--feed", "1", "--feed", "2"], ["--only", "1"], ["--without", "2"],
    ["--best"], ["--best", "--feed", "1"])),
    (["--csv"], RECORD + "\r"), (["--names"], NAMED_ROW), (["--json"], OBJECT), (["--names", "--json"], NAMED_OBJECT),
    (["--json", "--within", "10.0.0.0/7", "--feed", "1"], OBJECT)]
OF_LOOKUP = [
    *((options, "{0} route " + ROW) for options in ([], ["--all"], ["--only", "1"], ["--without", "2"])),
    *(([*more, "--names"], "{0} route " + NAMED_ROW) for more in ([], ["--all"])),
    (["--csv"], "{0}," + RECORD + "\r"), (["--csv", "--all"], "{0}," + RECORD + ",\r"),
    (["--json"], '{"address":"{0}","route":' + OBJECT + "}"),
    (["--json", "--all", "--names"], '{"address":"{0}","route":' + NAMED_OBJECT + ',"also":[]}')]
OF_DIFF = [
    ([], "{0}-{0} no route -> via 192.0.2.1"),
    (["--by", "route"], "{0}-{0} no route -> " + ROW),
    (["--by", "route", "--names"], "{0}-{0} no route -> " + NAMED_ROW),
    (["--csv"], "{0},{0},,,192.0.2.1,\r"),
    (["--csv", "--by", "route"], "{0},{0},,,,,,,," + RECORD + "\r"),
    (["--json"], '{"first":"{0}","last":"{0}","old":null,"new":{"via":"192.0.2.1"}}'),
    (["--by", "route", "--json"], '{"first":"{0}","last":"{0}","old":null,"new":' + OBJECT + "}")]


# Catches F3 for --within or --feed with over 2,000 rows, or for JSON with over 5,000: `test_2001_rows`, `table --feed
# 1`, and `test_5001_rows`, `table --json`.
# Catches F3 for two feeds of over 5,000 rows: `test_5001_rows`, `table --feed 1 --feed 2`.
class Options(LaunchedCase):
    def assert_forms(self, places, forms, words, files, returncode=0):
        # The last options of each command have the largest output; with the maximum number of rows only they are given.
        for options, form in forms[-1:] if len(places) == SIZES[-1] else forms:
            stdout = printed(form, places, words[0], *options)
            self.assert_prints(" ".join([words[0], *options]), [words[0], *options, *words[1:], *files], stdout,
                               returncode=returncode)

    def assert_options(self, count):
        places = apart(count)
        self.write({"none.feed": "", "rows.feed": single_routes(places), "addresses.txt": "\n".join([*places, ""])})
        files = ["rows.feed", "none.feed"]
        self.assert_forms(places, OF_TABLE, ["table"], files)
        self.assert_forms(places, OF_LOOKUP, ["lookup", "--addresses", "addresses.txt"], files)
        self.assert_forms(places, OF_DIFF, ["diff"], ["none.feed", "--", *files], returncode=1)
        counts = f"routes {count} prefixes {count}\nfeed 1 routes {count}\nlength 32 routes {count}\n"
        for options in ([], ["--best"], ["--feed", "1"], ["--within", "10.0.0.0/7"]):
            self.assert_prints(" ".join(["table --count", *options]), ["table", "--count", *options, *files], counts)


for size in SIZES:
    setattr(Options, f"test_{size}_rows", lambda self, size=size: self.assert_options(size))

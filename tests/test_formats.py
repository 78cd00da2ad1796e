"""Answers with feeds' names, as JSON and as CSV: those of the same command's lines, by Python's modules."""
import csv
import io
import json
import pathlib
import random
import re

from dev.models.table_model import MAX_FEEDS, ROUTE_COLUMNS, csv_of, members
from tests.cases import TOO_MANY, ProgramCase, printable

NEEDS = {"program"}

# Paths of feeds' files, and their feeds' names. Bytes of 0 and `/` are in no file's name; what isn't UTF-8 is refused.
NAMED = {
    "east.feed": "east", "feeds/west.feed": "west", "./north": "north", "feeds/../twice.feed.feed": "twice.feed",
    "quote\".feed": 'quote"', "back\\slash.feed": "back\\slash", "umläut.feed": "umläut",
    "\U0001f600.feed": "\U0001f600", "feed": "feed", "7.feed": "7", "a,b:{}[].feed": "a,b:{}[]", "u0041.feed": "u0041",
    ",.feed": ",", '"".feed': '""', '"a",\r\n"b"/".feed': '"', '"quoted,".feed': '"quoted,"',
}
# Paths whose feed can't be named on a line, but in JSON and in CSV.
NAMELESS = (
    ".feed", "feeds/.feed", "a b.feed", "line\nfeed.feed", "\r\n,\".feed", "\t.feed",
    "".join(map(chr, range(1, 32))) + ".feed", "\x7f.feed",
    *(f"feeds/a{chr(code)}b.feed" for code in (
        0x80, 0x85, 0x9B, 0x9F, 0x61C, 0x200E, 0x200F, 0x202A, 0x202E, 0x2066, 0x2069)),
)
# Characters next to those that no name may have, and one of them in a directory's name.
NAMED_BESIDE = [f"a{chr(code)}b.feed" for code in (
    0xA0, 0xE9, 0x61B, 0x61D, 0x200D, 0x2010, 0x2029, 0x202F, 0x2065, 0x206A)] + ["\x9b/a.feed"]
ONE_NAME = (("east.feed", "feeds/east.feed"), ("east.feed", "east"), ("./north", "north.feed"),
            ("east.feed", "east.feed"))
OFFERED = "version 2\nadd 10.1.0.0/16 70 192.0.2.4\nadd 10.0.0.0/8 5 discard\nadd 0.0.0.0/0 0 192.0.2.3\n"
ASKED = ["--address", "10.1.2.3", "--address", "10.2.0.0", "--address", "255.255.255.255"]
COMMANDS = (["lookup", *ASKED], ["lookup", "--all", *ASKED], ["table"], ["table", "--best"])
# The files of a query, and its options; only these files can be named.
QUERIED = ((list(NAMED), ["--names"]), ([*NAMED, *NAMELESS], []))
SAME_NAME = "two feeds with the same name (rename a file, or leave out --names): {}, {}".format
REFUSED_NAME = "no valid feed name (rename the file, or leave out --names): {}".format
ONE_ADDRESS = "lookup --address 10.0.0.1"


class FormatCase(ProgramCase):
    def write_offers(self, paths):
        """Writes files of these paths, which offer the same routes in rising order of the preferences."""
        self.write(dict.fromkeys(paths, OFFERED))
        return list(paths)


def object_of(route, reason=None):
    """The JSON object for this route of the text output; feed k was read from the k-th path."""
    return members(route[::2]) | ({"reason": reason} if reason else {})


def objects_of(command, lines):
    """What JSON has to contain if the lines are these; `with_files` adds `file` and `name`."""
    lines = [line.split(" ") for line in lines.splitlines()]
    if command[0] == "table":
        return [object_of(line) for line in lines]
    objects = []
    for address, word, *route in lines:
        if word == "also":
            objects[-1]["also"].append(object_of(route[:-1], route[-1]))
        else:
            objects.append({"address": address, "route": object_of(route) if word == "route" else None})
            if "--all" in command:
                objects[-1]["also"] = []
    return objects


def with_files(value, paths, names):
    """The value with the file of each route's feed, and with its name if `names`."""
    if isinstance(value, list):
        return [with_files(one, paths, names) for one in value]
    if not isinstance(value, dict):
        return value
    found = {key: with_files(one, paths, names) for key, one in value.items()}
    if "feed" in found:
        path = paths[found["feed"] - 1]
        found |= {"file": path, **({"name": NAMED[path]} if names else {})}
    return found


def unlike_twice(pairs):
    """An object whose members have different names, in order."""
    found = dict(pairs)
    assert len(found) == len(pairs), pairs
    return found


class Json(FormatCase):
    # Catches a quotation mark or a control character that isn't escaped, and two feeds' labels that are swapped.
    def test_objects(self):
        """Each line is one object with the contents of the same command's line, and the file's path."""
        for paths, flags in QUERIED:
            self.write_offers(paths)
            for command in COMMANDS:
                with self.named(" ".join([*command, *flags])):
                    wanted = with_files(objects_of(command, self.stdout(*command, *paths)), paths, bool(flags))
                    found = self.stdout(*command, "--json", *flags, *paths)
                    objects = [json.loads(line, object_pairs_hook=unlike_twice) for line in found.split("\n")[:-1]]
                    self.assertEqual((objects, found[-1:]), (wanted, "\n"))


# The same route in each syntax, to the byte: all columns of each command, an address without a route and no row at all.
CSV_TEXTS = (
    ("table", '''\
prefix,feed,name,file,pref,via,discard
0.0.0.0/0,1,"a,""b""","dir/a,""b"".feed",0,192.0.2.3,
10.0.0.0/8,1,"a,""b""","dir/a,""b"".feed",5,,true
'''),
    ("table --exact 11.0.0.0/8", "prefix,feed,name,file,pref,via,discard\n"),
    ("lookup --address 10.1.2.3 --address 11.0.0.0", '''\
address,prefix,feed,name,file,pref,via,discard
10.1.2.3,10.0.0.0/8,1,"a,""b""","dir/a,""b"".feed",5,,true
11.0.0.0,0.0.0.0/0,1,"a,""b""","dir/a,""b"".feed",0,192.0.2.3,
'''),
    ("lookup --all --address 10.1.2.3", '''\
address,prefix,feed,name,file,pref,via,discard,reason
10.1.2.3,10.0.0.0/8,1,"a,""b""","dir/a,""b"".feed",5,,true,
10.1.2.3,0.0.0.0/0,1,"a,""b""","dir/a,""b"".feed",0,192.0.2.3,,shorter
'''),
)
NO_ROUTE_TEXTS = (
    ("lookup --address 10.1.2.3", "address,prefix,feed,name,file,pref,via,discard\n10.1.2.3,,,,,,,\n"),
    ("lookup --all --address 10.1.2.3", "address,prefix,feed,name,file,pref,via,discard,reason\n10.1.2.3,,,,,,,,\n"),
    ("lookup --addresses none.txt", "address,prefix,feed,name,file,pref,via,discard\n"),
    ("lookup --all --addresses none.txt", "address,prefix,feed,name,file,pref,via,discard,reason\n"),
)
# Options that no command has beside --csv.
BESIDE_CSV = [("--json", ONE_ADDRESS), ("--json", "table"), ("--json", "diff"), ("--keep-invalid", ONE_ADDRESS),
              ("--count", "table"), ("--total", "table"), ("--count", "diff")]


class Csv(FormatCase):
    # Catches a field that isn't quoted or a quotation mark that isn't doubled, a header that is left out or printed
    # twice, LF instead of CR and LF, a discard that is another field, and fewer fields for no route.
    # Catches a header without `reason`, or a row of the best route without its empty field: the same, with `--all`.
    def test_records(self):
        """The records are those that Python's `csv` writes of what `--json` prints, and it reads the same fields."""
        for paths, flags in QUERIED:
            self.write_offers(paths)
            for command in (*COMMANDS, ["table", "--within", "11.0.0.0/8"], ["table", "--feed", "2"]):
                with self.named(" ".join([*command, *flags])):
                    ended = self.yarib(*command, "--json", *flags, *paths)
                    objects = [json.loads(line) for line in ended.stdout.split("\n")[:-1]]
                    self.assert_ended(self.yarib(*command, "--csv", *flags, *paths), csv_of(command, objects),
                                      ended.stderr, ended.returncode)
            with self.named(" ".join(["what csv reads", *flags])):
                text = io.StringIO(self.stdout("table", "--csv", *flags, *paths), newline="")
                read = list(csv.DictReader(text, strict=True))
                self.assertEqual({tuple(row) for row in read}, {ROUTE_COLUMNS})
                self.assertEqual([row["file"] for row in read], [paths[int(row["feed"]) - 1] for row in read])

    # Catches an empty answer without its header.
    def test_to_the_byte(self):
        one = 'dir/a,"b".feed'
        self.write({one: "version 2\nadd 10.0.0.0/8 5 discard\nadd 0.0.0.0/0 0 192.0.2.3\n", "none.txt": ""})
        for texts, file in ((CSV_TEXTS, one), (NO_ROUTE_TEXTS, "empty.feed")):
            for words, text in texts:
                self.assert_prints([*words.split(), "--csv", file], text.replace("\n", "\r\n"))
        columns = "old_via,old_discard,new_via,new_discard\r\n"
        self.assert_prints("diff --csv row.feed -- empty.feed",
                           f"first,last,{columns}10.0.0.0,10.255.255.255,192.0.2.1,,,\r\n", "", 1)
        self.assert_prints("diff --csv --prefixes row.feed -- row.feed", f"prefix,{columns}")

    # Catches a comparison that prints an answer of the old side as one of the new, a header of other columns, or
    # another number of fields for no route.
    def test_comparisons(self):
        """Random tables: what Python's `csv` writes of the objects that the same command prints with --json."""
        choice, names = random.Random(93), ["a", ",", '"', "ä,b", '"",""', "\U0001f600"]
        for number in (0, 1, 4, 9):
            sides = []
            for side in ("older", "newer"):
                paths = [f"{side}/{name}.feed" for name in choice.sample(names, 2)]
                for path, made in zip(paths, self.random_table(choice, side, number)[1]):
                    self.write({path: "version 2\n" + (self.folder / made).read_text().replace("192.0.2.1", "discard")})
                sides.append(paths)
            for more in ("", "--by route", "--prefixes", "--by route --prefixes", "--by route --names", "--names"):
                words = [*more.split(), *sides[0], "--", *sides[1]]
                ended = self.yarib("diff", "--json", *words)
                objects = [json.loads(line) for line in ended.stdout.splitlines()]
                self.assert_prints(["diff", "--csv", *words], csv_of(["diff", *more.split()], objects), ended.stderr,
                                   ended.returncode, name=f"diff {more}, {number} routes")

    # Catches an option that is accepted beside `--csv`.
    def test_options(self):
        for option, command in BESIDE_CSV:
            files = "missing.feed -- missing.feed" if command == "diff" else "missing.feed"
            for both in (f"--csv {option}", f"{option} --names --csv"):
                self.assert_refused(f"{command} {both} {files}", f"only one of --csv and {option} may be given")
        self.assert_misused("table --csv --csv row.feed", "--csv")
        self.assert_misused("run --csv row.feed", "--csv")
        self.assert_cannot_write("table --csv empty.feed")


class Names(FormatCase):
    # Catches another feed's name in a feed's place.
    def test_names(self):
        """Each line is that of the same command without `--names`, but with the name instead of the number."""
        paths = self.write_offers(NAMED)
        for command in COMMANDS:
            lines = self.stdout(*command, *paths)
            self.assertIn(" feed 1 ", lines)
            named = re.sub(r" feed (\d+) ", lambda found: f" feed {NAMED[paths[int(found[1]) - 1]]} ", lines)
            self.assert_prints([*command, "--names", *paths], named, name=" ".join(command))

    # Catches a range of control characters without its first or its last one: `table: feeds/a\x80b.feed`.
    def test_no_names(self):
        for path in NAMELESS:
            self.write_offers(["east.feed", path])
            for command in (["table"], ["table", "--json"], ["table", "--csv"], ["lookup", *ASKED]):
                self.assert_refused([*command, "--names", "east.feed", path], REFUSED_NAME(path),
                                    name=f"{' '.join(command)}: {printable(path)}")

    def test_names_beside_these(self):
        for path in NAMED_BESIDE:
            self.write_offers([path])
            with self.named(path):
                rows = self.stdout("table", "--names", path)
                self.assertEqual({row.split(" ")[2] for row in rows.split("\n")[:-1]}, {pathlib.PurePath(path).stem})

    def test_one_name_twice(self):
        for first, second in ONE_NAME:
            self.write_offers(["west.feed", first, "other.feed", second])
            self.assert_refused(["table", "--names", "west.feed", first, "other.feed", second],
                                SAME_NAME(first, second))
            self.assertEqual(self.yarib("table", first, second).returncode, 0)
        self.assert_prints(["table", "--names", *["east.feed"] * (MAX_FEEDS + 1)], name="too many files", **TOO_MANY)

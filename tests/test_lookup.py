"""`yarib lookup`: answers, address files, and invalid addresses."""
import random

from dev.models import calls
from dev.models.table_model import E3, E8, HAS_CR, IPV6, MAX_FEEDS, Table, dotted, route_text
from tests.cases import TOO_MANY, ProgramCase, prefix_of, route
from tests.line_reader import address

NEEDS = {"program"}

FAULTY = "yarib: asked.txt: faulty lines: {}, the first is line {}: {}\n".format
ANSWER = "10.0.0.1 route " + route(1)

# Lines of address files: addresses, skipped lines, and invalid addresses.
ADDRESSES = ["0.0.0.0", "192.0.2.1", "127.255.255.255", "255.255.255.255"]
SKIPPED = ["", "#", "# 192.0.2.1", "#" * 128]
NO_ADDRESS = [
    " ", " 192.0.2.1", "192.0.2.1 ", "192.0.2.1\r", "192.0.2.1 # note", "lookup 192.0.2.1", "10.0.0.0/8", "256.0.0.0",
    "version 2", "1" * 128, "2001:db8::1", "#" * 129, "1" * 129,
]

# The routes of each feed, in the order of the feeds; MAX_FEEDS is the last.
OFFERS = {
    1: "add 10.1.0.0/16 70 192.0.2.4\nadd 10.0.0.0/8 5 192.0.2.1\nadd 0.0.0.0/0 0 192.0.2.3\n",
    2: "add 10.0.0.0/8 5 192.0.2.1\n",
    MAX_FEEDS: "version 2\nadd 10.0.0.0/8 4294967295 discard\nadd 128.0.0.0/1 0 discard\n",
}
# Their routes as they are printed, those to 10.0.0.0/8 by feed.
ALL, PART = route_text("0.0.0.0/0", 1, 0, "192.0.2.3"), route_text("10.1.0.0/16", 1, 70, "192.0.2.4")
TEN_OF_1, TEN_OF_2 = route_text("10.0.0.0/8", 1, 5), route_text("10.0.0.0/8", 2, 5)
TEN_OF_LAST = route_text("10.0.0.0/8", MAX_FEEDS, 4294967295, "discard")
UPPER = route_text("128.0.0.0/1", MAX_FEEDS, 0, "discard")
ALL_FOUND = f"""10.1.2.3 route {PART}
10.1.2.3 also {TEN_OF_1} shorter
10.1.2.3 also {TEN_OF_2} shorter
10.1.2.3 also {TEN_OF_LAST} shorter
10.1.2.3 also {ALL} shorter
10.255.255.255 route {TEN_OF_1}
10.255.255.255 also {TEN_OF_2} feed
10.255.255.255 also {TEN_OF_LAST} preference
10.255.255.255 also {ALL} shorter
11.0.0.0 route {ALL}
255.255.255.255 route {UPPER}
255.255.255.255 also {ALL} shorter
"""
FOUND = "".join(line for line in ALL_FOUND.splitlines(keepends=True) if " also " not in line)


def is_address(line):
    return address(line) is not None


def is_skipped(line):
    return line == "" or line.startswith("#") and len(line) <= 128


class Answers(ProgramCase):
    # Catches `show` always returning F3 or `Write`, and answers to invalid lines of an address file.
    # Catches answers in another order than the command line's addresses and then the file's: `lookup --address
    # 255.255.255.255 --address 0.0.0.0 --address 255.255.255.254 zero.feed`.
    def test_calls(self):
        self.assert_calls(calls.SHOWN_FILES, [call for call in calls.SHOWN if call.words[0] == "lookup"])

    # Catches `write_lookup`, `write_all_matches` or `write_routes` failing at once.
    def test_max_feeds(self):
        names = [f"offers{feed}.feed" for feed in range(1, MAX_FEEDS + 1)]
        self.write({name: OFFERS.get(feed, "") for feed, name in enumerate(names, 1)})
        asked = [word for line in FOUND.splitlines() for word in ("--address", line.split()[0])]
        rows = "".join(f"{row}\n" for row in (ALL, TEN_OF_1, TEN_OF_2, TEN_OF_LAST, PART, UPPER))
        self.assert_prints(["lookup", *asked, *names], FOUND, name="lookup")
        self.assert_prints(["lookup", "--all", *asked, *names], ALL_FOUND, name="lookup --all")
        self.assert_prints(["table", *names], rows, name="table")
        self.assert_prints(["lookup", "--all", "--address", "11.0.0.0", names[1]], "11.0.0.0 no route\n")
        self.assert_prints(["table", names[2]], "", name="the rows of an empty table")

    def test_random_feeds(self):
        """2,000 addresses of random feeds, and lists of these; with every batch size the output is the same."""
        choice, model, names = random.Random(27), Table(1_000_000), [f"shown{feed}.feed" for feed in range(1, 7)]
        for feed, name in enumerate(names, 1):
            self.write({name: "".join(self.drawn_lines(choice, model, feed))})
        addresses = [dotted(choice.choice((10 << 24, 172 << 24, 192 << 24)) + choice.randrange(1 << 16))
                     for _ in range(2_000)]
        text = "# asked\n\n" + "".join(f"{address}\n" for address in addresses)
        self.write({"asked.txt": text})
        answers = [f"{address} {model.best(address)}\n" for address in addresses]
        every = "".join(line for address in addresses for line in model.all(address))
        listed, best = ("".join(row + "\n" for row in model.listed(best)) for best in (False, True))
        asked = ["--addresses", "asked.txt", *names]
        for words in ([], ["--batch", "1"], ["--batch", "1024"], ["--limit", "1000000"]):
            self.assert_prints(["lookup", *words, *asked], "".join(answers))
            self.assert_prints(["lookup", *words, "--all", *asked], every)
            self.assert_prints(["table", *words, *names], listed)
            self.assert_prints(["table", *words, "--best", *names], best)
        for count in (1, 255, 256, 257, 513):
            many = [word for address in addresses[:count] for word in ("--address", address)]
            self.assert_prints(["lookup", *many, *names], "".join(answers[:count]), name=f"{count} addresses")
        self.assert_prints(["lookup", "--addresses", "/dev/stdin", *names], "".join(answers), input=text)

    def drawn_lines(self, choice, model, feed):
        """Yields lines of 300 random routes of a feed, as far as they are new, and a look-up behind each."""
        for _ in range(300):
            length = choice.choice((0, 8, 12, 16, 20, 24, 31, 32))
            prefix = prefix_of(choice.choice((10 << 24, 172 << 24)) + choice.randrange(1 << 16), length)
            line = f"add {prefix} {choice.randrange(4)} 192.0.2.{feed}"
            if model.apply(feed, line.split()) == "added":
                yield f"{line}\nlookup 10.0.0.1\n"

    def test_small_universes(self):
        """All addresses of 10.0.0.0/27, its neighbours and the first and last address, in tables of prefixes in it."""
        addresses = [*(dotted((10 << 24) + at) for at in range(-1, 33)), *ADDRESSES]
        asked = [word for address in addresses for word in ("--address", address)]
        for seed in range(40):
            choice, model, texts = random.Random(seed), Table(65_536), ["", "", ""]
            for _ in range(choice.randrange(1, 30)):
                feed, length = choice.randrange(3), choice.choice((0, 1, *range(25, 33)))
                prefix = prefix_of(choice.choice(((10 << 24) + choice.randrange(32), (1 << 32) - 1, 0)), length)
                line = f"add {prefix} {choice.randrange(3)} 192.0.2.{choice.randrange(3)}"
                model.apply(feed + 1, line.split())
                texts[feed] += line + "\n"
            files = {f"{feed}.feed": text for feed, text in enumerate(texts, 1)}
            self.write(files)
            for more, wanted in ([], [f"{address} {model.best(address)}\n" for address in addresses]), (
                    ["--all"], [line for address in addresses for line in model.all(address)]):
                with self.subTest(f"seed {seed} {' '.join(more)}".rstrip()):
                    ended = self.yarib("lookup", *more, *asked, *files)
                    self.assert_ended(ended, "".join(wanted), None)


class AddressFiles(ProgramCase):
    def setUp(self):
        super().setUp()
        self.write({"each.feed": "".join(f"add {address}/32 1 192.0.2.1\n" for address in ["1.2.3.4", *ADDRESSES])})

    def assert_answers(self, line, stdout, stderr="", returncode=0, *words):
        """Compares what a look-up prints for an address file of this line and 1.2.3.4."""
        self.write({"asked.txt": f"{line}\n1.2.3.4"})
        stdout += f"1.2.3.4 route {route_text('1.2.3.4/32')}\n"
        self.assert_prints(["lookup", *words, "--addresses", "asked.txt", "each.feed"], stdout, stderr, returncode,
                           name=" ".join([repr(line), *words]))

    def test_addresses(self):
        for line in ADDRESSES:
            found = f"{line} route {route_text(f'{line}/32')}\n"
            self.assert_answers(line, found)
            self.assert_answers(line, found, "", 0, "--keep-invalid")

    # Catches a row for a skipped line, or none for an invalid one: `--keep-invalid`.
    def test_skipped_lines(self):
        for line in SKIPPED:
            self.assert_answers(line, "")
            self.assert_answers(line, "", "", 0, "--keep-invalid")

    # Catches a reader that ignores a carriage return after an address.
    def test_invalid_lines(self):
        for line in NO_ADDRESS:
            fault = E8 if len(line) > 128 else E3 + HAS_CR * line.endswith("\r") + IPV6 * ("::" in line)
            self.assert_answers(line, "", FAULTY(1, 1, fault), 2)
            self.assert_answers(line, "1 invalid\n", FAULTY(1, 1, fault), 2, "--keep-invalid")

    # Catches a number of the first invalid address that doesn't count skipped lines, or a program that reads only 64 KB
    # of the file: `a long text of addresses`.
    # Catches counts of invalid addresses that stop at 255 or 65,535: `256 invalid lines`, `70001 invalid lines`.
    # Catches F3 for more than 2,000 addresses, or status 6 for more than 2,000 answers: `20,000 addresses`.
    def test_long_files(self):
        asked, skipped = "lookup --addresses asked.txt row.feed", "# note\n\n" * 3_000
        self.write({"asked.txt": skipped + "10.0.0.1\n" + skipped * 2 + "frob\n10.0.0.1\nfrob\n"})
        self.assert_prints(asked, ANSWER * 2, FAULTY(2, 3 * 6_000 + 2, E3), 2, name="a long text of addresses")
        for count in (255, 256, 70_001):
            self.write({"asked.txt": "frob\n" * count + "10.0.0.1\n"})
            self.assert_prints(asked, ANSWER, FAULTY(count, 1, E3), 2, name=f"{count} invalid lines")
        self.write({"asked.txt": "10.0.0.1\n" * 20_000})
        self.assert_prints(asked, ANSWER * 20_000, name="20,000 addresses")

    # Catches F3 for more than 1,000 or 4,096 `--address`es: `--address 1001 times`, `--address 30000 times`.
    def test_many_addresses(self):
        for count in (999, 1_000, 1_001, 1_024, 1_025, 30_000):
            self.assert_prints(["lookup", *["--address=10.0.0.1"] * count, "row.feed"], ANSWER * count,
                               name=f"--address {count} times")

    # Catches a report on rejected input if the output could not be written.
    def test_no_report_if_the_output_is_full(self):
        self.write({"asked.txt": "frob\n10.0.0.1\n"})
        for words in ("lookup --addresses asked.txt", "lookup --addresses asked.txt --all", "table"):
            self.assert_cannot_write(f"{words} faulty.feed row.feed")

    # Catches a program that reads an empty address file for `--addresses -`.
    # Catches a program that reads the address file before the feed files: `lookup --addresses missing row.feed nor`.
    def test_files(self):
        self.assert_unreadable("lookup --addresses missing row.feed", "missing")
        self.assert_unreadable("lookup --addresses missing row.feed nor", "nor")
        self.assert_unreadable("lookup --addresses - row.feed", "-", input="10.0.0.1\n", name="- is no standard input")
        self.write({"-": "10.0.0.1\n"})
        self.assert_prints("lookup --addresses - row.feed", ANSWER, name="- is a file of addresses")
        self.assert_misused("lookup --addresses - --addresses - row.feed", "--addresses")


# Catches a program that prints invalid lines before or after all answers, with their number among the invalid lines, or
# before the named addresses.
# Catches an invalid line that is left out after the last address or before the first, or a piece of 256 addresses that
# is answered twice or not at all.
# Catches an object for an invalid line without `--json`, or a line with it; also one with `"also"`: `--json`.
# Catches a program that writes nothing, or doesn't notice that it can't write, if no line is an address: `no address`.
# Catches other output without `--keep-invalid`.
class KeptLines(ProgramCase):
    """With --keep-invalid each line of the address file that isn't skipped has its answer in its place."""

    def test_lines_in_their_places(self):
        lines = self.drawn_lines(random.Random(88))
        self.write({"asked.txt": "\n".join(lines), "second.feed": "add 10.0.0.0/8 200 192.0.2.2\n"})
        invalid = [number for number, line in enumerate(lines, 1) if not is_skipped(line) and not is_address(line)]
        report = FAULTY(len(invalid), invalid[0], E3)
        for words in ("", "--all", "--names", "--names --all", "--json", "--json --names", "--json --all"):
            words = words.split()
            each = {address: self.stdout("lookup", *words, "--address", address, "row.feed", "second.feed")
                    for address in sorted({"10.0.0.2", *filter(is_address, lines)})}
            kept = '{{"line":{},"invalid":true}}\n' if "--json" in words else "{} invalid\n"
            rows = [each.get(line, kept.format(number)) for number, line in enumerate(lines, 1) if not is_skipped(line)]
            valid = map(each.get, filter(is_address, lines))
            asked = ["lookup", *words, "--address", "10.0.0.2", "--addresses", "asked.txt", "row.feed", "second.feed"]
            self.assert_prints([*asked, "--keep-invalid"], "".join([each["10.0.0.2"], *rows]), report, 2)
            self.assert_prints(asked, "".join([each["10.0.0.2"], *valid]), report, 2)

    def drawn_lines(self, choice):
        """Returns lines with invalid and skipped ones among 1 to 600 addresses, and at both ends."""
        lines = ["frob", "10.0.0.1", "11.0.0.1", "", "10.0.0.2/32"]
        for count in (1, 255, 256, 257, 600):
            lines += choice.choices(["10.0.0.1", "10.9.9.9", "11.0.0.1"], k=count)
            lines += choice.sample(["", "# note", "frob", "10.0.0", "x" * 129, " 10.0.0.1"], k=4)
        return lines + ["10.0.0.3", "frob"]

    def test_no_address(self):
        self.write({"asked.txt": "# none\nfrob\n\nfrob\n"})
        for words in ("lookup --addresses asked.txt row.feed", "lookup --all --addresses asked.txt row.feed"):
            self.assert_prints(f"{words} --keep-invalid", "2 invalid\n4 invalid\n", FAULTY(2, 2, E3), 2)
            self.assert_prints(words, "", FAULTY(2, 2, E3), 2)
            self.assert_cannot_write(f"{words} --keep-invalid")
        self.assert_prints("lookup --keep-invalid --address 10.0.0.1 row.feed", ANSWER)


class Refused(ProgramCase):
    """Look-ups and lists with invalid arguments or missing files."""

    def test_invalid_addresses(self):
        for word in ("10.0.0.256", "", "10.0.0.1/32", "10.0.0.01", " 10.0.0.1", "x"):
            words = ["lookup", "--address", "10.0.0.1", f"--address={word}", "missing"]
            self.assert_refused(words, f"not an address: {word}")
        self.assert_refused("lookup row.feed", "no address given: use --address or --addresses")

    def test_files(self):
        for command in ("lookup --address 10.0.0.1", "table"):
            self.assert_unreadable(f"{command} row.feed missing", "missing")
            self.assert_unreadable(f"{command} row.feed nor missing", "nor")
            self.assert_prints(command + " missing" * (MAX_FEEDS + 1), name=f"{command}: too many files", **TOO_MANY)
            self.assert_misused(command, "<FILE>")
            self.assert_misused(f"{command} --limit 0 row.feed", "--limit")

    # Catches a command line that accepts `--all` twice.
    def test_options(self):
        for words, option in (
            ("table --all row.feed", "--all"), ("lookup --all --all --address 10.0.0.1 row.feed", "--all"),
            ("lookup --best --address 10.0.0.1 row.feed", "--best"), ("table --address 10.0.0.1 row.feed", "--address"),
            ("run --best row.feed", "--best"),
        ):
            self.assert_misused(words, option)

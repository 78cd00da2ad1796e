"""Lines of feed files: the fault of each, its message, and hostile lines, which a plain reader reads too."""
import gzip
import random

from dev.models.table_model import E1, E3, E8, HAS_CR, IPV6, report
from tests.cases import ProgramCase
from tests.line_reader import run_of

NEEDS = {"program"}

# Lines and their fault in version 1, and in version 2 if it differs.
FAULTY = {
    "E1": ["frob", " dump", "ADD 10.0.0.0/8 1 192.0.2.1", "x" * 128, "version 2"],
    "E1 E2": ["purge 10.0.0.0/8", "purge "],
    "E2": [
        "dump x", "dump ", "add", "add 10.0.0.0/8 1", "add 10.0.0.0/8 1 192.0.2.1 ",
        "add  10.0.0.0/8 1 192.0.2.1", "withdraw", "withdraw 10.0.0.0/8 ",
    ],
    "E3": [
        "add 010.0.0.0/8 1 192.0.2.1", "add 10.0.0/8 1 192.0.2.1", "add 10.0.0.0/08 1 192.0.2.1", "lookup 1.2.3.4.5",
        "lookup 1.2.3.4\r", "lookup 10.0.0.0/8", "lookup discard", "withdraw discard",
    ],
    "E4": ["add 10.0.0.0/33 1 192.0.2.1", "add 10.0.0.1/33 x y"],
    "E5": ["add 10.0.0.1/8 1 192.0.2.1", "replace 10.0.0.1/8 x y"],
    "E6": ["add 10.0.0.0/8 4294967296 192.0.2.1", "add 10.0.0.0/8 01 256.0.0.1", "add 10.0.0.0/8 x discard"],
    "E7": [
        "add 10.0.0.0/8 4294967295 256.0.0.1", "add 10.0.0.0/8 1 256.0.0.1", "add 10.0.0.0/8 5 Discard",
        "add 10.0.0.0/8 5 discards",
    ],
    "E8": ["x" * 129, "#" * 129, "x" * 1_000_000],
}

E7 = "E7: the next hop is neither an address nor, in version 2, `discard`"
E2 = "E2: the command takes another number of fields"
ENDS_WITH_CR = f"{E1} (the line ends with the CR of CRLF: end lines with LF only)"
BYTE_ORDER_MARK = "the file begins with a byte order mark: save it without one"
# The message of each error on standard error.
MESSAGES = [
    ("frob", E1),
    ("dump x", f"{E2} (0 after its name, not 1)"),
    ("add 10.0.0.0/8 1", f"{E2} (3 after its name, not 2)"),
    ("replace 10.0.0.0/8 1  192.0.2.1", f"{E2} (3 after its name, not 4)"),
    ("withdraw", f"{E2} (1 after its name, not 0)"),
    ("lookup 10.0.0.1 10.0.0.2", f"{E2} (1 after its name, not 2)"),
    ("lookup 2001:db8::1", E3 + IPV6),
    ("add 2001:db8::/32 1 192.0.2.1", E3 + IPV6),
    ("withdraw ::ffff:192.0.2.0/120", E3 + IPV6),
    ("withdraw 10.0.0.0:8", E3),
    ("lookup a::g", E3),
    ("add 10.0.0.0/8 1 fe80::1", E7 + IPV6),
    ("lookup 10.0.0", E3),
    ("withdraw 10.0.0.0/33", "E4: the prefix's length is over 32"),
    ("withdraw 10.0.0.1/8", "E5: a bit past the prefix's length is set"),
    ("add 10.0.0.0/8 x 192.0.2.1", "E6: the preference is no decimal from 0 to 4294967295"),
    ("add 10.0.0.0/8 1 x", E7),
    ("x" * 129, E8),
    ("withdraw 10.0.0.0/8\r", E3 + HAS_CR),
    ("lookup 2001:db8::1\r", E3 + HAS_CR),
    ("add 10.0.0.0/8 1 192.0.2.1\r", E7 + HAS_CR),
    ("dump\r", ENDS_WITH_CR),
    ("version 2\r", ENDS_WITH_CR),
    ("\ufeffdump", f"{E1} ({BYTE_ORDER_MARK})"),
]
# Beginnings of files, and what is said of them.
BEGINNINGS = [
    ("UTF-16, little endian", b"\xff\xfed\0u\0m\0p\0\n\0", BYTE_ORDER_MARK),
    ("UTF-16, big endian", b"\xfe\xff\0d\0u\0m\0p\0\n", BYTE_ORDER_MARK),
    ("gzip", gzip.compress(b"dump\n"), "the file is compressed by gzip: decompress it first"),
]
MESSAGE = "yarib: faulty.feed: faulty lines: {}, the first is line {}: {}\n".format


class Faults(ProgramCase):
    # Catches a reader that accepts a space at the end.
    # Catches F3 for a line of 129 bytes.
    def test_fault_of_each_line(self):
        for faults, lines in FAULTY.items():
            for line in lines:
                for first, fault in (("#", faults.split()[0]), ("version 2", faults.split()[-1])):
                    name = f"{first}: {line[:40]!r} of {len(line)} bytes"
                    self.assert_run(name, [f"{first}\n{line}"], f"1:2 fault {fault}\ntable 0\n", 2)

    # Catches another message for an error, such as one that says 127 bytes for E8.
    def test_messages(self):
        for line, message in MESSAGES:
            self.write({"faulty.feed": f"{line}\n"})
            self.assert_prints("table faulty.feed", "", MESSAGE(1, 1, message), 2, name=repr(line))

    # Catches a hint about the first line, if another line is the first faulty one.
    def test_messages_of_later_lines(self):
        for line, message in MESSAGES:
            if not line.startswith(("\ufeff", "version")):
                self.write({"faulty.feed": f"# add 10.0.0.0/8\r\n\n{line}\n{line}\n"})
                self.assert_prints("table faulty.feed", "", MESSAGE(2, 3, message), 2, name=repr(line))

    def test_beginnings_of_files(self):
        for name, beginning, message in BEGINNINGS:
            with self.subTest(name):
                self.write({"faulty.feed": beginning})
                self.assertIn(f": {E1} ({message})\n", self.yarib("table", "faulty.feed").stderr)
            with self.subTest(f"{name}, in another line"):
                self.write({"faulty.feed": b"\n" + beginning})
                self.assertNotIn(message, self.yarib("table", "faulty.feed").stderr)

    # Catches F3 for a text of one byte.
    # Catches a reader that skips a line that begins with NUL.
    def test_texts_of_one_byte(self):
        for byte in range(256):
            status, answer = (0, "") if bytes([byte]) in b"#\n" else (2, "1:1 fault E1\n")
            self.write({"byte.feed": bytes([byte])})
            self.assert_ended(self.yarib("run", "byte.feed"), answer + "table 0\n", "", status, message=f"byte {byte}")


# Lines that are commands in version 2.
COMMANDS = [
    b"add 10.0.0.0/8 100 192.0.2.1", b"add 0.0.0.0/0 0 0.0.0.0", b"add 255.255.255.255/32 4294967295 255.255.255.255",
    b"add 172.16.0.0/12 5 discard", b"replace 10.128.0.0/9 42 198.51.100.7", b"replace 192.0.2.128/25 1 discard",
    b"withdraw 10.0.0.0/8", b"withdraw 203.0.113.9/32", b"lookup 10.1.2.3", b"lookup 255.0.255.0", b"dump", b"purge",
]
# Beginnings of lines; more bytes are appended to them.
FRONTS = [b"#", b"", b"dump ", b"add ", b"lookup ", b"withdraw 10.0.0.0/", b"add 10.0.0.0/8 ", b"add 10.0.0.0/8 1 "]
NAMES = [b"add", b"replace", b"withdraw", b"lookup", b"dump", b"purge", b"Add", b"adds", b"ad", b"", b"#", b"version"]
# Fields that are nearly valid, or far from it.
FIELDS = [
    b"10.0.0.0/8", b"10.0.0.1/8", b"10.0.0.0/32", b"10.0.0.0/33", b"10.0.0.1/33", b"10.0.0.0/31", b"10.0.0.0/08",
    b"10.0.0.0/00", b"0.0.0.0/0", b"128.0.0.0/0", b"0.0.0.1/31", b"0.0.0.1/32", b"10.0.0.0/4294967304",
    b"10.0.0.0/18446744073709551624", b"10.0.0.0/", b"/8", b"10.0.0.0//8", b"10.0.0/8", b"10.0.0.0.0/8", b"256.0.0.0/8",
    b"010.0.0.0/8", b"+10.0.0.0/8", b"10.0.0.0/-1",
    b"4294967306.0.0.0/8", b"192.0.2.1", b"192.0.2.256", b"192.0.2", b"192.0.2.1.", b".192.0.2.1", b"192..0.2",
    b"192.0.2.01", b"0.0.0.0", b"255.255.255.255", b"0", b"00", b"1", b"01", b"-1", b"4294967295", b"4294967296",
    b"4294967297", b"18446744073709551616", b"1e3", b"discard", b"Discard", b"2", b"", b"\0\xff",
]
ENDS = [b"", b"", b"", b"", b" ", b"\r", b"\0", b"\x80"]


class HostileCase(ProgramCase):
    def assert_lines(self, hostile):
        """Compares the program's answers to these lines with the plain reader's, in a text of each version that ends in
        the last."""
        for version in (1, 2):
            text, answers, status = run_of(hostile, version)
            self.assert_run(f"version {version}", [text], report(1, answers) + "table 0\n", status)


class HostileLines(HostileCase):
    # Catches a reader that reads two spaces as a single one.
    # Catches a reader that accepts a leading zero.
    # Catches a preference that wraps to 0 from 2^32 on.
    def test_byte_more_or_less_at_every_place(self):
        lines = list(COMMANDS)
        for command in COMMANDS:
            for at in range(len(command)):
                before, behind = command[:at], command[at:]
                more = [before + byte + behind for byte in (b" ", b"0", b"1", b".", b"/", b"\r", behind[:1])]
                lines += [before, behind, before + behind[1:], *more]
        self.assert_lines(lines)

    # Catches a reader that accepts 129 bytes.
    def test_lines_about_128_bytes(self):
        fillings = [bytes([filling]) * count for filling in b"10 x\0" for count in range(131)]
        self.assert_lines([front + filling for front in FRONTS for filling in fillings])


# Catches a reader that ends a field at NUL, like at a space.
# Catches a reader that ignores a carriage return at the end.
# Catches a reader that accepts `:` as a digit, one past `9`.
# Catches a reader that reads the length 33 as 32.
class EveryByte(HostileCase):
    """Every byte at every place of each command."""

    def assert_every_byte(self, command):
        self.assert_lines([command[:at] + bytes([byte]) + command[at + 1 :]
                           for at in range(len(command)) for byte in range(256)])


# Catches a reader that drops a last line without LF.
# Catches a number that wraps at 2^64.
class DrawnLines(HostileCase):
    """A thousand random lines by each seed, and a last one that is seen."""

    def assert_drawn_lines(self, seed):
        choice = random.Random(seed)
        fields = lambda: b"".join(b" " + choice.choice(FIELDS) for _ in range(choice.randrange(5)))
        self.assert_lines([choice.choice(NAMES) + fields() + choice.choice(ENDS) for _ in range(1000)] + [b"frob"])


for number, command in enumerate(COMMANDS, 1):
    name = f"test_{number:02}_{command.split()[0].decode()}"
    setattr(EveryByte, name, lambda self, command=command: self.assert_every_byte(command))
for seed in range(1, 41):
    setattr(DrawnLines, f"test_seed_{seed:02}", lambda self, seed=seed: self.assert_drawn_lines(seed))

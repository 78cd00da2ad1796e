"""Tests of input that is truncated, endless, compressed, or a table of another kind, and of line ends."""
import bz2
import gzip
import lzma
import subprocess

from convert.tests import commands
from convert.tests.converting import ConverterCase, call, prefixes, sample, table_of
from dev.models.table_model import MAX_FEEDS

CONVERTERS = sorted(path.name for path in commands.CONVERT.glob("*-to-*"))
# the converters that read lines, each with a sample
LINES = (("bird-to-feeds", "bird/bgp-routes-all.txt"), ("bgpdump-to-feeds", "bgpdump/updates.txt"),
         ("table-to-frr --device 192.0.2.0/24=a --device 198.51.100.0/24=b", "table/run.txt"))
DUMPED = "TABLE_DUMP2|1|B|{}|1|{}|1|IGP|192.0.2.1|0|0||NAG||\n"
ONE_PATH = '"{}":[{{"best":true,"attrs":[{{"type":3,"nexthop":"192.0.2.1"}}]}}]'
# a route to ::/0 and one to 10.0.0.0/8, as each daemon shows them
IPV6_DEFAULT = {
    "bird-to-feeds": "Table master4:\n::/0 unicast [a 09:20:39.677] * (100)\n\tvia 192.0.2.1 on uplink\n"
                     "10.0.0.0/8 unicast [a 09:20:39.677] * (100)\n\tvia 192.0.2.1 on uplink\n",
    "bgpdump-to-feeds": DUMPED.format("127.0.0.1", "::/0") + DUMPED.format("127.0.0.1", "10.0.0.0/8"),
    "gobgp-to-feeds": "{" + ONE_PATH.format("::/0") + "," + ONE_PATH.format("10.0.0.0/8") + "}",
    "frr-to-feeds": '{"routes":{"::/0":[{"valid":true}],"10.0.0.0/8":[{"valid":true,"bestpath":true,"peerId":"192.0.2.1",'
                    '"nexthops":[{"ip":"192.0.2.1","used":true}]}]}}',
    "openbgpd-to-feeds": '{"rib":[{"prefix":"::/0"},{"prefix":"10.0.0.0/8","neighbor":{},"exit_nexthop":"192.0.2.1",'
                         '"valid":true,"best":true,"localpref":100}]}',
    "ip-to-feeds": '[{"dst":"::/0","gateway":"fe80::1","dev":"a","flags":[]},{"dst":"10.0.0.0/8","dev":"a","scope":"link","flags":[]}]',
}
# input without a member, that member, and the command whose output is expected
MISSING = (
    ("gobgp-to-feeds", b'{"10.0.0.0/8":[{"best":true}]}', "attrs", "`gobgp global rib -j`"),
    ("openbgpd-to-feeds", b'{"rib":[{}]}', "prefix", "`bgpctl -j show rib`"),
    ("ip-to-feeds", b"[{}]", "dst", "`ip -j route`"),
    ("frr-to-feeds", b'{"routes":{"10.0.0.0/8":[{"valid":true,"bestpath":true}]}}', "nexthops",
     "`show bgp ipv4 unicast json` or `show ip route json`"),
)


def gobgp(number):
    return "{" + ",\n".join(ONE_PATH.format(prefix) for prefix in prefixes(number)) + "}"


class Ends(ConverterCase):
    """Where lines and inputs end."""

    def test_last_line_without_its_end(self):
        """A last line without its end is refused, even if it would be whole."""
        for command, name in LINES:
            with self.subTest(command.split()[0]):
                ended = self.convert(command, sample(name).removesuffix(b"\n"))
                number = sample(name).count(b"\n")
                self.assertEqual((ended.returncode, ended.stdout), (1, ""))
                self.assertIn(f"line {number} has no line end (LF), so the input is truncated", ended.stderr)

    def test_crlf(self):
        """With CRLF instead of LF a sample gives the same result."""
        for command, name in LINES:
            with self.subTest(command.split()[0]):
                ended, crlf = (self.convert(command, sample(name).replace(b"\n", end)) for end in (b"\n", b"\r\n"))
                self.assertEqual((crlf.stdout, crlf.result), (ended.stdout, ended.result))

    def test_no_input(self):
        for converter in CONVERTERS:
            with self.subTest(converter):
                self.assert_unchanged(converter, b"", "is empty")

    def test_no_text(self):
        for converter in CONVERTERS:
            with self.subTest(converter):
                self.assert_unchanged(converter, b"\xff\x00[\n", "")

    def test_endless_input(self):
        """An input without an end ends at a size."""
        for converter in ("gobgp-to-feeds", "bird-to-feeds", "table-to-frr"):
            with self.subTest(converter):
                folder = [self.folder / "endless"] if converter.endswith("feeds") else []
                endless = subprocess.Popen(["yes", ""], stdout=subprocess.PIPE)
                try:
                    ended = call(f"{converter} --most 300000", None, *folder, stdin=endless.stdout, timeout=60)
                finally:
                    endless.stdout.close()
                    endless.wait()
                self.assertEqual((ended.returncode, ended.stderr[: len(converter) + 2], ended.stderr.count("\n")), (1, f"{converter}: ", 1))
                if converter == "gobgp-to-feeds":
                    self.assertEqual(ended.stderr, f"{converter}: the input has more than 300000 bytes: raise the limit with --most\n")

    def test_greatest_size(self):
        data = sample("bgpdump/rib.txt")
        self.assertEqual([self.convert(f"bgpdump-to-feeds --most {most}", data).returncode for most in (len(data), len(data) - 1)], [0, 1])


class Kinds(ConverterCase):
    """Input of another kind."""

    def test_compressed(self):
        """Compressed input is refused; the message names the form and the program that decompresses it."""
        data = sample("bgpdump/rib.txt")
        # zstd is not in Python's library: what it begins with (RFC 8878, 3.1.1)
        for name, reader, begun in (("gzip", "zcat", gzip.compress(data)), ("xz", "xzcat", lzma.compress(data)),
                                    ("bzip2", "bzcat", bz2.compress(data)), ("zstd", "zstdcat", b"\x28\xb5\x2f\xfd" + data)):
            for command in ("bgpdump-to-feeds", "ip-to-feeds"):
                with self.subTest(f"{command} {name}"):
                    told = f"{command}: the input is compressed ({name}): decompress it with {reader}\n"
                    self.assertEqual(self.convert(command, begun)[:3], (1, "", told))

    def test_byte_order_mark(self):
        """A byte order mark is named, since JSON may not begin with one, and PowerShell writes it."""
        text = sample("kernel/routes.json").decode()
        for encoding, form in (("UTF-8", "utf-8"), ("UTF-16", "utf-16-le"), ("UTF-16", "utf-16-be")):
            for command in ("ip-to-feeds", "bird-to-feeds"):
                with self.subTest(f"{command} {form}"):
                    told = f"{command}: the input begins with a byte order mark ({encoding}): write it as UTF-8 without one\n"
                    self.assertEqual(self.convert(command, f"\ufeff{text}".encode(form))[:3], (1, "", told))

    def test_missing_member(self):
        """If a member is missing, the message names the command whose output is expected."""
        for command, data, member, expected in MISSING:
            with self.subTest(command):
                ended = self.convert(command, data)
                begin = f"{command}: line 1: the member '{member}' is missing or of another kind: "
                self.assertEqual((ended.returncode, ended.stderr[: len(begin)]), (1, begin))
                end = f"; what is read is the output of {expected}\n"
                self.assertEqual(ended.stderr[-len(end) :], end)

    def test_default_of_ipv6(self):
        """`::/0` isn't read as 0.0.0.0/0."""
        for command, data in IPV6_DEFAULT.items():
            with self.subTest(command):
                ended = self.converted(command, data)
                self.assertRegex(ended.stderr, r"^accepted \d routes; omitted 1 of IPv6")
                self.assertNotIn("0.0.0.0/0", ended.text)


class Files(ConverterCase):
    """An error of the operating system names its file."""

    def test_input_that_can_not_be_read(self):
        with open(self.folder / "plain", "w") as plain:
            ended = call("gobgp-to-feeds", None, self.folder / "files", stdin=plain)
        self.assert_ended(ended, "", "gobgp-to-feeds: standard input: Bad file descriptor\n", 1)

    def test_file_as_the_directory(self):
        (self.folder / "plain").write_text("")
        ended = self.convert("gobgp-to-feeds", gobgp(1), folder="plain")
        self.assertEqual(ended[:3], (1, "", f"gobgp-to-feeds: {self.folder}/plain: Not a directory\n"))

    def test_directory_as_a_file(self):
        ended = self.convert("ip-to-feeds --nexthops", b"[]", self.folder)
        self.assertEqual(ended[:3], (1, "", f"ip-to-feeds: {self.folder}: Is a directory\n"))

    def test_output_that_accepts_nothing(self):
        with open("/dev/full", "w") as full:
            ended = call("table-to-frr --device uplink --onlink x", table_of("by-hand/outside.txt"), stdout=full)
        self.assert_ended(ended, "", "table-to-frr: standard output: No space left on device\n", 1)


class Many(ConverterCase):
    """Many lines, many peers, and more than a run accepts by default."""

    def check_peers(self, peers, each):
        """No line is lost, and among equal routes that of the lowest address comes first."""
        data = "".join(DUMPED.format(f"127.0.{peer >> 8}.{peer & 255}", prefix) for prefix in prefixes(each) for peer in range(peers))
        ended = self.converted("bgpdump-to-feeds", data, returncode=3 if peers > MAX_FEEDS else 0)
        self.assertEqual(ended.stderr.split(";")[0], f"accepted {peers * each} routes")
        self.assertEqual(len(ended.files), peers)
        for peer in range(peers):
            lines = ["version 2", *(f"add {prefix} {peer + 1} 192.0.2.1" for prefix in prefixes(each))]
            found = (ended.folder / f"127.0.{peer >> 8}.{peer & 255}.feed").read_text().splitlines()
            self.assertTrue(found == lines, f"peer {peer} has {len(found) - 1} lines in place of {each}, or others")

    def test_lines(self):
        self.check_peers(1, 310000)

    def test_peers(self):
        self.check_peers(2100, 1)

    def test_more_peers_than_files(self):
        self.check_peers(MAX_FEEDS + 6, 30)

    def test_json(self):
        self.assertEqual(self.convert("gobgp-to-feeds", gobgp(5000))[:3], (0, "", "accepted 5000 routes; omitted nothing\n"))

    def test_limit_of_a_run(self):
        """For a feed of more routes than a run accepts by default, the needed limit is reported."""
        for each, is_told in ((65536, False), (65537, True)):
            with self.subTest(f"{each} routes"):
                ended = self.convert("bgpdump-to-feeds", "".join(DUMPED.format("127.0.0.1", prefix) for prefix in prefixes(each)))
                told = (f"a feed has {each} routes: `yarib run` needs --limit {each}, as in yarib run --batch 256 --limit {each} "
                        f"{ended.folder}/*.feed")
                self.assertEqual(ended.stderr.splitlines()[1:], [told] * is_told)

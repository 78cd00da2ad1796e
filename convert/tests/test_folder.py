"""Tests of the directory that a converter writes: files of others in it, names, modes, and what was left of an earlier run."""
import fcntl
import os
import pathlib
import resource
import shutil
import stat
import subprocess
import tempfile
import unittest

from convert.tests.converting import OTHERWISE, ConverterCase, call
from dev.models.table_model import MAX_FEEDS

LINE = "TABLE_DUMP2|1|B|127.0.{}.{}|1|10.0.0.0/8|1|IGP|192.0.2.1|0|0||NAG||\n"
DUMP = LINE.format(0, 1).encode()
OTHER_DUMP = LINE.format(0, 2).encode()
BIRD = b"""Table master4:
10.0.0.0/8           unicast [mine 09:20:39.677] * (150)
	via 192.0.2.1 on uplink
"""
HAND, FEED = "version 2\n", "version 2\nadd 10.0.0.0/8 7 192.0.2.7\n"
# names of others, with what a terminal would obey
RAW = "\x1b[2Jx\x85\u202e\n"
VRFS = b"".join(b'{"vrfId":0,"vrfName":"%s","routerId":"1.1.1.1","routes":{"10.0.0.0/8":[{"valid":true,"bestpath":true,'
                b'"peerId":"192.0.2.1","nexthops":[{"ip":"192.0.2.1","used":true}]}]}}\n' % name
                for name in (b"a\\u001bb", b"\\u202ec"))
# another user, who isn't in the file of users
OTHER = 65533
# somebody else's files next to the directory `feeds`, or in its place: the commands, and a part of the message
TRAPS = (
    ("mkdir .feeds.new && ln -s {victim}/kept .feeds.new/.written", "/.feeds.new: remove it"),
    ("mkdir -m 777 .feeds.new", "/.feeds.new: remove it"),
    ("mkdir .feeds.new && mkfifo .feeds.new/.written", "/.feeds.new: remove it"),
    ("ln -s {victim} .feeds.new", "/.feeds.new isn't a directory: remove it"),
    ("ln -s {victim}/none .feeds.new", "/.feeds.new isn't a directory: remove it"),
    ("mkfifo .feeds.new", "/.feeds.new isn't a directory: remove it"),
    ("ln -s {victim} .feeds.old", "/.feeds.old isn't a directory: remove it"),
    ("mkfifo .feeds.old", "/.feeds.old isn't a directory: remove it"),
    ("mkdir .feeds.old && echo version 2 > .feeds.old/evil.feed", "/.feeds.old belongs to another user (number 65533)"),
    ("mkdir -m 777 feeds && echo version 2 > feeds/evil.feed", "/feeds belongs to another user (number 65533)"),
    ("mkdir feeds && ln -s {victim}/kept feeds/.written", "/feeds belongs to another user (number 65533)"),
    ("mkdir feeds && mkfifo feeds/.written", "/feeds belongs to another user (number 65533)"),
)
# the same of the user's own, which a program with other rights may have made
OWN_TRAPS = (
    ("mkdir .feeds.new && ln -s {victim}/kept .feeds.new/.written", "/.feeds.new/.written isn't a file: remove it"),
    ("mkdir .feeds.new && mkfifo .feeds.new/.written", "/.feeds.new/.written isn't a file: remove it"),
    ("mkdir -m 770 .feeds.new", "others than the user of this converter may write to"),
    ("ln -s {victim} .feeds.new", "/.feeds.new isn't a directory: remove it"),
    ("ln -s {victim} .feeds.old", "/.feeds.old isn't a directory: remove it"),
    ("mkdir feeds && ln -s {victim}/kept feeds/.written", "/feeds/.written isn't a file: remove it"),
    ("mkdir feeds && mkfifo feeds/.written", "/feeds/.written isn't a file: remove it"),
    ("mkdir feeds && echo nonsense > feeds/.written", "/feeds/.written has a line that no converter writes: 'nonsense'"),
)


def names_in(folder):
    """Returns the names in a directory, ordered."""
    return sorted(path.name for path in folder.iterdir())


def state_of(directory):
    """Returns what is in a directory: for each path its kind, owner and contents."""
    found = {}
    for path in sorted(directory.rglob("*")):
        status = path.lstat()
        contents = path.read_text() if stat.S_ISREG(status.st_mode) else ""
        found[path] = stat.S_IFMT(status.st_mode), status.st_uid, contents
    return found


class DirectoryCase(ConverterCase):
    """A test case whose conversions go into one directory."""

    def notes_of(self, command, data, returncode=0, folder="feeds"):
        """Returns the notes of a converter behind the first."""
        return self.converted(command, data, returncode=returncode, folder=folder).stderr.splitlines()[1:]

    @property
    def feeds(self):
        return self.folder / "feeds"


class Replaced(DirectoryCase):
    """What a converter replaces, and what it keeps."""

    def test_its_own_feeds(self):
        """What the converter wrote before is replaced and reported, even if it had many more sources."""
        many = "".join(LINE.format(number // 200, number % 200) for number in range(1500)).encode()
        self.assertEqual(self.notes_of("bgpdump-to-feeds", many, OTHERWISE), [
            f"1500 feeds are in the directory, and `yarib` accepts at most {MAX_FEEDS} files (status 3): use "
            f"--merge {MAX_FEEDS} to merge the sources with the fewest routes; the sources are 127.0.0.0, "
            "127.0.0.1, 127.0.0.2, .."])
        self.assertEqual(len(names_in(self.feeds)), 1501)
        self.assertEqual(self.notes_of("bgpdump-to-feeds", DUMP), ["replaced 1500 feeds that bgpdump-to-feeds had written"])
        self.assertEqual(names_in(self.feeds), [".written", "127.0.0.1.feed"])

    def test_feeds_of_others(self):
        """Files of another converter, and files written by hand, are kept."""
        self.write({"feeds/hand.feed": HAND})
        self.feeds.chmod(0o750)
        self.assertEqual(self.notes_of("bgpdump-to-feeds", DUMP), ["kept 1 feeds that bgpdump-to-feeds had not written: hand.feed"])
        self.assertEqual(self.notes_of("bird-to-feeds", BIRD),
                         ["kept 2 feeds that bird-to-feeds had not written: 127.0.0.1.feed, hand.feed"])
        self.assertEqual(self.notes_of("bgpdump-to-feeds", OTHER_DUMP), [
            "replaced 1 feeds that bgpdump-to-feeds had written",
            "kept 2 feeds that bgpdump-to-feeds had not written: hand.feed, mine.feed"])
        self.assertEqual(names_in(self.feeds), [".written", "127.0.0.2.feed", "hand.feed", "mine.feed"])
        self.assertEqual(self.feeds.stat().st_mode & 0o777, 0o750)

    def test_feed_that_was_changed(self):
        """A converter's file that was changed is kept, even instead of a converter's file."""
        self.notes_of("bgpdump-to-feeds", OTHER_DUMP)
        self.write({"feeds/127.0.0.2.feed": FEED, "feeds/hand.feed": HAND})
        self.assertEqual(self.notes_of("bgpdump-to-feeds", DUMP),
                         ["kept 2 feeds that bgpdump-to-feeds had not written: 127.0.0.2.feed, hand.feed"])
        ended = self.converted("bgpdump-to-feeds", OTHER_DUMP, folder="feeds", returncode=1)
        self.assertIn(f"{self.feeds}/127.0.0.2.feed is not what bgpdump-to-feeds wrote", ended.stderr)
        self.assertEqual((self.feeds / "127.0.0.2.feed").read_text(), FEED)
        self.assertEqual(names_in(self.feeds), [".written", "127.0.0.1.feed", "127.0.0.2.feed", "hand.feed"])

    def test_other_things(self):
        """A directory that contains anything but feed files is refused."""
        self.write({"feeds/notes.txt": "mine\n"})
        self.assert_refused(self.convert("bgpdump-to-feeds", DUMP, folder="feeds"), "other files than feeds (notes.txt)")
        self.assertEqual(names_in(self.feeds), ["notes.txt"])

    def test_links(self):
        """A kept feed that is a link stays one, and what it leads to stays as it is."""
        self.write({"elsewhere.feed": FEED, "feeds/other.feed": HAND})
        elsewhere, link = self.folder / "elsewhere.feed", self.feeds / "mine.feed"
        link.symlink_to("../elsewhere.feed")
        for data in (DUMP, OTHER_DUMP):
            self.assertEqual(self.notes_of("bgpdump-to-feeds", data)[-1],
                             "kept 2 feeds that bgpdump-to-feeds had not written: mine.feed, other.feed")
            self.assertEqual((link.is_symlink(), os.readlink(link)), (True, "../elsewhere.feed"))
            self.assertEqual((elsewhere.stat().st_nlink, elsewhere.read_text()), (1, FEED))

    def test_link_in_place_of_a_feed(self):
        """A link that replaces a file of the converter belongs to somebody else, even if it leads to the same file."""
        self.notes_of("bgpdump-to-feeds", OTHER_DUMP)
        written = self.feeds / "127.0.0.2.feed"
        written.rename(self.folder / "moved.feed")
        written.symlink_to("../moved.feed")
        ended = self.convert("bgpdump-to-feeds", OTHER_DUMP, folder="feeds")
        self.assertEqual((ended.returncode, written.is_symlink()), (1, True), ended.stderr)

    def test_root(self):
        """The root isn't a directory that could be replaced."""
        for name in ("/", "//", f"{self.folder}/../" + "../" * 20):
            with self.subTest("the test's directory and .." if ".." in name else name):
                ended = call("bgpdump-to-feeds", DUMP, name)
                self.assertEqual((ended.returncode, ended.stderr),
                                 (1, f"bgpdump-to-feeds: {name} can't be a directory of feeds: name one in it\n"))

    def test_modes(self):
        """A new directory has the usual mode, and a replaced one that of the one before."""
        mask = os.umask(0o002)
        try:
            self.notes_of("bgpdump-to-feeds", DUMP)
        finally:
            os.umask(mask)
        self.assertEqual(stat.S_IMODE(self.feeds.stat().st_mode), 0o775)
        self.feeds.chmod(0o2750)
        self.notes_of("bgpdump-to-feeds", DUMP)
        self.assertEqual(stat.S_IMODE(self.feeds.stat().st_mode), 0o2750)


class Interrupted(DirectoryCase):
    """What was left by a run that ended before its end."""

    def test_killed_before_the_new_one_was_in_place(self):
        self.notes_of("bgpdump-to-feeds", DUMP, folder="half/feeds")
        self.write({"half/feeds/hand.feed": HAND})
        folder = self.folder / "half/feeds"
        folder.rename(folder.parent / ".feeds.old")
        ended = self.convert("bird-to-feeds", b"nonsense\n", folder="half/feeds")
        self.assertEqual((ended.returncode, names_in(folder), names_in(folder.parent)),
                         (1, [".written", "127.0.0.1.feed", "hand.feed"], ["feeds"]), ended.stderr)

    def test_killed_after_the_new_one_was_in_place(self):
        """Nothing is lost, nor what came in the meantime."""
        self.notes_of("bgpdump-to-feeds", DUMP, folder="half/feeds")
        folder, old = self.folder / "half/feeds", self.folder / "half/.feeds.old"
        self.write({"half/feeds/hand.feed": HAND})
        folder.rename(old)
        folder.mkdir()
        os.link(old / "hand.feed", folder / "hand.feed")
        (old / "late.feed").write_text(HAND)
        self.notes_of("bird-to-feeds", BIRD, folder="half/feeds")
        self.assertEqual((names_in(folder), names_in(folder.parent)),
                         ([".written", "hand.feed", "late.feed", "mine.feed"], ["feeds"]))

    def test_directory_that_is_locked(self):
        """A converter that comes before another has cleared away is refused: that one holds the lock of the new
        directory until it has removed the old one."""
        self.notes_of("bgpdump-to-feeds", DUMP, folder="two/feeds")
        with open(self.folder / "two/feeds/.written", "a") as record:
            fcntl.flock(record, fcntl.LOCK_EX)
            ended = self.converted("bird-to-feeds", BIRD, folder="two/feeds", returncode=1)
        self.assertIn(f"another converter is writing to {self.folder}/two/feeds", ended.stderr)
        self.assertEqual(names_in(self.folder / "two"), ["feeds"])

    def test_file_that_can_not_be_written(self):
        """An error of a file names it, and leaves nothing."""
        limited = lambda: resource.setrlimit(resource.RLIMIT_FSIZE, (20, 20))
        ended = self.convert("bgpdump-to-feeds", DUMP, folder="disk/feeds", preexec_fn=limited)
        self.assertEqual((ended.returncode, ended.stderr),
                         (1, f"bgpdump-to-feeds: {self.folder}/disk/.feeds.new/0: File too large\n"))
        self.assertFalse((self.folder / "disk").exists())


class Shared(ConverterCase):
    """A directory where everybody may write."""

    def setUp(self):
        place = tempfile.TemporaryDirectory(prefix="yarib-test-")
        self.addCleanup(place.cleanup)
        pathlib.Path(place.name).chmod(0o755)
        self.shared, self.victim = pathlib.Path(place.name).resolve() / "shared", self.folder / "victim"
        self.write({"victim/kept": "kept\n", "victim/kept.feed": HAND})
        self.shared.mkdir()
        self.shared.chmod(0o1777)

    def assert_not_trapped(self, commands, user, part):
        """Fails unless somebody's commands make the converter refuse the directory, and it changes none of their files, and
        nothing elsewhere. It doesn't wait either."""
        commands = commands.format(victim='"$VICTIM"')
        subprocess.run(["sh", "-ec", commands], cwd=self.shared, user=user, check=True, env=os.environ | {"VICTIM": str(self.victim)})
        before = state_of(self.shared), state_of(self.victim)
        ended = self.convert("bgpdump-to-feeds", DUMP, folder=self.shared / "feeds", timeout=20)
        self.assertEqual((state_of(self.shared), state_of(self.victim)), before, ended.stderr)
        self.assert_refused(ended, part)
        for path in self.shared.iterdir():
            shutil.rmtree(path) if path.is_dir() and not path.is_symlink() else path.unlink()

    @unittest.skipIf(os.geteuid(), "only root can make another user's files")
    def test_files_of_another_user(self):
        """Nothing of another user is followed, emptied, waited for or taken over."""
        for commands, part in TRAPS:
            with self.subTest(commands):
                self.assert_not_trapped(commands, OTHER, part)

    def test_own_files(self):
        """Nor is what a program of the same user made."""
        for commands, part in OWN_TRAPS:
            with self.subTest(commands):
                self.assert_not_trapped(commands, None, part)

    def test_new_directory(self):
        self.converted("bgpdump-to-feeds", DUMP, folder=self.shared / "feeds")
        self.assertEqual(names_in(self.shared), ["feeds"])


class Messages(DirectoryCase):
    """What a terminal would obey is written as `repr` writes it."""

    SHOWN = repr(RAW)[1:-1]

    def test_name_of_a_kept_file(self):
        self.write({f"feeds/{RAW}.feed": HAND})
        self.assertEqual(self.notes_of("bgpdump-to-feeds", DUMP),
                         [f"kept 1 feeds that bgpdump-to-feeds had not written: {self.SHOWN}.feed"])

    def test_name_of_another_file(self):
        self.write({f"feeds/{RAW}": ""})
        ended = self.convert("bgpdump-to-feeds", DUMP, folder="feeds")
        told = f"bgpdump-to-feeds: {self.feeds} contains other files than feeds ({self.SHOWN}): name a new directory\n"
        self.assertEqual((ended.returncode, ended.stderr), (1, told))

    def test_input(self):
        for name, command, data, part in (
            ("version", "bird-to-feeds", b"BIRD 9\x1b[2J ready.\n", "BIRD 9\\x1b[2J"),
            ("type of a route", "ip-to-feeds", b'[{"dst":"10.0.0.0/8","type":"\\u001b[2J","dev":"a"}]',
             "is a route of type \\x1b[2J, which has no"),
            ("names of VRFs", "frr-to-feeds", VRFS, "several VRFs: a\\x1bb, \\u202ec; "),
        ):
            with self.subTest(name):
                self.assert_refused(self.convert(command, data), part)

    def test_arguments(self):
        ended = self.convert("bird-to-feeds --table", DUMP, RAW, f"--{RAW}")
        self.assertEqual(ended.returncode, 2)
        told = f"bird-to-feeds: error: unrecognized arguments: --{self.SHOWN}\n"
        self.assertEqual(ended.stderr[-len(told) :], told)

    def test_directory_whose_name_is_not_utf_8(self):
        self.converted("bird-to-feeds", BIRD, folder="none/\udcff")

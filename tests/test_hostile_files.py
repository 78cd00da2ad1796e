"""Runs the program on paths that aren't files, on files that can't be read, on pipes among long files, which several
threads read, and with outputs that accept nothing."""
import os
import pathlib
import resource
import signal
import subprocess
import time

from dev.models.table_model import MAX_FEEDS, row
from dev.testing import TestCase, program
from tests.texts import AGAIN, ROW, ROW_OUT

NEEDS = {"program"}
# A comment that makes three files, or two, as long as it takes for a second thread to read them.
LONG = f"# {'-' * 100}\n" * 11_000
CANNOT_WRITE = "yarib: cannot write\n"
# Calls with an output, and calls without one.
WRITING = [
    "lookup --help", "table --help", "lookup --address 10.0.0.1 row.feed", "table row.feed", "--help", "help run",
    "run --help", "replay --help", "--version", "-V", "replay --levels 6", "replay --levels 2 3 3 3 3 3 3 3 3 3 3 3 3",
    "replay --levels 1 0", "run row.feed", "run empty.feed", "run faulty.feed", "run large.feed",
    "lookup --addresses addresses.txt row.feed", "lookup --all --addresses addresses.txt row.feed",
    "diff row.feed -- empty.feed",
]
SILENT = [
    ("table empty.feed", "", 0), ("run missing", "yarib: cannot read missing\n", 4),
    ("replay --levels 7", "yarib: fault P2\n", 3),
]


def rows_of(feeds):
    """Returns the rows of these feeds to the prefix of ROW."""
    return "".join(row("10.0.0.0/8", feed, 100) for feed in feeds)


class FileCase(TestCase):
    def setUp(self):
        self.write({"row.feed": ROW, "empty.feed": "", "faulty.feed": "frob\n"})

    def assert_prints(self, name, words, stdout="", stderr="", returncode=0, **settings):
        with self.subTest(name):
            self.assert_ended(self.yarib(*words, **settings), stdout, stderr, returncode)

    def assert_unreadable(self, name, words, path, **settings):
        self.assert_prints(name, words, "", f"yarib: cannot read {path}\n", 4, **settings)

    def write_only(self):
        """Returns a regular file that has a length and can't be read, or None."""
        if os.geteuid() != 0:
            self.write({"locked.feed": LONG})
            (self.folder / "locked.feed").chmod(0)
            return self.folder / "locked.feed"
        probes = sorted(pathlib.Path("/sys/bus").glob("*/drivers_probe"))
        return next((path for path in probes if path.stat().st_size), None)


class Files(FileCase):
    def test_missing_files_and_directories(self):
        others, missing = ["row.feed"] * (MAX_FEEDS - 3), "missing.feed"
        for name, words, path in (
            ("one missing, one a directory, one empty", ["run", *others, "empty.feed", missing, "."], missing),
            ("the directory before the missing one", ["run", *others, ".", "empty.feed", missing], "."),
            ("the missing one first", ["run", missing, *others, ".", "empty.feed"], missing),
            ("a look-up", ["lookup", "--address", "10.0.0.1", *others, "empty.feed", missing, "."], missing),
        ):
            self.assert_unreadable(name, words, path)

    def test_one_empty_file(self):
        ended = self.yarib("run", *["row.feed"] * (MAX_FEEDS - 3), "empty.feed", "row.feed", "row.feed")
        self.assertEqual((ended.returncode, ended.stdout.count(" added\n"), ended.stderr), (0, MAX_FEEDS - 1, ""))
        self.assertIn(f"table {MAX_FEEDS - 1}\n", ended.stdout)

    def test_files_that_cannot_be_read(self):
        # Both are regular files, but reading them fails.
        memory, same = "/proc/self/mem", "/proc/thread-self/mem"
        self.assert_unreadable("two", ["table", "row.feed", memory, "row.feed", same, "row.feed"], memory)
        self.assert_unreadable("two, the other way", ["table", same, "row.feed", "row.feed", memory], same)

    def test_a_file_without_permission(self):
        if os.geteuid() == 0:
            self.skipTest("root may read every file")
        self.write({"locked.feed": ROW})
        (self.folder / "locked.feed").chmod(0)
        self.assert_unreadable("run", ["run", "locked.feed"], "locked.feed")

    # Catches F3 of `lookup` or `table` for more than 6 texts, or a seventh file that `table` can't read: `the table of
    # 7 files`.
    # Catches F3 for more than 33 texts, or a `lookup` that rejects the maximum number of files: `addresses from a pipe
    # and MAX_FEEDS files`.
    def test_one_file_over_and_over(self):
        file = "row.feed"
        self.assert_prints("the same file twice", ["run", file, file],
                           f"1:1 added\n2:1 added\ntable 2\n{rows_of((1, 2))}")
        for count, name in ((1, "1"), (7, "7"), (MAX_FEEDS, "MAX_FEEDS")):
            listed = rows_of(range(1, count + 1))
            first, *others = listed.splitlines()
            self.assert_prints(f"the table of {name} files", ["table", *[file] * count], listed)
            self.assert_prints(f"addresses from a pipe and {name} files",
                               ["lookup", "--addresses", "/dev/stdin", *[file] * count],
                               f"10.0.0.1 route {first}\n", input="10.0.0.1\n")
            every = f"10.0.0.1 route {first}\n" + "".join(f"10.0.0.1 also {line} feed\n" for line in others)
            self.assert_prints(f"all that covers, in {name} files",
                               ["lookup", "--all", "--address", "10.0.0.1", *[file] * count], every)


class Pipes(FileCase):
    def test_standard_input(self):
        self.assert_prints("a pipe as /dev/stdin", ["run", "/dev/stdin"], ROW_OUT, input=ROW)
        with open(self.folder / "row.feed") as text:
            self.assert_prints("a file as /dev/stdin", ["run", "/dev/stdin"], ROW_OUT, stdin=text)
        with open("/dev/zero") as text:
            self.assert_prints("it is read only if it is named", ["run", "row.feed"], ROW_OUT, stdin=text)
        self.assert_prints("/dev/null", ["run", "/dev/null"], "table 0\n")

    def test_a_named_pipe_that_ends_in_a_line(self):
        os.mkfifo(self.folder / "pipe")
        with subprocess.Popen(["sh", "-c", f'printf "{ROW[:10]}" > pipe'], cwd=self.folder) as writer:
            self.assert_prints("run", ["run", "pipe"], "1:1 fault E2\ntable 0\n", "", 2)
            writer.terminate()


class LongFiles(FileCase):
    """Files that are read on several threads, if there are several processors."""

    def setUp(self):
        self.feeds = [f"long{feed}.feed" for feed in range(1, 10)]
        self.write({name: f"add 10.0.{feed}.0/24 {feed} 192.0.2.{feed}\n{LONG * (feed % 3)}"
                    for feed, name in enumerate(self.feeds, 1)})
        self.rows = [row(f"10.0.{feed}.0/24", feed, feed, f"192.0.2.{feed}") for feed in range(1, 10)]

    # Catches texts that are given to other files than theirs.
    def test_texts_of_their_files(self):
        feeds, rows = self.feeds, self.rows
        self.assert_prints("table", ["table", *feeds], "".join(rows))
        with self.subTest("run"):
            self.assertEqual(self.yarib("run", *feeds).stdout.splitlines(True)[-9:], rows)
        self.assert_prints("two left out", ["table", "--without", "2", "--without", "9", *feeds],
                           "".join(rows[:1] + rows[2:8]))
        self.assert_prints("a missing one left out", ["table", "--without", "2", feeds[0], "missing", *feeds[2:]],
                           "".join(rows[:1] + rows[2:]))
        self.assert_prints("of both sides", ["diff", *feeds[:2], "--", *feeds[:3]],
                           "10.0.3.0-10.0.3.255 no route -> via 192.0.2.3\n", "", 1)

    # Catches a file that is reported in place of an earlier one, and one that is read although an earlier one can't be.
    def assert_first_reported(self, locked):
        """Fails unless the first file that can't be read is reported."""
        feeds = self.feeds
        self.assert_unreadable("the first", ["table", *feeds[:4], locked, *feeds[4:], "missing"], locked)
        self.assert_unreadable("a feed left out",
                               ["table", "--without", "3", *feeds[:4], locked, *feeds[4:], "missing"], locked)
        self.assert_unreadable("a missing file before", ["table", *feeds[:4], "missing", locked, *feeds[4:]], "missing")
        self.assert_unreadable("of the old side", ["diff", *feeds[:4], locked, "--", "missing", *feeds[4:]], locked)
        self.assert_unreadable("of the new side", ["diff", *feeds[:4], "--", *feeds[4:], locked, "missing"], locked)
        self.assert_unreadable("no file of addresses", ["lookup", "--addresses", "missing", *feeds[:4], locked], locked)

    def test_a_directory_among_them(self):
        self.assert_first_reported(self.folder)

    def test_a_file_that_cannot_be_read_among_them(self):
        if (locked := self.write_only()) is None:
            self.skipTest("root may read every file here")
        self.assert_first_reported(locked)


# Catches files that are read out of order around a pipe.
class LongFilesAndPipes(FileCase):
    def setUp(self):
        self.write({"long": LONG, "other": LONG + ROW, "later": LONG})
        for name in ("pipe", "second"):
            os.mkfifo(self.folder / name)

    def assert_fed(self, name, script, words, still_waits=None, **ending):
        """Compares how a call ends while a shell writes to the pipes, and whether the shell still waits then."""
        with self.subTest(name), subprocess.Popen(["sh", "-c", script], cwd=self.folder) as writer:
            try:
                ended = self.yarib(*words)
                time.sleep(0.2)
                if still_waits is not None:
                    self.assertEqual(writer.poll() is None, still_waits)
            finally:
                writer.kill()
            self.assert_ended(ended, **ending)

    def test_texts_behind_a_pipe(self):
        """What is behind the pipe is read after its end: its writer changes that."""
        script = f'exec 3>pipe; sleep 0.2; {{ cat long; printf "{ROW}"; }} >later; printf "{ROW}" >&3'
        self.assert_fed("table", script, ["table", "long", "other", "pipe", "later"], stdout=rows_of((2, 3, 4)))
        self.write({"later": LONG})
        self.assert_fed("the old side", script, ["diff", "long", "pipe", "--", "long", "later"])

    ONE_BY_ONE = f'printf "{ROW}" >pipe; printf "{ROW}" >second'

    def test_two_pipes_in_their_order(self):
        for files, feeds in (("pipe long other second", (1, 3, 4)), ("long other pipe second", (2, 3, 4)),
                             ("pipe second long other", (1, 2, 4))):
            self.assert_fed(files, self.ONE_BY_ONE, ["table", *files.split()], stdout=rows_of(feeds))

    # Catches a pipe that is opened although an earlier file can't be read.
    def test_a_pipe_behind_what_cannot_be_read(self):
        for name, locked in (("a directory", self.folder), ("missing", "missing"), ("a file", self.write_only())):
            if locked is None:
                with self.subTest(name):
                    self.skipTest("root may read every file here")
            else:
                self.assert_fed(name, self.ONE_BY_ONE, ["table", "long", "other", locked, "pipe"], True,
                                stderr=f"yarib: cannot read {locked}\n", returncode=4)

    def test_standard_input_twice(self):
        self.assert_prints("a pipe behind long files", ["table", "long", "other", "/dev/stdin", "/dev/stdin"],
                           rows_of((2, 3)), input=ROW)
        with open(self.folder / "other") as text:
            self.assert_prints("a long file", ["table", "long", "/dev/stdin", "/dev/stdin"], rows_of((2, 3)),
                               stdin=text)


class Outputs(FileCase):
    def setUp(self):
        super().setUp()
        self.write({"large.feed": AGAIN * 2_500, "addresses.txt": "10.0.0.1\n" * 5_000})

    # Catches status 0 if help or version can't be written: `--help`.
    # Catches status 0 for an output that accepts nothing: the status is not 6.
    def test_outputs_that_accept_nothing(self):
        reading, writing = os.pipe()
        os.close(reading)
        with open("/dev/full", "w") as full, open(writing, "w") as unread:
            for name, stderr, settings in (
                ("a full output", CANNOT_WRITE, {"stdout": full}),
                ("both outputs full", "", {"stdout": full, "stderr": full}),
                ("a closed output", CANNOT_WRITE, {"stdout": None, "preexec_fn": lambda: os.close(1)}),
                ("a pipe without a reader", CANNOT_WRITE, {"stdout": unread}),
                ("nothing is open", "", {"stdout": None, "stderr": None, "preexec_fn": lambda: os.closerange(0, 3)}),
            ):
                for words in WRITING:
                    with self.subTest(f"{words}: {name}"):
                        self.assert_ended(self.yarib(*words.split(), **settings), "", stderr, 6)
        self.assertEqual((self.folder / "row.feed").read_text(), ROW)

    def test_closed_outputs_that_nothing_needs(self):
        for words, stderr, returncode in SILENT:
            with self.subTest(words):
                ended = self.yarib(*words.split(), stdout=None, preexec_fn=lambda: os.close(1))
                self.assert_ended(ended, "", stderr, returncode)

    def test_a_reader_that_leaves(self):
        """The reader of the output reads its beginning and closes it."""
        with subprocess.Popen([program(), "run", "large.feed"], cwd=self.folder, stdout=subprocess.PIPE,
                              stderr=subprocess.PIPE) as process:
            self.assertEqual(process.stdout.read(10), b"1:1 added\n")
            process.stdout.close()
            stderr = process.stderr.read().decode()
            self.assertEqual((process.wait(), stderr), (6, CANNOT_WRITE))

    def test_a_disc_that_fills(self):
        """The output's file may not grow beyond some size: the file's contents are a prefix of the output."""
        whole = self.yarib("run", "large.feed").stdout
        for size in (0, 1, 4_096, 65_535, 65_536, 65_537, 131_072, len(whole) - 1):
            def limit():
                signal.signal(signal.SIGXFSZ, signal.SIG_IGN)
                resource.setrlimit(resource.RLIMIT_FSIZE, (size, size))

            target = self.folder / "target"
            with self.subTest(f"at most {size} bytes"), open(target, "w") as output:
                ended = self.yarib("run", "large.feed", stdout=output, preexec_fn=limit)
                self.assert_ended(ended, "", CANNOT_WRITE, 6)
            with self.subTest(f"the first {size} bytes"):
                self.assertTrue(target.read_text() == whole[:size])

    def test_standard_error_closed(self):
        ended = self.yarib("run", "row.feed", stderr=None, preexec_fn=lambda: os.close(2))
        self.assertEqual(ended.returncode, 0)

"""Tests ./install with the program that is judged: which files it leaves, that the program runs as if called directly, and
that a call that is killed, repeated or made beside others leaves nothing wrong. If the user may make a root directory
(unshare, chroot), the installed program is also run in one that has nothing but sh, wc and the C library."""
import os
import pathlib
import shutil
import subprocess
import unittest

from dev.crates import TOP
from dev.testing import TestCase, call, environment, is_unproved, launched, needs_command, program
from dev.tests.stub_toolchain import library_stub
from dev.versions import VERSION, build_line
from tests.copies import CopyCase, build, built_in, files_below, first_on_path, write_script
from tests.texts import ROW, ROW_OUT

NEEDS = {"program"}
LICENCES = [f"share/doc/yarib/licences/{path.name}" for path in sorted((TOP / "packaging/licences").iterdir())]
INSTALLED = ["bin/yarib", "libexec/yarib/installed-files", "libexec/yarib/yarib", "libexec/yarib/yarib.size-N",
             "share/bash-completion/completions/yarib", "share/doc/yarib/NOTICES.md", *LICENCES, "share/man/man1/yarib.1",
             "share/zsh/site-functions/_yarib"]
# The settings of the calls that fill several arenas, or one, and whether memory is limited: arenas of large pages, which
# request address space in large pieces.
ARENAS = "glibc.malloc.arena_max=64:glibc.malloc.hugetlb=1"
MEMORY = {(False, False): "glibc.malloc.arena_max=1:glibc.malloc.hugetlb=1",
          (False, True): "glibc.malloc.arena_max=1:glibc.malloc.hugetlb=1",
          (True, False): f"{ARENAS}:glibc.malloc.top_pad=67108864:glibc.malloc.mmap_threshold=4194304", (True, True): ARENAS}
# No limit, and limits of address space and of data, in KB.
LIMITS = {"no limit": [], **{f"a limit by ulimit {which}": ["sh", "-c", f'ulimit {which} 8000000; exec "$0" "$@"']
                             for which in ("-v", "-d")}}
USERS = {"no setting": None, "an empty setting": "", "settings": "glibc.malloc.arena_max=7:x=y z"}
# Replaces the program: prints its arguments and its memory setting.
TELLING = '#!/bin/sh\nprintf "%s\\n" "$0" "$GLIBC_TUNABLES" "$@"\n'
# Replaces a command, and kills its caller at a step that is numbered.
KILLING = """#!/bin/sh
echo >>"$COUNT"
if [ "$(wc -l <"$COUNT")" = "$AT" ]; then kill -9 $PPID; exit; fi
exec COMMAND "$@"
"""
# Replaces a command, and notes its arguments, with a tab after each.
NOTING = '#!/bin/sh\n{ printf "%s\\t" NAME "$@"; echo; } >>"$NOTES"\nexec COMMAND "$@"\n'


class Installed(CopyCase):
    """What is installed below an odd name, and what is installed over it and removed."""

    @classmethod
    def setUpClass(cls):
        super().setUpClass()
        cls.prefix = cls.shared / "it's here" / "deep"
        ended = call([cls.copy / "install", cls.prefix], env=environment())
        if ended.returncode:
            raise AssertionError(f"./install: {ended}")

    def test_files_installed_twice(self):
        prefix = self.folder / "it's here"
        for time in ("once", "twice"):
            with self.subTest(time):
                self.assert_ended(self.install(prefix), f"install: {prefix}/bin/yarib, its manual and completions are installed\n")
                self.assertEqual(files_below(prefix), INSTALLED)

    def test_modes_and_contents(self):
        modes = {oct((self.prefix / name).stat().st_mode & 0o777) for name in ("bin/yarib", "libexec/yarib/yarib")}
        self.assertEqual(modes, {"0o755"})
        self.assertEqual((self.prefix / "libexec/yarib/yarib").read_bytes(), program().read_bytes())
        self.assertEqual((self.prefix / "share/man/man1/yarib.1").read_text(), (TOP / "packaging/yarib.1").read_text())

    def test_links_of_the_notices(self):
        folder = self.prefix / "share/doc/yarib"
        notices = (folder / "NOTICES.md").read_text()
        for path in sorted((folder / "licences").iterdir()):
            self.assertIn(f"[MIT](licences/{path.name})", notices)
        self.assertNotIn("packaging/licences", notices)

    def test_runs(self):
        (self.folder / "linked").symlink_to(self.prefix / "bin/yarib")
        for name, launcher in (("the launcher", self.prefix / "bin/yarib"), ("a link to it", self.folder / "linked")):
            with self.subTest(name):
                self.assert_ended(self.call(launcher, "run", "row.feed"), ROW_OUT)
                self.assertIn("Usage: yarib run", self.call(launcher, "run", "--help").stdout)
                self.assert_ended(self.call(launcher, "run", "missing"), stderr="yarib: cannot read missing\n", returncode=4)

    # Catches a launcher that lets a limit on the size of files end the program by a signal.
    def test_file_that_is_too_large(self):
        self.write({"many.feed": "".join(f"add 10.{one // 256}.{one % 256}.0/24 1 192.0.2.1\n" for one in range(4096))})
        for name, launcher in (("./yarib", self.copy / "yarib"), ("what is installed", self.prefix / "bin/yarib")):
            with self.subTest(name):
                ended = self.call("bash", "-c", 'ulimit -f 8; exec "$0" "$@" >output', launcher, "run", "many.feed")
                self.assert_ended(ended, stderr="yarib: cannot write\n", returncode=6)

    # Catches a build that doesn't say what it was made of.
    def test_version(self):
        for name, launcher in (("./yarib", self.copy / "yarib"), ("what is installed", self.prefix / "bin/yarib")):
            for word in ("--version", "-V"):
                with self.subTest(f"{name} {word}"):
                    self.assert_ended(self.call(launcher, word), f"yarib {VERSION}\n{build_line('rt_app')}\n")

    def test_version_that_cannot_be_written(self):
        ended = self.call("sh", "-c", '"$0" --version >/dev/full', self.prefix / "bin/yarib")
        self.assert_ended(ended, stderr=None, returncode=6)

    def test_removal(self):
        prefix = self.folder / "it's here" / "deep"
        self.install(prefix)
        self.write({"it's here/own": ""})
        self.assert_ended(self.install("--remove", prefix), f"install: yarib is removed from {prefix}\n")
        self.assertEqual((files_below(self.folder / "it's here"), prefix.exists()), (["own"], False))
        self.assert_ended(self.install("--remove", prefix), stderr=f"install: nothing is installed below {prefix}\n", returncode=1)

    def test_arguments_that_are_refused(self):
        for name, words in (("an option", ["--frob"]), ("an empty prefix", [""]), ("two prefixes", ["a", "b"]),
                            ("two prefixes to remove from", ["--remove", "a", "b"])):
            with self.subTest(name):
                self.assert_ended(self.install(*words), stderr=None, returncode=2)

    # Catches an installation whose files a root's umask hides, or whose relative prefix isn't resolved in the caller's
    # directory.
    def test_relative_prefix_with_umask_077(self):
        self.assert_ended(self.install("a/b", preexec_fn=lambda: os.umask(0o077)), stdout=None)
        prefix = self.folder / "a/b"
        self.assertEqual(files_below(prefix), INSTALLED)
        self.assertEqual([path for path in [prefix.parent, prefix, *prefix.rglob("*")] if not path.stat().st_mode & 0o004], [])

    # Catches an installation that writes into a running program.
    def test_installed_while_it_runs(self):
        prefix = self.folder / "put"
        self.install(prefix)
        running = subprocess.Popen([prefix / "bin/yarib", "run", "/dev/stdin"], stdin=subprocess.PIPE, stdout=subprocess.PIPE,
                                   text=True, cwd="/", env=environment())
        before = (prefix / "libexec/yarib/yarib").stat().st_ino
        self.assert_ended(self.install(prefix), stdout=None)
        self.assertNotEqual((prefix / "libexec/yarib/yarib").stat().st_ino, before)
        self.assertEqual((running.communicate(ROW)[0], running.returncode), (ROW_OUT, 0))

    # Catches one that installs the launcher before its program.
    def test_full_disk(self):
        ended = self.call("bash", "-c", 'trap "" XFSZ; ulimit -f 100; exec "$0" "$@"', self.copy / "install", self.folder / "full")
        self.assertNotEqual(ended.returncode, 0)
        self.assertEqual([name for name in files_below(self.folder / "full") if name.startswith("bin/")], [])

    # Catches a launcher that runs an empty or cut program.
    def test_damaged_program_is_refused(self):
        prefix = self.folder / "put"
        self.install(prefix)
        installed = prefix / "libexec/yarib/yarib"
        whole = installed.read_bytes()
        for name, content in (("empty", b""), ("cut", whole[:-1]), ("half", whole[:len(whole) // 2]), ("missing", None)):
            installed.unlink(missing_ok=True)
            if content is not None:
                write_script(installed, "")
                installed.write_bytes(content)
            for words in (["diff", "row.feed", "--", "row.feed"], ["--version"]):
                with self.subTest(f"{name}: {words[0]}"):
                    ended = self.call(prefix / "bin/yarib", *words)
                    self.assert_ended(ended, stderr=None, returncode=126)
                    self.assertEqual(ended.stderr.splitlines()[-1:], [f"yarib: {installed} is damaged or missing: install it again"])

    # Catches a directory's name that is used wrongly.
    def test_name_that_is_not_utf8(self):
        prefix = os.fsencode(self.folder) + b"/\xff"
        self.assert_ended(self.install(prefix), stdout=None)
        self.assert_ended(self.call(prefix + b"/bin/yarib", "run", "row.feed"), ROW_OUT)
        self.assert_ended(self.call(prefix + b"/bin/yarib", "--version"), stdout=None)
        self.assert_ended(self.install("--remove", prefix), stdout=None)
        self.assertFalse(os.path.exists(prefix))

    # Catches calls that use each other's temporary files or record.
    def test_30_calls_at_once(self):
        prefix = self.folder / "new/deep"
        self.assert_installed_at_once(30, prefix)
        self.assertEqual(files_below(prefix), INSTALLED)
        self.assert_ended(self.call(prefix / "bin/yarib", "run", "row.feed"), ROW_OUT)
        self.assert_ended(self.install("--remove", prefix), stdout=None)
        self.assertFalse((self.folder / "new").exists())

    # Catches an installation after which --remove leaves something.
    def test_calls_that_are_killed(self):
        kills, below, stage = self.folder / "kills", self.folder / "below", self.folder / "stage"
        for command in ("mkdir", "mktemp", "cp", "chmod", "sync", "mv", "sed", "grep", "flock"):
            # It kills the caller, before or after it has done its work.
            write_script(kills / command, KILLING.replace("COMMAND", shutil.which(command)))
        self.install("--stage", stage)
        words = ["libexec/yarib/installed-files", below / "a/b"]
        for at in range(0, 90, 3):
            with self.subTest(f"killed at step {at}"):
                below.mkdir()
                self.write({"count": ""})
                env = first_on_path(kills, COUNT=str(self.folder / "count"), AT=str(at))
                self.call(self.copy / "packaging/install_files", *words, stage, env=env)
                self.call(self.copy / "packaging/install_files", "--remove", *words)
                self.assertEqual([str(path) for path in below.rglob("*")], [])
            shutil.rmtree(below)

    # Catches a file that gets its name before its bytes are on the disk.
    def test_synced_before_it_is_renamed(self):
        for command in ("sync", "mv"):
            write_script(self.folder / "noting" / command, NOTING.replace("NAME", command).replace("COMMAND", shutil.which(command)))
        env = first_on_path(self.folder / "noting", NOTES=str(self.folder / "notes"))
        self.assert_ended(self.install(self.folder / "put", env=env), stdout=None)
        noted = [line.split("\t")[:-1] for line in (self.folder / "notes").read_text().splitlines()]
        synced = {words[-1] for words in noted if words[0] == "sync"}
        moved = [words[-2] for words in noted if words[0] == "mv" and words[-1].startswith(str(self.folder / "put/"))
                 and words[-2].endswith("-new")]
        self.assertEqual([name for name in moved if name not in synced], [])
        self.assertEqual(len(moved), len(INSTALLED) - 1)


    # Catches an ./install that installs a stale, empty or changed program.
    def test_built_programs_that_are_refused(self):
        self.own_copy()
        source, whole = self.copy / "crates/rt_trie/src/lib.rt", program().read_bytes()
        for name, file, content in (("empty", built_in(self.copy), b""), ("changed", built_in(self.copy), whole[:-1] + b"x"),
                                    ("stale", source, source.read_bytes() + b"// another\n")):
            build(self.copy, whole)
            file.write_bytes(content)
            with self.subTest(name):
                ended = self.install(self.folder / "put", env={"PATH": "/usr/bin:/bin"})
                self.assert_ended(ended, stderr=None, returncode=127)
                self.assertEqual(files_below(self.folder / "put"), [])


class Library(CopyCase):
    """./install --library below odd names, with an archive in C instead of the proved one."""

    kind = ["--library"]

    def setUp(self):
        super().setUp()
        library_stub(self.folder / "one.a")
        write_script(self.folder / "kit/bin/rt", f"#!/bin/sh\necho '{self.folder}/kit/page.md'\n")
        self.environment = first_on_path(self.folder / "kit/bin", YARIB_ARCHIVE=str(self.folder / "one.a"))

    # Catches a prefix that is put into the .pc file unquoted.
    @needs_command("gcc", "pkg-config")
    def test_prefixes(self):
        for name in ("plain", "a&b", "a|b", "a b", "it's", 'a"b', "a\\b", "a#b"):
            with self.subTest(name):
                self.assert_ended(self.install(self.folder / name), stdout=None)
                ended = self.call("sh", "-c", 'eval "set -- $(pkg-config --cflags yarib)"; printf %s "$1"',
                                  env=environment() | {"PKG_CONFIG_PATH": str(self.folder / name / "lib/pkgconfig")})
                self.assertEqual(ended.stdout, f"-I{self.folder}/{name}/include")
                self.assert_ended(self.install("--remove", self.folder / name), stdout=None)

    def test_prefixes_that_are_refused(self):
        for name in ("a$b", "end\n", "a space "):
            with self.subTest(name.replace("\n", " and a line end")):
                self.assert_refused(self.folder / name)

    # Catches a link that `rt ci` would refuse afterwards.
    def test_prefix_in_the_repository(self):
        self.assert_refused(self.copy / "put")

    def test_sources_in_a_directory_with_a_comma(self):
        self.own_copy().rename(self.folder / "with, comma")
        self.copy = self.folder / "with, comma"
        self.assert_ended(self.install(self.folder / "lib"), stdout=None)

    def test_6_calls_at_once(self):
        self.assert_installed_at_once(6, self.folder / "library")


class Prefixes(CopyCase):
    """Prefixes that can't be recorded, and DESTDIR."""

    # Catches a directory's name that is used wrongly instead of refused.
    def test_prefixes_with_a_line_end(self):
        for place, name in (("within", "a\nb"), ("at the end", "end\n")):
            with self.subTest(place):
                self.assert_refused(self.folder / name)

    def test_destdir(self):
        """With DESTDIR, to be moved from there: the launcher names the final path."""
        destination = self.folder / "destination"
        env = environment() | {"DESTDIR": str(destination)}
        self.assert_ended(self.install("/opt/yarib", env=env), stdout=None)
        self.assertEqual(files_below(destination / "opt/yarib"), INSTALLED)
        self.assertIn("folder='/opt/yarib/libexec/yarib'", (destination / "opt/yarib/bin/yarib").read_text())
        self.assert_ended(self.install("--remove", "/opt/yarib", env=env), stdout=None)
        self.assertEqual((files_below(destination), (destination / "opt").exists()), ([], False))

    @unittest.skipIf(is_unproved(), "AddressSanitizer needs /proc")
    def test_empty_root(self):
        """What is installed runs in a root that has nothing else but sh, wc and the C library."""
        root = self.folder / "root"
        self.install("/opt/yarib", env=environment() | {"DESTDIR": str(root)})
        shell, counter = pathlib.Path("/bin/sh").resolve(), pathlib.Path(shutil.which("wc"))
        needed = {pathlib.Path(word) for file in (shell, counter, root / "opt/yarib/libexec/yarib/yarib")
                  for word in self.call("ldd", file).stdout.split() if word.startswith("/")}
        for file, name in [*((file, file.relative_to("/")) for file in needed), (shell, "bin/sh"), (counter, "bin/wc"),
                           (self.folder / "row.feed", "row.feed")]:
            (root / name).parent.mkdir(parents=True, exist_ok=True)
            shutil.copy(file, root / name)
        enter = ["chroot", root] if os.geteuid() == 0 else ["unshare", "--map-root-user", "chroot", root]
        if self.call(*enter, "/bin/sh", "-c", "exit 7").returncode != 7:
            self.skipTest("no root can be made here")
        self.assert_ended(self.call(*enter, "/opt/yarib/bin/yarib", "run", "row.feed"), ROW_OUT)


class Memory(CopyCase):
    """The settings that both launchers make, before those of the user."""

    @classmethod
    def setUpClass(cls):
        super().setUpClass()
        build(cls.copy, TELLING.encode())
        call([cls.copy / "install", cls.shared / "telling"], env=environment())
        cls.launchers = {"./yarib": cls.copy / "yarib", "what is installed": cls.shared / "telling/bin/yarib"}

    def printed(self, command, setting):
        """Returns the lines that the program prints if the user has this setting."""
        env = {name: value for name, value in environment().items() if name != "GLIBC_TUNABLES"}
        return self.call(*command, env=env if setting is None else env | {"GLIBC_TUNABLES": setting}).stdout.split("\n")

    def test_settings_and_arguments(self):
        for name, launcher in self.launchers.items():
            for user, setting in USERS.items():
                with self.subTest(f"{name}, {user}"):
                    _, found, *words = self.printed([launcher, "a b", "", "*"], setting)
                    self.assertEqual(found, launched()["GLIBC_TUNABLES"] + (f":{setting}" if setting else ""))
                    self.assertEqual(words, ["a b", "", "*", ""])

    def test_settings_of_subcommands(self):
        for name, launcher in self.launchers.items():
            for user, setting in USERS.items():
                for word in ("diff", "lookup", "table", "run"):
                    for limit, command in LIMITS.items():
                        with self.subTest(f"{name} {word}, {user}, {limit}"):
                            found = self.printed([*command, launcher, word, "x"], setting)[1]
                            wanted = MEMORY[word != "run", limit != "no limit"]
                            self.assertEqual(found, wanted + (f":{setting}" if setting else ""))


class Notices(TestCase):
    """The page of notices."""

    # Catches notices that lack a library whose code is in the program, or a licence's text.
    @needs_command("rt", "nm")
    def test_notices(self):
        self.assert_ended(self.call(TOP / "packaging/notices", program()), stdout=None)

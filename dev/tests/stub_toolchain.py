"""A stub of the toolchain, and copies of the repository's launchers that are built by it, for tests of ./yarib, dev/build/build
and bindings/build. What the stub builds is started.c, which prints how it was started. So nothing is proved here."""
import atexit
import contextlib
import functools
import os
import pathlib
import re
import shutil
import signal
import subprocess
import sys
import tempfile
import time

from dev.build.built import LOGIC
from dev.crates import TOP, all_crates
from dev.testing import TestCase, call

# The stub of `rt` prints the toolchain's path and version.
RT = """#!/bin/sh
case $1 in doc) echo "$KIT/page.md" ;; version) echo "stand-in-$VERSION logic $LOGIC" ;; *) exit 2 ;; esac
"""
# The stub of the prover records the beginning and the end of each call in $NOTES, in their order, and its arguments, each in
# a line, with an empty line after the last. As the prover does, it makes a library as a directory of sources, and it fails
# if it needs a library that doesn't exist.
PROVER = """#!/bin/sh
crate=$(basename "$PWD")
echo "begin $crate" >>"$NOTES"
{ printf '%s\\n' "$@"; echo; } >>"$NOTES.words"
sleep 0.05
if [ "$crate" = "$CHANGES" ]; then echo more >>"$TOP/crates/rt_cidr/src/lib.rt"; fi
if [ "$crate" = "$HANGS" ]; then echo $$ >"$NOTES.pid"; sleep 600; fi
if [ "$crate" = "$DIES" ]; then kill -9 $$; fi
if [ "$crate" = "$FAILS" ]; then echo "no proof of $crate"; exit 1; fi
while [ $# -gt 0 ]; do
  case $1 in
    -o) product=$2 ;;
    *=*.rlib) [ -e "${1#*=}/interface/lang/src/lib.rt" ] || case $1 in *"$KIT"*) ;; *) echo "no ${1#*=}"; exit 1 ;; esac ;;
  esac
  shift
done
case $product in
  *.rlib)
    sources=$product/interface/lang/src
    mkdir -p "$sources" && cp src/lib.rt "$sources/lib.rt" && cp src/lib.rt "$sources/again.rt"
    ;;
  *) cp "$ARCHIVE" "$product" ;;
esac
if [ "$crate" = "$STRANGE" ]; then echo "logic=proved functions=1 sum=0123456789abcdef"
elif [ "$crate" = "$HOLED" ]; then echo "logic=holes functions=1 sum=$LOGIC"
elif [ "$crate" != "$SILENT" ]; then echo "logic=proved functions=1 sum=$LOGIC"; fi
echo "end $crate" >>"$NOTES"
"""
# The stub of the linker writes the program to the path after -o.
LINKER = """#!/bin/sh
while [ "$1" != -o ]; do shift; done
if [ "$LINKER_FAILS" ]; then echo half >"$2"; exit 1; fi
cp "$STARTED" "$2"
"""
SETTINGS = ("FAILS", "CHANGES", "HANGS", "DIES", "SILENT", "STRANGE", "HOLED", "LINKER_FAILS")
# What a launcher is made of, besides the files of crates.
FILES = ("yarib", "VERSION", "crates.txt", "bindings/build", "docs/CLI.md", "tests/help/*", "dev/__init__.py", "dev/crates.py",
         "dev/prover.py", "dev/versions.py", "dev/build/__init__.py", "dev/build/build", "dev/build/built.py",
         "dev/build/building.py", "dev/build/machine.py", "bindings/c/[!t]*.c", "bindings/c/*.h", "bindings/c/*.map")
# The settings that the launcher makes for glibc's memory.
TUNABLES = "glibc.malloc.arena_max=1:glibc.malloc.hugetlb=1"
OF_ARENAS = "glibc.malloc.arena_max=64:glibc.malloc.hugetlb=1"
OF_PIECES = f"{OF_ARENAS}:glibc.malloc.top_pad=67108864:glibc.malloc.mmap_threshold=4194304"
TUNABLES_OF = {word: OF_PIECES for word in ("diff", "lookup", "table")}


def library_stub(archive):
    """Makes an archive that replaces the one that the prover makes of crates/yarib_c: each of its calls returns 1. It has
    the calls that the layer of C replaces, and those of texts, which the layer uses as they are."""
    layer = (TOP / "bindings/c/layer.h").read_text()
    calls = re.findall(r"^\w+ proved_(yarib_\w+)\(", layer, re.M)
    calls += [f"yarib_{name}" for name in re.findall(r"^    CALL\((\w+), ", layer, re.M)]
    calls += set(re.findall(r"\b(yarib_(?:address|prefix)_\w+)\(", (TOP / "bindings/c/yarib.h").read_text()))
    source, object_file = archive.with_suffix(".c"), archive.with_suffix(".o")
    source.write_text("".join(f"int {name}(void) {{ return 1; }}\n" for name in dict.fromkeys(calls)))
    subprocess.run(["gcc", "-fPIC", "-c", source, "-o", object_file], check=True)
    subprocess.run(["ar", "cr", archive, object_file], check=True)


def commands_in(folders):
    """Yields the files in the directories of PATH, without those directories that can't be read."""
    for folder in folders:
        try:
            yield from (pathlib.Path(folder) / name for name in os.listdir(folder or "."))
        except OSError:
            pass


def write_script(path, text):
    path.parent.mkdir(parents=True, exist_ok=True)
    path.write_text(text)
    path.chmod(0o755)


@functools.cache
def tools():
    """Returns a directory for all tests: below `without` it has all commands on PATH except the toolchain's, below `with` the
    stub of rt, below `kit` that of the prover, and the program that the stub builds."""
    made = tempfile.TemporaryDirectory(prefix="yarib-tools-", ignore_cleanup_errors=True)
    atexit.register(made.cleanup)
    folder = pathlib.Path(made.name).resolve()
    (folder / "without").mkdir()
    for command in commands_in(os.get_exec_path()):
        if command.name not in ("rt", "python3") and not os.path.lexists(folder / "without" / command.name):
            (folder / "without" / command.name).symlink_to(command)
    # Python without installed packages: to look for these takes longer than what the scripts do.
    write_script(folder / "without/python3", f"#!/bin/sh\nexec '{sys.executable}' -S \"$@\"\n")
    write_script(folder / "with/rt", RT)
    write_script(folder / "kit/bin/rattle", PROVER)
    write_script(folder / "kit/bin/rattle-link", LINKER)
    subprocess.run(["gcc", "-O2", "-o", folder / "started", TOP / "dev/tests/started.c"], check=True)
    (folder / "kit/c").mkdir()
    library_stub(folder / "kit/c/stub.a")
    return folder


def put_launcher(top):
    """Writes the launchers into a directory, with the crates' list and a few files of each crate, all older than any build."""
    for crate in all_crates():
        root = "src/main.rt" if crate == "rt_app" else "src/lib.rt"
        for name in (root, "specs/S.antt", "proofs/P.antt", "must-fail/mutants.md"):
            path = top / "crates" / crate / name
            path.parent.mkdir(parents=True, exist_ok=True)
            path.write_text("//\n")
    for path in [path for pattern in FILES for path in TOP.glob(pattern)]:
        (top / path.relative_to(TOP)).parent.mkdir(parents=True, exist_ok=True)
        shutil.copy(path, top / path.relative_to(TOP))
    for path in top.rglob("*"):
        os.utime(path, (time.time() - 1_000,) * 2)


def settings(folder, path="with:without"):
    """Returns the environment of a call for the launcher in this directory. `path` names the tools on PATH."""
    place = tools()
    return dict.fromkeys(SETTINGS, "") | {
        "PATH": ":".join(f"{place}/{one}" for one in path.split(":")), "NOTES": str(folder / "notes"),
        "STARTED": str(place / "started"), "ARCHIVE": str(place / "kit/c/stub.a"), "TOP": str(folder / "top"), "VERSION": "1",
        "KIT": str(place / "kit"), "LOGIC": LOGIC, "TMPDIR": str(folder / "work"), "CFLAGS": "-O0", "LC_ALL": "C"}


@functools.cache
def built_launcher():
    """Returns a directory with a launcher whose program is built, which tests copy."""
    folder = tools() / "built"
    put_launcher(folder / "top")
    (folder / "work").mkdir()
    call([folder / "top/yarib", "run", "x"], env=settings(folder))
    return folder / "top"


def started(words, folder, tunables=TUNABLES, input=""):
    """Returns what the program prints if it was started with these arguments in this directory."""
    return "\0".join([str(len(words) + 1), "yarib", *words, str(folder), tunables, input])


def begun(notes):
    """Returns the crates with which the prover began."""
    return {note.split()[1] for note in notes if note.startswith("begin")}


def heed_signals():
    """Undoes that whoever started the tests in the background had them ignore signals, which a shell can't."""
    for number in (signal.SIGINT, signal.SIGHUP, signal.SIGQUIT):
        signal.signal(number, signal.SIG_DFL)


def wait_until(is_so):
    """Waits for something that is sure to come, up to two minutes."""
    for _ in range(12_000):
        if is_so():
            return
        time.sleep(0.01)
    raise TimeoutError


def is_alive(pid):
    """Returns True if a process is running; a process that has ended may not have been waited for."""
    try:
        return pathlib.Path(f"/proc/{pid}/stat").read_text().rpartition(")")[2].split()[0] != "Z"
    except FileNotFoundError:
        return False


class LauncherTest(TestCase):
    """A test with a launcher of its own in `self.top`, whose program is built if IS_BUILT is true."""

    IS_BUILT = True

    def setUp(self):
        self.top, self.notes, self.work = self.folder / "top", self.folder / "notes", self.folder / "work"
        self.work.mkdir()
        if self.IS_BUILT:
            shutil.copytree(built_launcher(), self.top, symlinks=True)
        else:
            put_launcher(self.top)
        self.notes.write_text("")

    def start(self, *words, path="with:without", by=None, **more):
        """Calls ./yarib, or what `by` names. Settings in capitals are variables of the environment."""
        names = {name: more.pop(name) for name in list(more) if name.isupper()}
        return self.call(by or self.top / "yarib", *words, **{"env": settings(self.folder, path) | names, "cwd": self.top} | more)

    def build(self, *words, **more):
        """Calls dev/build/build."""
        return self.start(*words, by=self.top / "dev/build/build", **more)

    def noted(self):
        """Returns what the stub has recorded since the previous call of this function."""
        notes = self.notes.read_text().splitlines()
        self.notes.write_text("")
        return notes

    def assert_starts(self, words=("run", "x"), **more):
        """Fails unless ./yarib starts the program with these arguments; returns what the stub records meanwhile."""
        self.noted()
        self.assert_ended(self.start(*words, **more), started(words, self.top), None)
        return self.noted()

    def assert_one_line(self, ended, returncode, *parts):
        """Fails unless a call ended with this status, without output and with one line of standard error that has these
        parts."""
        self.assertEqual((ended.returncode, ended.stdout, len(ended.stderr.splitlines())), (returncode, "", 1), ended.stderr)
        for part in parts:
            self.assertIn(part, ended.stderr)

    def product(self, crate):
        """Returns the path of a crate's built file: the only one named after the crate, followed by a sum. Its own checksum
        is next to it."""
        [found] = [path for path in (self.top / "out/build").glob(f"{crate}-*") if path.suffix != ".sha256"]
        return found

    def change(self, name):
        """Adds a line to a file, which is made if it isn't there."""
        path = self.top / name
        path.parent.mkdir(parents=True, exist_ok=True)
        with open(path, "a") as file:
            file.write("#\n")

    def waiting(self, crate, **names):
        """Returns how a process is started that can be signalled with its children, and whose prover doesn't end on this
        crate."""
        return {"env": settings(self.folder) | {"HANGS": crate} | names, "stdin": subprocess.DEVNULL, "cwd": self.top,
                "stdout": subprocess.PIPE, "stderr": subprocess.PIPE, "start_new_session": True, "preexec_fn": heed_signals}

    @contextlib.contextmanager
    def begun_build(self, crate, **names):
        """A call of ./yarib whose prover is working on a crate and doesn't end."""
        pid = self.folder / "notes.pid"
        pid.unlink(missing_ok=True)
        with subprocess.Popen([self.top / "yarib", "run", "x"], **self.waiting(crate, **names)) as running:
            wait_until(lambda: pid.exists() and pid.read_text().endswith("\n"))
            yield running, int(pid.read_text())
            if running.poll() is None:
                running.terminate()

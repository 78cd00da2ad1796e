"""Proves and builds the crate that dev/build/build names: the order of the crates, the prover's jobs, and the messages."""
import contextlib
import fcntl
import functools
import os
import pathlib
import queue
import re
import shutil
import signal
import subprocess
import sys
import tarfile
import tempfile
import threading
import time

from dev.build.built import LOGIC, PARTS, STATE, discard, is_read, is_whole, own, product, put, sources_sum
from dev.build.machine import provers
from dev.crates import CRATES, below, is_program, is_static, needs
from dev.prover import kit, linking_words, words_for

FIRST_BUILD = "ten to fifteen minutes on four processors"
# The estimated cost of a crate in addition to that of its sources, in bytes of source: of each crate, and of a linked program.
EACH, PROGRAM = 60_000, 300_000
MOST_JOBS = 4  # of one proof
ENDING = (signal.SIGINT, signal.SIGTERM, signal.SIGHUP)  # signals that end a build


def say(text):
    print(f"yarib: {text}", file=sys.stderr, flush=True)


def stop(text, status=1):
    say(text)
    sys.exit(status)


@functools.cache
def toolchain():
    """Returns the output of `rt version`; exits if the toolchain is missing or has another logic."""
    if not shutil.which("rt"):
        stop("to build it, the Rattle toolchain (the command rt) has to be on PATH", 127)
    said = subprocess.run(["rt", "version"], stdout=subprocess.PIPE, text=True).stdout.strip()
    if not said.endswith(f"logic {LOGIC}"):
        stop(f"`rt version` says {said!r}; put a toolchain of logic {LOGIC} on PATH, which README.md names", 127)
    return said


# -- the copy that is built


def unread(folder, names):
    """Returns the names in a directory of those files that the prover doesn't read."""
    return [name for name in names if not is_read(name) and not os.path.isdir(f"{folder}/{name}")]


class Copy:
    """The sources at the start of a build, in a directory that also contains the libraries during the build."""

    def __init__(self, folder, crates):
        self.crates, self.libraries = folder / "crates", folder / "built"
        self.libraries.mkdir()
        for crate in crates:
            (self.crates / crate).mkdir(parents=True)
            for part in PARTS:
                if (CRATES / crate / part).is_dir():
                    shutil.copytree(CRATES / crate / part, self.crates / crate / part, ignore=unread)

    def size(self, crate):
        return sum(path.stat().st_size for path in (self.crates / crate).rglob("*") if path.is_file())

    def made(self, crate):
        """Returns the path of the prover's product for a crate: a library, an archive or a program."""
        return self.libraries / (f"{crate}.rlib" if not (is_program(crate) or is_static(crate)) else crate)

    def product(self, crate):
        return product(crate, toolchain(), self.crates)

    def is_built(self, crate):
        return is_whole(self.product(crate))

    def unpack(self, crate):
        """Extracts a library of an earlier build to where the prover reads it."""
        with tarfile.open(self.product(crate)) as packed:
            packed.extractall(self.libraries, **({"filter": "data"} if hasattr(tarfile, "data_filter") else {}))

    def keep(self, crate):
        """Stores the product of a crate under its name, once it is complete, and removes older ones."""
        made, kept, new = self.made(crate), self.product(crate), STATE / f"{crate}.new"
        try:
            with open(new, "wb") as file:
                if kept.suffix == ".tar":
                    with tarfile.open(fileobj=file, mode="w") as packed:
                        packed.add(made, arcname=made.name)
                else:
                    with open(made, "rb") as whole:
                        shutil.copyfileobj(whole, file)
                file.flush()
                os.fsync(file.fileno())
            os.chmod(new, 0o755 if is_program(crate) else 0o644)
            put(new, kept)
        finally:
            discard(new)
        products = [path for path in STATE.glob(f"{crate}-*") if path.suffix != ".sha256"]
        older = sorted(products, key=lambda path: path.stat().st_mtime, reverse=True)
        # A program that is replaced may just be starting, so the last but one stays.
        for path in older[2 if is_program(crate) else 1:]:
            discard(path)


# -- the prover's calls


def commands(copy, crate, jobs, niceness):
    """Returns the commands that prove a crate and build its product."""
    words = ["nice", "-n", niceness, kit() / "bin/rattle", "build", "--jobs", jobs]
    words += words_for(crate, needs()[crate], copy.crates / crate, libraries=copy.made)
    compiled = ["--toolchain", kit() / "toolchain", "--backend", "llvm", "-o"]
    made = copy.made(crate)
    if is_static(crate):
        return [[*words, *compiled, made]]
    if is_program(crate):
        return [[*words, *compiled, f"{made}.o"], linking_words(made)]
    return [[*words, "--statements", "-o", made]]


def log_of(crate):
    return STATE / f"{crate}.log"


def says_proved(crate):
    """Returns true if the prover's summary says that everything is proved, by this logic."""
    summary = re.compile(rf"^logic=proved functions=.* sum={LOGIC}\b", re.M)
    return summary.search(log_of(crate).read_text(errors="replace")) is not None


class Provers:
    """The processes that are at work, each of which is started and waited for by a thread of its own. A signal comes to the
    main thread, so it can't leave a process that nobody knows."""

    def __init__(self):
        self.lock, self.running, self.is_stopped = threading.Lock(), {}, False
        self.ended = queue.SimpleQueue()  # of each crate how its last command ended

    def start(self, crate, each, folder):
        """Starts the commands of a crate, each after the one before has succeeded; the status of the last is reported."""
        threading.Thread(target=self.run, args=[crate, each, folder], daemon=True).start()

    def run(self, crate, each, folder):
        status = None
        try:
            with open(log_of(crate), "wb") as log:
                for words in each:
                    if not (process := self.process(crate, words, folder, log)):
                        return
                    if status := process.wait():
                        break
        except OSError as error:
            status = error
        self.ended.put((crate, status))

    def process(self, crate, words, folder, log):
        """Returns a process, in its own session, so that only the builder gets a terminal's Ctrl-C, and ends it; or None if
        all have been ended."""
        with self.lock:
            if not self.is_stopped:
                self.running[crate] = subprocess.Popen([*map(str, words)], cwd=folder, stdin=subprocess.DEVNULL, stdout=log,
                                                       stderr=subprocess.STDOUT, start_new_session=True)
                return self.running[crate]

    def next(self):
        """Waits until the commands of a crate have ended, and returns the crate and the status."""
        crate, status = self.ended.get()
        if isinstance(status, OSError):
            raise status
        return crate, status

    def stop(self):
        """Ends all of them."""
        with self.lock:
            self.is_stopped = True
        for process in self.running.values():
            if process.poll() is None:
                with contextlib.suppress(ProcessLookupError):
                    os.killpg(process.pid, signal.SIGKILL)
                process.wait()


# -- the order of the crates


class Build:
    """The crates that remain to be built, their estimated costs, and those at work, each with the time when it began."""

    def __init__(self, copy, crates, whole):
        self.copy, self.left, self.whole, self.lanes = copy, set(crates), whole, provers()
        self.cost = {crate: copy.size(crate) + EACH + PROGRAM * is_program(crate) for crate in crates}
        self.chain = {}  # the cost of a crate and of the most expensive chain of crates that wait for it
        for crate in sorted(crates, key=lambda one: -len(below([one]))):
            above = [self.chain[one] for one in self.chain if crate in own(one)]
            self.chain[crate] = self.cost[crate] + max(above, default=0)
        self.begun, self.done, self.at_work = time.monotonic(), {}, {}

    def ready(self):
        """Returns the crates that wait for no other, the one with the most expensive chain first."""
        waiting = self.left - set(self.at_work)
        free = [crate for crate in waiting if not self.left.intersection(below([crate]) - {crate})]
        return sorted(free, key=lambda crate: (-self.chain[crate], crate))

    def share(self, crate):
        """Returns a crate's jobs and niceness: the longest chain gets the processors, and other crates yield to it."""
        longest = max(self.chain[one] for one in self.left)
        is_first = self.chain[crate] == longest
        return min(MOST_JOBS, self.lanes) if is_first else 1, int(10 * (1 - self.chain[crate] / longest))

    def seconds_left(self):
        """Estimates the time from that of finished crates: of the longest remaining chain, or of all remaining work on all lanes."""
        pace = sum(self.done.values()) / sum(self.cost[crate] for crate in self.done)
        spent = {crate: min((time.monotonic() - begun) / pace, 0.9 * self.cost[crate]) for crate, begun in self.at_work.items()}
        left = {crate: self.cost[crate] - spent.get(crate, 0) for crate in self.left}
        chain = max(self.chain[crate] - spent.get(crate, 0) for crate in self.left)
        return pace * max(chain, sum(left.values()) / self.lanes)

    def run(self):
        """Builds the crates, each after its dependencies, and returns true if all are proved."""
        at_work, is_well = Provers(), True
        try:
            while self.left:
                for crate in self.ready()[: self.lanes - len(self.at_work)] if is_well else []:
                    self.at_work[crate] = time.monotonic()
                    at_work.start(crate, commands(self.copy, crate, *self.share(crate)), self.copy.crates / crate)
                if not self.at_work:
                    return False
                is_well &= self.finish(*at_work.next())
            return True
        finally:
            at_work.stop()

    def finish(self, crate, status):
        """Stores the product of a crate whose prover has ended, and reports that it is proved, or why it isn't."""
        seconds = time.monotonic() - self.at_work.pop(crate)
        if status != 0 or not self.copy.made(crate).exists() or not says_proved(crate):
            killed = f": its prover was ended by signal {-status}, most likely for want of memory" if status < 0 else ""
            say(f"{crate} is not proved{killed}; {log_of(crate)} says why{of_disk(self.copy)}")
            return False
        self.copy.keep(crate)
        self.left.remove(crate)
        self.done[crate] = seconds
        rest = f", about {clock(self.seconds_left())} left" if self.left else ""
        elapsed = clock(time.monotonic() - self.begun)
        say(f"[{self.whole - len(self.left)} of {self.whole}] {crate} is proved, in {int(seconds)} s; {elapsed} elapsed{rest}")
        return True


def clock(seconds):
    return f"{int(seconds) // 60}:{int(seconds) % 60:02}"


def of_disk(copy):
    """Returns a message if a full disk is the reason why a prover failed."""
    full = [str(folder) for folder in (copy.libraries, STATE) if shutil.disk_usage(folder).free < 50_000_000]
    return f"; the disk of {full[0]} is full: free space there, or set TMPDIR" if full else ""


# -- a build


def end(number, frame):
    """Ends the build with the status of a signal. A second signal would interrupt the removal of what the build leaves; it
    isn't ignored by SIG_IGN, since one that came just before that would be reported with a traceback."""
    for each in ENDING:
        signal.signal(each, lambda number, frame: None)
    sys.exit(128 + number)


def locked():
    """Waits until no other build runs in this checkout, and excludes others until this process ends."""
    lock = open(STATE / "lock", "w")
    try:
        fcntl.flock(lock, fcntl.LOCK_EX | fcntl.LOCK_NB)
    except BlockingIOError:
        say("another build is at work, and this one waits for it; meanwhile ./try WORDS.. runs yarib unproved")
        fcntl.flock(lock, fcntl.LOCK_EX)
    return lock


def clear():
    """Removes what killed builds left."""
    noted = STATE / "work"
    if noted.exists():
        folder = pathlib.Path(noted.read_text())
        if folder.name.startswith("yarib-build-"):
            shutil.rmtree(folder, ignore_errors=True)
        noted.unlink()
    for path in [*STATE.glob("*.new"), *STATE.glob("*.new.sha256")]:
        path.unlink()


def place():
    """Creates a directory for the files of a build, in $TMPDIR or in the system's directory for large temporary files."""
    large = os.environ.get("TMPDIR") or ("/var/tmp" if os.access("/var/tmp", os.W_OK) else None)
    return pathlib.Path(tempfile.mkdtemp(prefix="yarib-build-", dir=large)).resolve()


def build_in(folder, crate):
    needed = below([crate])
    copy = Copy(folder, needed)
    sources_sum.cache_clear()
    if copy.is_built(crate):
        return copy.product(crate)
    wanted = {crate}
    for one in sorted(needed, key=lambda one: len(below([one]))):
        if not copy.is_built(one) or wanted.intersection(below([one])):
            wanted.add(one)
    for one in needed - wanted:
        copy.unpack(one)
    first = f"; a first build takes {FIRST_BUILD}" if wanted == needed else ""
    if copy.product(crate).exists():
        say(f"{copy.product(crate)} is not as it was built, and is built again")
    say(f"proving and building {len(wanted)} of {len(needed)} crates{first}")
    if first and is_program(crate):
        say("meanwhile ./try WORDS.. runs it unproved, in about a minute")
    if not Build(copy, wanted, len(needed)).run():
        sys.exit(1)
    say(f"{crate} is built")
    return copy.product(crate)


def build(crate):
    """Builds a program or a static library, unless another build has just done so; returns its path."""
    for number in ENDING:
        signal.signal(number, end)
    try:
        toolchain()
        STATE.mkdir(parents=True, exist_ok=True)
        with locked():
            clear()
            folder = place()
            (STATE / "work").write_text(str(folder))
            try:
                return build_in(folder, crate)
            finally:
                shutil.rmtree(folder, ignore_errors=True)
                (STATE / "work").unlink(missing_ok=True)
    except (OSError, subprocess.SubprocessError, tarfile.TarError, EOFError) as error:
        stop(f"it can't be built: {error}; make room or mend this, and call it again")

"""Runs every check and test of the repository: the pages, the proofs, the tests, the changes of definitions and the
mutants.

It judges the files as they are: its first lines name the commit, and each file that differs from it or that git doesn't
know. However it ends, out/gate.json says what was judged, what passed and what was left out; the head of dev/build/verdict
describes that file. The status is 0 if everything passed. What `rt ci`, the mutants and the definitions passed in an
earlier run on this machine isn't proved again, unless something changed on which it depends."""
import argparse
import fnmatch
import json
import os
import pathlib
import re
import resource
import shutil
import signal
import subprocess
import sys
import tempfile
import threading
import time

from dev import expected, runner
from dev.build.machine import free_memory, processors, provers
from dev.crates import CRATES, TOP

PROVED = re.compile(r"(?:rt: )?(\w+) proved")
TRIED = re.compile(r"(mutant|control|definition) (\S+): (.*)")
COUNTS = re.compile(r"(\d+) passed, (\d+) failed")
# The crates on which the library for C is built.
LIBRARY = {"rt_diff", "rt_fib"}


class Stopped(Exception):
    """The run ends before its last step, with this status."""


class Gate:
    """A run: what it notes, what it has built, and the tests that are left to run."""

    def __init__(self, mode, folder):
        self.mode, self.notes = mode, folder
        self.began, self.free = time.monotonic(), free_memory()
        self.least = self.free
        self.passed = self.failed = 0
        self.failing, self.records, self.others, self.whole = [], [], set(), []
        self.built, self.not_built, self.proved, self.has_proved = set(), set(), set(), False
        self.at_once = max(1, processors() - 2)
        self.left, self.running, self.threads, self.is_stopped = [], {}, [], False
        self.changed = threading.Condition()
        self.environment = {name: value for name, value in os.environ.items()
                            if not name.startswith("YARIB_") and name not in ("CFLAGS", "PYTHONPATH", "LANGUAGE")}
        self.environment = self.environment | {"LC_ALL": "C", "RT_JOBS": os.environ.get("RT_JOBS", str(provers()))}

    def say(self, text):
        print(text, flush=True)

    def count(self, passed, failed, name, why=""):
        """Counts tests of a name that passed and failed; of a failure the name and the reason are kept for the summary."""
        with self.changed:
            self.passed, self.failed = self.passed + passed, self.failed + failed
            with open(self.notes / "counted", "a") as file:
                file.write(f"{passed} {failed} {name}\n")
            if failed:
                self.failing.append(f"{name}\n" + "".join(f"  | {line[:1000]}\n" for line in why.splitlines()[-12:]))

    def start(self, command, output, nice=0, **settings):
        """Starts a command in a process group of its own, with its output in a file of the notes."""
        command = [*(["nice", "-n", str(nice)] if nice else []), *map(str, command)]
        with self.changed:
            if self.is_stopped:
                raise Stopped(1)
            # The environment is replaced, and never changed, since other threads read it.
            with open(self.notes / output, "wb") as file:
                process = subprocess.Popen(command, cwd=TOP, env=self.environment, stdin=subprocess.DEVNULL, stdout=file,
                                           stderr=subprocess.STDOUT, start_new_session=True, **settings)
            self.running[process.pid] = process
        return process

    def end(self, process):
        """Waits for a command that was started; returns its status, and the processor seconds that it used."""
        _, status, used = os.wait4(process.pid, 0)
        process.returncode = os.waitstatus_to_exitcode(status)
        with self.changed:
            self.running.pop(process.pid, None)
        return process.returncode, used.ru_utime + used.ru_stime

    def stop_all(self):
        """Ends what runs, and waits until nothing writes to the notes any more."""
        with self.changed:
            self.is_stopped, left = True, list(self.running)
            self.changed.notify_all()
        for pid in left:
            try:
                os.killpg(pid, signal.SIGTERM)
            except ProcessLookupError:
                pass
        for thread in self.threads:
            thread.join(10)

    # -- tests

    def run_module(self, module, names=(), nice=0):
        """Runs the tests of a module, and counts them."""
        output, record = f"output.{module}", self.notes / f"record.{module}"
        began = time.monotonic()
        words = [sys.executable, "-m", "dev.runner", module, *names, "--record", record]
        status, used = self.end(self.start(words, output, nice))
        records = [json.loads(line) for line in record.read_text().splitlines()] if record.exists() else []
        text = (self.notes / output).read_text(errors="backslashreplace")
        taken = f"{clock(time.monotonic() - began)}, and {clock(used)} of processor time"
        passed = self.judge(module, records)
        with self.changed:
            self.records += records
            if not names:
                self.whole.append(module)
        self.say(f"== {module}: {passed}; {taken}" + (f"\n{text.rstrip()}" if text.strip() else ""))
        if status or not records:
            self.count(0, 1, module, text or f"status {status}, and no test was recorded")

    def judge(self, module, records):
        """Counts the tests of a module by their records, and returns that in words."""
        passed, failed, skipped = 0, 0, []
        for record in records:
            parts = {f"{record['test']} {part}": ending for part, ending in record["parts"].items()}
            own = {record["test"]: (record["ended"], record["message"])}
            for name, (ending, message) in (own | parts if record["message"] or not parts else parts).items():
                if ending == "failed":
                    failed += 1
                    alone = f"\nrun it alone: ./test --only '{record['test']}'"
                    self.count(0, 1, name, message + alone)
                    self.say(f"FAILED {name}\n{message}{alone}")
                elif ending == "skipped":
                    skipped.append(f"left out: {name}: {message}")
                else:
                    passed += 1
        if passed:
            self.count(passed, 0, module)
        with open(self.notes / f"output.left-out.{module}", "w") as file:
            file.writelines(f"{line}\n" for line in skipped)
        return f"{passed} passed, {failed} failed" + (f", {len(skipped)} left out" if skipped else "")

    def next_module(self):
        """Returns a module whose needs are met, once there is one, or None if none is left."""
        with self.changed:
            while not self.is_stopped and any(not runner.about(module)[0] & self.not_built for module in self.left):
                for module in self.left:
                    if runner.about(module)[0] <= self.built:
                        self.left.remove(module)
                        return module
                self.changed.wait(1)
        return None

    def work(self, number):
        """Runs modules until none is left; some workers begin when the proofs are made."""
        while not self.has_proved and not self.is_stopped and number >= self.at_once:
            time.sleep(0.5)
        try:
            while module := self.next_module():
                self.run_module(module, nice=0 if self.has_proved else 5)
        except Stopped:
            pass

    def workers(self, modules):
        """Starts to run modules beside what else runs, the largest first."""
        self.left = sorted(modules, key=lambda module: -(TOP / (module.replace(".", "/") + ".py")).stat().st_size)
        for number in range(processors()):
            self.start_thread(self.work, number)

    def start_thread(self, target, *words):
        thread = threading.Thread(target=target, args=words, daemon=True)
        self.threads.append(thread)
        thread.start()

    def join(self):
        for thread in self.threads:
            thread.join()

    # -- proofs

    def prove(self):
        """Runs `rt ci`, and notes each crate that is proved. Stops the run if one isn't."""
        words = ["rt", "ci", *(["--anew"] if self.mode == "anew" and takes_anew() else [])]
        began, last = time.monotonic(), ""
        with open(self.notes / "said", "w") as said:
            process = subprocess.Popen(words, cwd=TOP, env=self.environment, stdin=subprocess.DEVNULL, stdout=subprocess.PIPE,
                                       text=True, start_new_session=True)
            shown = subprocess.Popen([TOP / "dev/build/progress"], stdin=subprocess.PIPE, text=True, start_new_session=True)
            self.running |= {process.pid: process, shown.pid: shown}
            for line in process.stdout:
                if COUNTS.fullmatch(line.strip()):
                    last = line.strip()
                    continue
                if kept := re.match(r"rt: (\w+) is kept: ", line):
                    line += f"{kept[1]} proved\n"
                said.write(line)
                said.flush()
                shown.stdin.write(line)
                shown.stdin.flush()
                if found := PROVED.fullmatch(line.splitlines()[-1]):
                    with self.changed:
                        self.proved.add(found[1])
                        self.others.add(f"proof {found[1]}")
                        self.changed.notify_all()
            said.write(f"{last}\n")
        shown.stdin.close()
        self.end(shown)
        status, used = self.end(process)
        self.say(f"rt ci took {clock(time.monotonic() - began)}, and {clock(used)} of processor time: {last}")
        passed, failed = map(int, COUNTS.fullmatch(last).groups()) if last else (0, 1)
        self.count(passed, 0, "rt ci")
        if failed or status:
            self.count(0, max(failed, 1), "rt ci", last)
            raise Stopped(status or 1)

    def build_library(self, sources):
        """Builds the library for C once the crates below it are proved, for the tests that need it."""
        try:
            built = self.library_is_built(sources)
        except OSError as error:
            self.count(0, 1, "the library for C", str(error))
            built = False
        except Stopped:
            return
        with self.changed:
            (self.built if built else self.not_built).add("library")
            self.changed.notify_all()

    def library_is_built(self, sources):
        """Returns true once the library for C is built; a failure is counted."""
        with self.changed:
            while not LIBRARY <= self.proved and not self.has_proved and not self.is_stopped:
                self.changed.wait(1)
        words = [TOP / "dev/build/archive", "yarib_c", "--sources", sources, *(["--anew"] if self.mode == "anew" else [])]
        status, _ = self.end(self.start(words, "changes", 5))
        if status:
            self.count(0, 1, "dev/build/archive", (self.notes / "changes").read_text(errors="replace"))
            return False
        archive = self.notes / "libyarib_c.a"
        shutil.copyfile(CRATES / "yarib_c/out/libyarib_c.a", archive)
        self.environment = self.environment | {"YARIB_ARCHIVE": str(archive)}
        status, _ = self.end(self.start([TOP / "bindings/build", self.notes / "library"], "output.library"))
        if status:
            self.count(0, 1, "bindings/build", (self.notes / "output.library").read_text(errors="replace"))
            return False
        self.environment = self.environment | {"YARIB_LIBRARY": str(self.notes / "library")}
        return True

    def has(self, built):
        with self.changed:
            self.built.add(built)
            self.changed.notify_all()

    def count_tried(self, tool, process):
        """Counts what the mutants' tool or the definitions' tool tried."""
        status, _ = self.end(process)
        text = (self.notes / tool).read_text(errors="replace")
        *lines, last = text.splitlines() or [""]
        counts = COUNTS.match(last)
        if not counts:
            return self.count(0, 1, f"dev/mutants/{tool}", text)
        self.say(f"== dev/mutants/{tool}: {last}")
        tried = [TRIED.fullmatch(line) for line in lines]
        wrong = [found[0] for found in tried if found and not re.search(r"(?:refused|taken), as it must be", found[3])]
        self.others |= {f"{found[1]} {found[2]}" for found in tried if found}
        self.count(int(counts[1]), 0, f"dev/mutants/{tool}")
        if wrong or int(counts[2]) or status:
            self.count(0, max(len(wrong), int(counts[2]), 1), f"dev/mutants/{tool}", "\n".join(wrong) or f"status {status}\n{text}")

    # -- the whole

    def watch_memory(self):
        while True:
            self.least = min(self.least, free_memory())
            time.sleep(2)

    def verdict(self, *words):
        return subprocess.run([TOP / "dev/build/verdict", *map(str, words)], cwd=TOP, env=self.environment,
                              stdin=subprocess.DEVNULL).returncode

    def run_full(self):
        """Proves and tries all."""
        anew = ["--anew"] if self.mode == "anew" else []
        self.run_module("dev.tests.test_pages")
        if self.failing:
            raise Stopped(1)
        clean()
        sources = subprocess.run([TOP / "dev/build/archive", "yarib_c", "--sum"], env=self.environment, check=True,
                                 stdout=subprocess.PIPE, text=True).stdout.strip()
        (self.notes / "said").touch()
        modules = [module for module in runner.modules() if module != "dev.tests.test_pages"]
        alone = [module for module in modules if runner.about(module)[2]]
        mutants = self.start([TOP / "dev/mutants/mutants", "--gate", *anew, "--during", self.notes / "said"], "mutants", 10)
        self.workers(set(modules) - set(alone))
        self.start_thread(self.build_library, sources)
        self.prove()
        shutil.copy(CRATES / "rt_app/out/rt_app", self.notes / "rt_app")
        self.environment = self.environment | {"YARIB_PROGRAM": str(self.notes / "rt_app")}
        self.has_proved = True
        self.has("program")
        definitions = self.start([TOP / "dev/mutants/definitions", "--gate", *anew], "definitions", 10)
        self.join()
        for module in self.left:
            self.count(0, 1, module, "it didn't run, since what it needs wasn't built")
        self.count_tried("definitions", definitions)
        self.count_tried("mutants", mutants)
        for module in alone:
            self.run_module(module)

    def run_quick(self):
        """Proves nothing: runs on the unproved program what judges neither memory nor time nor the library for C."""
        program = subprocess.run([TOP / "dev/build/unproved"], env=self.environment, stdout=subprocess.PIPE, text=True,
                                 stdin=subprocess.DEVNULL).stdout.strip()
        if not program:
            self.say("test: the unproved program was not built; ./try says why")
            raise Stopped(1)
        shutil.copy(program, self.notes / "yarib")
        self.environment = self.environment | {"YARIB_PROGRAM": str(self.notes / "yarib"), "YARIB_UNPROVED": "1"}
        self.has_proved = True
        self.has("program")
        left_out = [module for module in runner.modules() if runner.about(module)[1] or "library" in runner.about(module)[0]]
        self.workers(set(runner.modules()) - set(left_out))
        self.join()
        line = f"test: left out: {', '.join(left_out)}, all proofs and mutants"
        (self.notes / "output.quick").write_text(f"{line}\n")
        self.say(line)

    def finish(self):
        """Compares what ran with what was expected, prints what failed and the counts, and returns the status."""
        if self.verdict("same", self.notes):
            self.count(0, 1, "dev/build/verdict same")
        expected.keep(self.records)
        others = None if self.mode == "quick" else self.others
        for line in [*expected.gone(), *expected.differences(self.records, others, self.whole)]:
            self.count(0, 1, line)
        if self.failing:
            self.say("test: these FAILED:\n" + "".join(f"  {line}" for text in self.failing for line in text.splitlines(keepends=True)))
        used = resource.getrusage(resource.RUSAGE_CHILDREN)
        self.say(f"test: {int(time.monotonic() - self.began) // 60} minutes on the clock, "
                 f"{round((used.ru_utime + used.ru_stime) / 60)} of processor time; "
                 f"at most {(self.free - self.least) // 1_000_000_000} GB of memory at once")
        (self.notes / "whole").touch()
        self.say(f"{self.passed} passed, {self.failed} failed" + ("; nothing was proved" if self.mode == "quick" else ""))
        return int(self.failed > 0)

    def run(self):
        threading.Thread(target=self.watch_memory, daemon=True).start()
        status = 1
        try:
            if self.verdict("begin", self.notes):
                return 1
            (self.run_quick if self.mode == "quick" else self.run_full)()
            status = self.finish()
        except Stopped as stopped:
            if self.failing:
                self.say("test: these FAILED:\n" + "".join(self.failing))
            status = stopped.args[0]
        except SystemExit as ended:  # by a signal
            status = ended.code
            raise
        finally:
            self.stop_all()
            if (self.notes / "begun").exists():
                status = self.verdict("end", self.notes, self.mode, status) or status
        return status


def clock(seconds):
    return f"{int(seconds) // 60}:{int(seconds) % 60:02}"


def takes_anew():
    """Returns true if `rt ci` has the option --anew: some toolchains always prove all."""
    said = subprocess.run(["rt", "--help"], stdout=subprocess.PIPE, stderr=subprocess.STDOUT, text=True).stdout
    return bool(re.search(r"\brt ci\b.*--anew", said, re.S))


def clean():
    """Removes what earlier checks built, so that all that is found after `rt ci` is its own."""
    for folder in TOP.glob("crates/*/out/rlib"):
        shutil.rmtree(folder)
    for folder in TOP.glob("out/build/*.rlib"):
        shutil.rmtree(folder) if folder.is_dir() else folder.unlink()


def run_only(patterns):
    """Runs the tests whose names, or whose subTests' names, match one of these patterns. It judges the proved program if it is
    built, and else the unproved one."""
    known, _ = expected.read()

    def matches(test):
        named = [test, *(f"{test} {part}" for part in known.get(test, (None, ()))[1])]
        return any(fnmatch.fnmatchcase(name, pattern.replace("[", "[[]")) if set(pattern) & set("*?") else pattern in name
                   for pattern in patterns for name in named)

    chosen = {module: list(filter(matches, tests)) for module, tests in runner.names().items()}
    if not any(chosen.values()):
        sys.exit(f"test: no test matches {' or '.join(patterns)}; ./test --list prints their names")
    ready = subprocess.run([TOP / "dev/build/build", "--ready", "rt_app"], stdout=subprocess.PIPE, stderr=subprocess.DEVNULL, text=True)
    with tempfile.TemporaryDirectory(prefix="yarib-gate-") as folder:
        gate = Gate("only", pathlib.Path(folder).resolve())
        gate.environment |= {name: value for name, value in os.environ.items() if name.startswith("YARIB_")}
        if ready.returncode == 0:
            gate.environment.setdefault("YARIB_PROGRAM", ready.stdout.strip())
        for module, tests in chosen.items():
            if tests:
                gate.run_module(module, tests if len(tests) < len(runner.names()[module]) else ())
        expected.keep(gate.records)
        for line in expected.differences(gate.records, None, gate.whole):
            gate.count(0, 1, line)
            print(f"{line}; ./test --expected writes it anew")
        print(f"{gate.passed} passed, {gate.failed} failed")
    sys.exit(int(gate.failed > 0))


def run_gate(mode):
    for need in ("rt", "gcc"):
        if not shutil.which(need):
            print(f"test: {need} is not on PATH; CONTRIBUTING.md says what ./test needs", file=sys.stderr)
            sys.exit(127)
    for number in (signal.SIGHUP, signal.SIGINT, signal.SIGTERM):
        signal.signal(number, lambda number, frame: sys.exit(128 + number))
    with tempfile.TemporaryDirectory(prefix="yarib-gate-", ignore_cleanup_errors=True) as folder:
        status = Gate(mode, pathlib.Path(folder).resolve()).run()
    sys.exit(status)


def update_expected():
    listed = [line for tool in ("mutants", "definitions") for line in subprocess.run(
        [TOP / f"dev/mutants/{tool}", "--list"], stdout=subprocess.PIPE, text=True, check=True).stdout.splitlines()]
    if unknown := expected.update(listed):
        sys.exit("".join(f"test: {name} has no record: run it once, by ./test or ./test --only\n" for name in unknown))


def main():
    parser = argparse.ArgumentParser(prog="test", description=__doc__, formatter_class=argparse.RawDescriptionHelpFormatter)
    what = parser.add_mutually_exclusive_group()
    what.add_argument("--anew", action="store_true", help="proves and tries all, also what an earlier run on this machine passed")
    what.add_argument("--quick", action="store_true", help="proves nothing: builds the program unproved, as ./try does")
    what.add_argument("--only", metavar="PATTERN", nargs="+", help="runs the tests whose names match, and nothing else")
    what.add_argument("--list", action="store_true", help="prints the names of all tests")
    what.add_argument("--expected", action="store_true", help="writes tests/expected.txt by what the last runs recorded")
    args = parser.parse_args()
    if args.list:
        return print("\n".join(name for tests in runner.names().values() for name in tests))
    if args.expected:
        return update_expected()
    if args.only:
        run_only(args.only)
    run_gate("quick" if args.quick else "anew" if args.anew else "full")

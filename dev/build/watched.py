"""Runs a test that may never end, as those of mutants do. How busy the machine is decides nothing: a process that
waits forever is told by its threads, all of which sleep, and one that goes on and on gets no verdict."""
import os
import pathlib
import signal
import subprocess
import time

WAITS = "waits forever"
# How often the threads are looked at, and how often in a row they have to be found asleep, with no processor time used.
SECONDS_BETWEEN, LOOKS = 0.1, 50


def processes(pid):
    """Returns a process and all that it has started, and that these have started."""
    found = [pid]
    for task in pathlib.Path(f"/proc/{pid}/task").glob("*"):
        found += [one for child in (task / "children").read_text().split() for one in processes(int(child))]
    return found


def commands(pid):
    """Returns the command lines of a process, and of all that it has started, as far as these have one."""
    lines = [pathlib.Path(f"/proc/{one}/cmdline").read_bytes() for one in processes(pid)]
    return [" ".join(os.fsdecode(line).split("\0")).strip() for line in lines if line]


def polls(pid, pollers):
    """Returns whether this is a process with one of these names, and one that it has started goes on. It looks now and
    then whether that has ended, which says nothing of how far that is."""
    folder = pathlib.Path("/proc", str(pid))
    if (folder / "comm").read_text().rstrip() not in pollers:
        return False
    children = [child for task in (folder / "task").glob("*") for child in (task / "children").read_text().split()]
    return any(pathlib.Path(f"/proc/{child}/stat").read_text().rpartition(")")[2].split()[0] != "Z" for child in children)


def use(pid, pollers=()):
    """Returns what each thread of these processes has used of the processor, or None if one of them isn't asleep; of
    processes with the names of `pollers`, only of those that have started none which goes on."""
    used = []
    try:
        counted = [one for one in processes(pid) if not polls(one, pollers)]
        for task in [task for one in counted for task in sorted(pathlib.Path(f"/proc/{one}/task").glob("*"))]:
            state, *numbers = (task / "stat").read_text().rpartition(")")[2].split()
            used.append((task.name, *numbers[10:12], state))
    except (FileNotFoundError, ProcessLookupError):
        return None
    return used if all(one[-1] in "SZ" for one in used) else None


def watched(words, seconds=600, pollers=(), say=None, **how):
    """Runs a command, and returns its status, or WAITS if it waits forever; None, which is no verdict, after `seconds`. It
    waits too if only processes with the names of `pollers` look for the end of what waits. `say` is called with the
    command lines of what waits."""
    how = {"stdin": subprocess.DEVNULL, "stdout": subprocess.DEVNULL, "stderr": subprocess.DEVNULL} | how
    with subprocess.Popen(words, start_new_session=True, **how) as process:
        begun, before, looks = time.monotonic(), None, 0
        try:
            while process.poll() is None:
                now = use(process.pid, pollers)
                looks, before = (looks + 1 if now is not None and now == before else 0), now
                if looks >= LOOKS:
                    if say:
                        say(commands(process.pid))
                    return WAITS
                if time.monotonic() - begun > seconds:
                    return None
                time.sleep(SECONDS_BETWEEN)
            return process.returncode
        finally:
            try:
                os.killpg(process.pid, signal.SIGKILL)
            except ProcessLookupError:
                pass

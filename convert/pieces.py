"""Converts pieces of an input in other processes, and joins the results in the order of the input.

A piece begins where nothing that came before matters but a small state, such as the name of the table. The state may change
with each piece. So a piece is given to a process with the state of that time, and if the state is another when its turn comes,
or if its process couldn't convert it, it is converted in this process, as all are if there is a single processor. Errors are
found so as well, and the messages don't depend on the number of processes."""
import collections
import contextlib
import fcntl
import marshal
import math
import os
import pathlib
import select
import signal
import struct
import typing

# the sizes of the two parts after it
HEADER = struct.Struct("QQ")
STANDARD_ERROR = 2
# how much is written or read at once; a pipe holds as much, if the system can set its size
BLOCK = 1 << 20
# the signals that a process would report, which only the first one does
REPORTED = (signal.SIGTERM, signal.SIGHUP, signal.SIGINT, signal.SIGALRM)
# how long this process waits for one that neither takes nor gives anything: this number of times these milliseconds
TIMES, WAIT = 10, 1000
# the control group of this process, and the directory of control groups
OWN_GROUP, GROUPS = "/proc/self/cgroup", "/sys/fs/cgroup"


class Piece(typing.NamedTuple):
    """A part of the input, the number of its line ends, whether something new begins with it and after it, and whether it is
    the last."""

    data: bytes
    lines: int
    begins: bool
    ends: bool
    is_last: bool = False


class Task:
    """A piece that waits for its turn. `worker` has it, or has had it, with the state `state`. The worker's answer sets its result,
    None before; the result is empty if the worker couldn't convert it."""

    def __init__(self, piece):
        self.piece, self.worker, self.state, self.result = piece, None, None, None


def processors():
    """The number of processors whose time this process may use."""
    # neither BSD nor macOS has it
    number = len(os.sched_getaffinity(0)) if hasattr(os, "sched_getaffinity") else os.cpu_count() or 1
    return min([number, *map(math.ceil, quotas())])


def quotas():
    """How many processors' time the control group of this process and those above it may use, as of a container."""
    with contextlib.suppress(OSError):
        for line in pathlib.Path(OWN_GROUP).read_text().splitlines():
            number, _, name = line.split(":", 2)
            group = pathlib.PurePosixPath(name)
            # the other numbers are of an older form
            for one in (group, *group.parents) if number == "0" else ():
                with contextlib.suppress(OSError, ValueError):
                    time, period = pathlib.Path(f"{GROUPS}{one}/cpu.max").read_text().split()
                    if time != "max":
                        yield int(time) / int(period)


def read(descriptor, size):
    """That many bytes; fewer if the other end was closed."""
    parts = []
    while size and (part := os.read(descriptor, min(size, BLOCK))):
        parts.append(part)
        size -= len(part)
    return b"".join(parts)


def write(descriptor, data):
    view = memoryview(data)
    while view:
        view = view[os.write(descriptor, view) :]


def pipe():
    """A pipe that holds a piece, so that neither end waits for the other again and again."""
    ends = os.pipe()
    # only Linux can set it, and it may refuse
    with contextlib.suppress(AttributeError, OSError):
        fcntl.fcntl(ends[1], fcntl.F_SETPIPE_SZ, BLOCK)
    return ends


class Worker:
    """A process that converts one piece after the other. `work(data, state)` makes the result of a piece, which `marshal`
    writes; `closed` are descriptors that only this process may have. Neither writing to it nor reading from it waits, since it may
    have been stopped."""

    def __init__(self, work, closed):
        self.task = None
        # what is still to be written of its task, and what was read of its answer
        self.unsent, self.taken = b"", bytearray()
        requests, self.requests = ends = pipe()
        try:
            self.results, results = pipe()
            ends += self.results, results
            if min(ends) <= STANDARD_ERROR:
                raise OSError("standard descriptors are closed")
            os.set_blocking(self.requests, False)
            self.process = fork()
        except OSError:
            self.close(*ends)
            raise
        if self.process == 0:
            try:
                self.close(self.requests, self.results, *closed)
                serve(requests, results, work)
            finally:
                os._exit(0)
        self.close(requests, results)

    @staticmethod
    def close(*descriptors):
        for descriptor in descriptors:
            with contextlib.suppress(OSError):
                os.close(descriptor)

    def give(self, task, state):
        """Gives it a task; returns False if the process has ended."""
        self.task, task.worker, task.state = task, self, state
        with_state = marshal.dumps(state)
        self.unsent = memoryview(HEADER.pack(len(with_state), len(task.piece.data)) + with_state + task.piece.data)
        return self.goes_on((self.requests,))

    def goes_on(self, ready):
        """Writes and reads what these descriptors are ready for; returns False if the process has ended."""
        try:
            if self.requests in ready:
                self.send()
            return self.results not in ready or self.take()
        except OSError:
            return False

    def send(self):
        with contextlib.suppress(BlockingIOError):
            while self.unsent:
                self.unsent = self.unsent[os.write(self.requests, self.unsent) :]

    def take(self):
        """Takes what there is of its answer; returns False if it has ended."""
        data = os.read(self.results, BLOCK)
        self.taken += data
        if len(self.taken) >= HEADER.size:
            size = HEADER.size + HEADER.unpack_from(self.taken)[0]
            if len(self.taken) == size:
                self.answer(bytes(self.taken[HEADER.size :]))
                self.taken.clear()
        return bool(data)

    def answer(self, result):
        self.task.result, self.task = result, None

    def end(self):
        """Ends it, even if it was stopped. A piece that it still has is converted by this process."""
        self.close(self.requests, self.results)
        with contextlib.suppress(OSError):
            os.kill(self.process, signal.SIGKILL)
            os.waitpid(self.process, 0)
        if self.task:
            self.answer(b"")


def fork():
    """Makes a process that signals end without a message, from its first instruction on."""
    before = signal.pthread_sigmask(signal.SIG_BLOCK, REPORTED)
    try:
        process = os.fork()
        for number in () if process else REPORTED:
            if signal.getsignal(number) != signal.SIG_IGN:
                signal.signal(number, signal.SIG_DFL)
    finally:
        signal.pthread_sigmask(signal.SIG_SETMASK, before)
    return process


def serve(requests, results, work):
    """Converts pieces until no more come. Whatever goes wrong, the other process converts the piece again."""
    # only the other process reads the input, and reports
    with contextlib.suppress(OSError):
        nothing = os.open(os.devnull, os.O_RDWR)
        for standard in range(STANDARD_ERROR + 1):
            os.dup2(nothing, standard)
    while len(head := read(requests, HEADER.size)) == HEADER.size:
        # a request that can't be read ends this process, since the next one would be looked for within it
        state, data = (read(requests, size) for size in HEADER.unpack(head))
        try:
            result = marshal.dumps(work(data, marshal.loads(state)))
        except Exception:
            result = b""
        write(results, HEADER.pack(len(result), 0))
        write(results, result)


class Ahead:
    """The pieces that this process has to convert, in the order of the input. Between them, those that others have converted
    are joined.

    `pieces` are all pieces; `state()` is the state before the next piece, or None if it has to be converted here; `work` makes
    a result, and `join(result, piece)` adds it, or returns False if it can't be added."""

    def __init__(self, pieces, state, work, join, number, ahead, closed):
        self.pieces, self.state, self.work, self.join = pieces, state, work, join
        self.number, self.most, self.closed = number, number * ahead + 2, closed
        self.workers, self.waiting = [], collections.deque()
        # no more processes can be made; what ended the input, or None
        self.is_full = False
        self.end = None

    def __iter__(self):
        try:
            while True:
                self.read_on()
                if not self.waiting:
                    if isinstance(self.end, StopIteration):
                        return
                    raise self.end
                if piece := self.next():
                    yield piece
        finally:
            for worker in self.workers:
                worker.end()

    def read_on(self):
        """Reads all pieces that may wait, but none while the first has to be converted here. What ends the input counts
        after all pieces before."""
        while self.end is None and len(self.waiting) < self.most and (not self.waiting or self.waiting[0].worker):
            try:
                self.waiting.append(Task(next(self.pieces)))
            except Exception as end:
                self.end = end
            self.exchange(0)
            self.hand_out(self.state())

    def next(self):
        """The next piece if it has to be converted here; None if it was joined."""
        state = self.state()
        self.hand_out(state)
        task = self.waiting[0]
        if task.worker and task.state == state:
            self.wait_for(task, state)
        is_joined = task.result and task.state == state and self.join(marshal.loads(task.result), task.piece)
        self.waiting.popleft()
        return None if is_joined else task.piece

    def wait_for(self, task, state):
        """Waits for an answer, but not for a process that was stopped: if none takes or gives anything for a long time, the piece is
        converted here. Short waits are counted, since this process may have been stopped as well."""
        silent = 0
        while task.result is None:
            silent = 0 if self.exchange(WAIT) else silent + 1
            if silent == TIMES:
                self.drop(task.worker)
            self.hand_out(state)

    def hand_out(self, state):
        """Gives waiting pieces to processes without one."""
        if state is None:
            return
        for task in self.waiting:
            if task.worker is None and task.piece.begins and task.piece.ends:
                worker = next((worker for worker in self.workers if worker.task is None), None) or self.new_worker()
                if worker is None:
                    return
                if not worker.give(task, state):
                    self.drop(worker)

    def new_worker(self):
        """Makes a process, if there may be more."""
        if self.is_full or len(self.workers) == self.number:
            return None
        try:
            others = [descriptor for worker in self.workers for descriptor in (worker.requests, worker.results)]
            self.workers.append(Worker(self.work, [*self.closed, *others]))
        except (OSError, MemoryError):
            self.is_full = True
            return None
        return self.workers[-1]

    def exchange(self, milliseconds):
        """Gives and takes what processes are ready for, and waits for that at most so long. Returns False if none was ready."""
        poll = select.poll()
        for worker in self.workers:
            if worker.task:
                poll.register(worker.results, select.POLLIN)
            if worker.unsent:
                poll.register(worker.requests, select.POLLOUT)
        ready = {descriptor for descriptor, _ in poll.poll(milliseconds)}
        for worker in list(self.workers):
            if not worker.goes_on(ready):
                self.drop(worker)
        return bool(ready)

    def drop(self, worker):
        """Does without a process that has ended."""
        self.workers.remove(worker)
        worker.end()
        self.is_full = True

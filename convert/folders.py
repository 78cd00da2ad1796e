"""The directory that a converter writes: other files in it are kept, and a new directory replaces the old one
as a whole.

The directory above may be one where others may write, such as /tmp. So nothing is reached through a link that somebody
may have put there: directories are opened once and their files by name in them, and a directory of another user is
refused."""
import contextlib
import errno
import fcntl
import os
import pathlib
import shutil
import stat
import typing

from errors import Refused, naming

# in the directory: for each feed its writer, its size and time, and its name
RECORD = ".written"
# what is needed to remove the files if memory runs out
RESERVE = 1 << 18
# the mode of a directory that is being written, and of files
PRIVATE, OF_FILES = 0o700, 0o666
OTHERS_WRITE = stat.S_IWGRP | stat.S_IWOTH
# what opening a directory or a file gives for a link, a FIFO or a socket; on BSD a link gives EMLINK
NOT_DIRECTORY = (errno.ENOTDIR, errno.ELOOP, errno.EMLINK)
NOT_FILE = (errno.ELOOP, errno.EMLINK, errno.ENXIO, errno.EOPNOTSUPP)


class Written(typing.NamedTuple):
    """The record of a file that a converter wrote."""

    writer: str
    size: int
    time: int

    def is_of(self, status):
        """Returns True if the file with this status is unchanged since it was written."""
        return (status.st_size, status.st_mtime_ns) == (self.size, self.time)


class Directory:
    """An open directory. Its files are found by their names in it, never through a link, whatever becomes of its path."""

    def __init__(self, path):
        self.path = path
        self.descriptor = os.open(path, os.O_RDONLY | os.O_DIRECTORY | os.O_NOFOLLOW)

    def __enter__(self):
        return self

    def __exit__(self, *_):
        self.close()

    def close(self):
        os.close(self.descriptor)

    def status(self):
        return os.fstat(self.descriptor)

    def is_at(self, path):
        """Returns True if the path leads to this directory."""
        with contextlib.suppress(FileNotFoundError):
            return os.path.samestat(self.status(), path.lstat())
        return False

    def names(self):
        return os.listdir(self.descriptor)

    def status_of(self, name):
        return os.stat(name, dir_fd=self.descriptor, follow_symlinks=False)

    def leads_to_file(self, name):
        """Returns True for a file and for a link to one."""
        with contextlib.suppress(OSError):
            return stat.S_ISREG(os.stat(name, dir_fd=self.descriptor).st_mode)
        return False

    def opened(self, name, mode):
        """Opens a file. A link or anything but a file is refused, without waiting for the other end of a FIFO."""
        path = self.path / name
        try:
            return open(name, mode, opener=self.descriptor_of)
        except OSError as error:
            if error.errno in NOT_FILE:
                raise Refused(f"{path} isn't a file: remove it") from None
            error.filename = path
            raise

    def descriptor_of(self, name, flags):
        found = os.open(name, flags | os.O_NOFOLLOW | os.O_NONBLOCK, OF_FILES, dir_fd=self.descriptor)
        if not stat.S_ISREG(os.fstat(found).st_mode):
            os.close(found)
            raise Refused(f"{self.path / name} isn't a file: remove it")
        return found

    @contextlib.contextmanager
    def open(self, name, mode="r"):
        """Opens a file for a block of code; an error of the operating system names the file there."""
        with naming(self.path / name), self.opened(name, mode) as file:
            yield file

    def remove(self, name):
        with naming(self.path / name):
            os.unlink(name, dir_fd=self.descriptor)

    def rename(self, name, new_name):
        os.rename(name, new_name, src_dir_fd=self.descriptor, dst_dir_fd=self.descriptor)


def hidden_directory(path):
    """Opens a directory that a converter makes next to the one of the feeds."""
    try:
        return Directory(path)
    except OSError as error:
        if error.errno in NOT_DIRECTORY:
            raise Refused(f"{path} isn't a directory: remove it") from None
        raise


def private(directory):
    """Refuses a directory where others than the user of this converter may write."""
    status = directory.status()
    if status.st_uid != os.geteuid() or status.st_mode & OTHERS_WRITE:
        raise Refused(f"others than the user of this converter may write to {directory.path}: remove it")
    return directory


def trusted(directory):
    """Refuses a directory of another user, if everybody may write to the one above and could have put it there."""
    path, owner = directory.path, directory.status().st_uid
    above = path.parent.stat()
    if above.st_mode & stat.S_IWOTH and owner not in (os.geteuid(), above.st_uid):
        raise Refused(f"{path} belongs to another user (number {owner}), and everybody may write to {path.parent}: "
                      "remove it, or name another directory")
    return directory


def record_of(directory):
    """The records of the files that converters wrote in a directory, by the file's name."""
    written = {}
    with contextlib.suppress(FileNotFoundError), directory.open(RECORD) as record:
        for line in record.read().splitlines():
            try:
                writer, size, time, name = line.split(" ", 3)
                written[name] = Written(writer, int(size), int(time))
            except ValueError:
                raise Refused(f"{directory.path / RECORD} has a line that no converter writes: {line[:100]!r}") from None
    return written


def usual_mode(status):
    """The mode of a new directory; the group of the directory above may have to be that of its files."""
    mask = os.umask(0)
    os.umask(mask)
    return status.st_mode & stat.S_ISGID | 0o777 & ~mask


class Folder:
    """A directory of feed files, and `new`, which is written next to it and then replaces it.

    A writer holds the locks of the records in `new` and in the directory; the first moves there with `new`. The locks
    of a killed process are free, and what it left is removed. `old` is the directory while it is replaced."""

    def __init__(self, path, writer):
        self.path, self.writer = pathlib.Path(path).resolve(), writer
        if not self.path.name:
            raise Refused(f"{path} can't be a directory of feeds: name one in it")
        self.new = self.path.with_name(f".{self.path.name}.new")
        self.old = self.path.with_name(f".{self.path.name}.old")
        self.made = [parent for parent in self.path.parents if not parent.exists()]
        # `new` when it is open, its record, and that of the directory
        self.directory = self.record = self.record_before = None
        self.reserve = bytearray(RESERVE)

    def __enter__(self):
        while not self.is_locked():
            pass
        try:
            if self.path.exists():
                self.lock_present()
        except BaseException:
            self.leave()
            raise
        try:
            self.restore()
            self.record.truncate(0)
            for name in self.directory.names():
                if name != RECORD:
                    self.directory.remove(name)
            self.files()
        except BaseException:
            self.__exit__()
            raise
        return self

    def __exit__(self, *_):
        self.reserve = None
        try:
            self.restore()
        finally:
            self.leave()

    def descriptors(self):
        """The descriptors that lock, which no other process may have."""
        opened = [self.directory.descriptor, self.record.fileno()]
        return opened if self.record_before is None else [*opened, self.record_before.fileno()]

    def leave(self):
        """Takes back what was begun, and unlocks."""
        if self.directory.is_at(self.new):
            shutil.rmtree(self.new, ignore_errors=True)
        self.directory.close()
        self.record.close()
        if not self.path.exists():
            for parent in self.made:
                with contextlib.suppress(OSError):
                    parent.rmdir()

    def is_locked(self):
        """Locks the record in `new`; False if it was moved to its place, or removed, in the meantime."""
        with contextlib.suppress(FileExistsError):
            self.new.mkdir(mode=PRIVATE, parents=True)
        with contextlib.suppress(FileNotFoundError):
            self.directory = private(hidden_directory(self.new))
            self.record = self.locked(self.directory, "a")
            is_same = os.path.samestat(os.fstat(self.record.fileno()), self.directory.status_of(RECORD))
            if is_same and self.directory.is_at(self.new):
                return True
            self.record.close()
            self.directory.close()
        return False

    def lock_present(self):
        """Locks the record in the directory, if it has one."""
        with trusted(Directory(self.path)) as present, contextlib.suppress(FileNotFoundError):
            self.record_before = self.locked(present, "r+")

    def locked(self, directory, mode):
        """Opens and locks a record."""
        opened = directory.opened(RECORD, mode)
        try:
            fcntl.flock(opened, fcntl.LOCK_EX | fcntl.LOCK_NB)
        except BlockingIOError:
            raise Refused(f"another converter is writing to {self.path}") from None
        return opened

    def files(self):
        """The names of the directory's files."""
        if not self.path.exists():
            return set()
        with trusted(Directory(self.path)) as present:
            return self.files_of(present)

    def files_of(self, present):
        names = present.names()
        for name in names:
            if name != RECORD and not (name.endswith(".feed") and present.leads_to_file(name)):
                raise Refused(f"{self.path} contains other files than feeds ({name}): name a new directory")
        return set(names) - {RECORD}

    def put_in_place(self, names):
        """The files of these names are complete in `new`, which becomes the directory. Returns how many files of an
        earlier run are gone, and the names of those that are kept."""
        if not self.path.exists():
            self.replace(names, {}, usual_mode(self.directory.status()))
            return 0, []
        with trusted(Directory(self.path)) as present:
            files, record = self.files_of(present), record_of(present)
            own = {name for name in files if self.is_own(present, name, record)}
            kept = files - own
            if clash := sorted(kept.intersection(names)):
                raise Refused(f"{self.path / clash[0]} is not what {self.writer} wrote: name another directory")
            for name in kept:
                self.keep(present, name)
            self.replace(names, {name: record[name] for name in kept if name in record}, present.status().st_mode)
        return len(own), sorted(kept)

    def is_own(self, present, name, record):
        """Returns True if this converter wrote the file and nobody changed it."""
        return name in record and record[name].writer == self.writer and record[name].is_of(present.status_of(name))

    def keep(self, present, name):
        """Puts a file of the directory into `new` as well."""
        try:
            os.link(name, name, src_dir_fd=present.descriptor, dst_dir_fd=self.directory.descriptor, follow_symlinks=False)
        except OSError as error:
            error.filename, error.filename2 = self.path / name, self.new / name
            raise

    def replace(self, names, record, mode):
        """Replaces the directory by `new`. The files of these names are new; `record` has those of others."""
        self.write_record(names, record)
        os.fchmod(self.directory.descriptor, stat.S_IMODE(mode))
        with contextlib.suppress(FileNotFoundError):
            self.path.rename(self.old)
        self.new.rename(self.path)
        self.restore()

    def write_record(self, names, record):
        """Adds the new files to the record of other converters' files."""
        for name in names:
            status = self.directory.status_of(name)
            record[name] = Written(self.writer, status.st_size, status.st_mtime_ns)
        with naming(self.new / RECORD):
            self.record.writelines(f"{writer} {size} {time} {name}\n" for name, (writer, size, time) in record.items())
            self.record.flush()

    def restore(self):
        """Ends a replacement: restores the old directory if the new one is missing, or else removes it."""
        if not os.path.lexists(self.old):
            return
        with trusted(hidden_directory(self.old)) as old:
            if self.path.exists():
                self.move_late_files(old)
                shutil.rmtree(self.old)
            else:
                self.old.rename(self.path)

    def move_late_files(self, old):
        """Moves the files from the old directory that came while the others were replaced."""
        record = record_of(old)
        with trusted(Directory(self.path)) as present:
            here = set(present.names())
            for name in old.names():
                status = old.status_of(name)
                is_replaced = name in record and record[name].is_of(status)
                if name == RECORD or is_replaced or name in here and os.path.samestat(status, present.status_of(name)):
                    continue
                if name in here:
                    raise Refused(f"{self.old / name} was added while {self.path / name} was written: move it away")
                os.rename(name, name, src_dir_fd=old.descriptor, dst_dir_fd=present.descriptor)

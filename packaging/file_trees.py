"""Trees of files in memory, written as archives whose bytes depend only on the files and on a time."""
import gzip
import io
import lzma
import pathlib
import tarfile


class Tree:
    """Files and links by their paths. A file is its bytes and its mode, a link the text to which it leads."""

    def __init__(self):
        self.files, self.links = {}, {}

    def add(self, path, content, mode=0o644):
        self.files[path] = (content.encode() if isinstance(content, str) else content, mode)

    def link(self, path, target):
        self.links[path] = target

    def copy(self, source, path):
        """Adds a file or a link, which others may run if its owner may."""
        source = pathlib.Path(source)
        if source.is_symlink():
            self.link(path, str(source.readlink()))
        else:
            self.add(path, source.read_bytes(), 0o755 if source.stat().st_mode & 0o100 else 0o644)

    def copy_all(self, folder, path=""):
        """Adds each file below a directory."""
        for source in sorted(pathlib.Path(folder).rglob("*")):
            if source.is_symlink() or source.is_file():
                self.copy(source, path + str(source.relative_to(folder)))

    def include(self, other, path=""):
        """Adds each file and link of another tree."""
        self.files |= {path + name: file for name, file in other.files.items()}
        self.links |= {path + name: target for name, target in other.links.items()}

    def compress(self, path):
        """Replaces a file by its gzip."""
        content, mode = self.files.pop(path)
        self.add(f"{path}.gz", zipped(content), mode)

    def size(self):
        """Returns the size of all files in kB, each rounded up."""
        return sum((len(content) + 1023) // 1024 for content, _ in self.files.values())

    def tar(self, top, time):
        """Returns a tar file of everything, below the directory `top`, with this time."""
        made = io.BytesIO()
        with tarfile.open(fileobj=made, mode="w", format=tarfile.GNU_FORMAT) as archive:
            folders = {str(parent) for path in [*self.files, *self.links] for parent in pathlib.PurePath(path).parents}
            for path in sorted(folders | self.files.keys() | self.links.keys()):
                entry = tarfile.TarInfo(top if path == "." else f"{top}/{path}")
                entry.mtime, entry.uname, entry.gname = time, "root", "root"
                if path in folders:
                    entry.type, entry.mode = tarfile.DIRTYPE, 0o755
                elif path in self.links:
                    entry.type, entry.linkname, entry.mode = tarfile.SYMTYPE, self.links[path], 0o777
                else:
                    content, entry.mode = self.files[path]
                    entry.size = len(content)
                archive.addfile(entry, io.BytesIO(self.files[path][0]) if path in self.files else None)
        return made.getvalue()


def zipped(content):
    return gzip.compress(content, 9, mtime=0)


def deb(control, data, time):
    """Returns a Debian package of two trees."""
    members = {"debian-binary": b"2.0\n"}
    for name, tree in (("control", control), ("data", data)):
        members[f"{name}.tar.xz"] = lzma.compress(tree.tar(".", time), preset=6)
    made = b"!<arch>\n"
    for name, content in members.items():
        made += f"{name:<16}{time:<12}{0:<6}{0:<6}{0o100644:<8o}{len(content):<10}`\n".encode()
        made += content + b"\n" * (len(content) % 2)
    return made

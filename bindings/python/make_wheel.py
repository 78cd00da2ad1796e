"""Makes the package's wheel and its source archive (sdist) for pip from plain files. It needs no other package and no network.
If YARIB_LIBRARY names the shared library, the wheel contains it. The source archive never does: it has what makes a wheel."""
import base64
import gzip
import hashlib
import io
import os
import pathlib
import platform
import re
import tarfile
import time
import zipfile

HERE = pathlib.Path(__file__).resolve().parent
NAME, VERSION, ABOUT = "yarib", "0.3.0", "IPv4 routing tables whose answers are proved"
INFO = f"{NAME}-{VERSION}.dist-info"
LIBRARY = os.environ.get("YARIB_LIBRARY")
# The time of each file: the earliest that a zip file can have, unless a build that can be repeated sets a later one.
SECONDS = max(315532800, int(os.environ.get("SOURCE_DATE_EPOCH", 0)))
WHEN = time.gmtime(SECONDS)[:6]
# PyPI refuses a package with the first of these, as it should without a licence.
CLASSIFIERS = ("Private :: Do Not Upload", "Operating System :: POSIX :: Linux", "Topic :: System :: Networking", "Typing :: Typed")


def tag():
    """The systems on which the wheel can be used: those whose C library has what the library needs."""
    if not LIBRARY:
        return "py3-none-any"
    needed = max(int(minor) for minor in re.findall(rb"\0GLIBC_2\.(\d+)(?=[.\0])", pathlib.Path(LIBRARY).read_bytes()))
    return f"py3-none-manylinux_2_{needed}_{platform.machine()}"


def metadata():
    """What pip reads of the package."""
    classifiers = "".join(f"Classifier: {one}\n" for one in CLASSIFIERS)
    return (f"Metadata-Version: 2.1\nName: {NAME}\nVersion: {VERSION}\nSummary: {ABOUT}\n{classifiers}Requires-Python: >=3.9\n"
            f"Description-Content-Type: text/markdown\n\n{(HERE / 'README.md').read_text()}").encode()


def modules():
    """The package's own files, by name."""
    return {f"{NAME}/{path.name}": path.read_bytes() for path in sorted((HERE / NAME).glob("*")) if path.suffix in (".py", ".typed")}


def files_of_wheel():
    """What the wheel holds, by name, but for the list of it."""
    found = modules()
    if LIBRARY:
        found[f"{NAME}/libyarib.so.0"] = pathlib.Path(LIBRARY).read_bytes()
    return found | {f"{INFO}/METADATA": metadata(),
                    f"{INFO}/WHEEL": f"Wheel-Version: 1.0\nGenerator: yarib\nRoot-Is-Purelib: {str(not LIBRARY).lower()}\n"
                                     f"Tag: {tag()}\n".encode()}


def listed(name, content):
    """A file's line of the list."""
    digest = base64.urlsafe_b64encode(hashlib.sha256(content).digest()).rstrip(b"=").decode()
    return f"{name},sha256={digest},{len(content)}\n"


def build_wheel(folder, config_settings=None, metadata_directory=None):
    """The call that pip makes: writes the wheel into the folder, and returns its name."""
    files, name = files_of_wheel(), f"{NAME}-{VERSION}-{tag()}.whl"
    files[f"{INFO}/RECORD"] = ("".join(listed(*file) for file in files.items()) + f"{INFO}/RECORD,,\n").encode()
    with zipfile.ZipFile(pathlib.Path(folder) / name, "w", zipfile.ZIP_DEFLATED) as wheel:
        for file, content in files.items():
            entry = zipfile.ZipInfo(file, WHEN)
            entry.compress_type, entry.external_attr = zipfile.ZIP_DEFLATED, 0o644 << 16
            wheel.writestr(entry, content)
    return name


def build_sdist(folder, config_settings=None):
    """The call that build front ends make: writes the source archive into the folder, and returns its name."""
    own = ("README.md", "make_wheel.py", "pyproject.toml", "example.py", "example_daemon.py")
    files = modules() | {name: (HERE / name).read_bytes() for name in own} | {"PKG-INFO": metadata()}
    packed = io.BytesIO()
    with tarfile.open(fileobj=packed, mode="w", format=tarfile.PAX_FORMAT) as archive:
        for file, content in sorted(files.items()):
            entry = tarfile.TarInfo(f"{NAME}-{VERSION}/{file}")
            entry.size, entry.mtime = len(content), SECONDS
            archive.addfile(entry, io.BytesIO(content))
    name = f"{NAME}-{VERSION}.tar.gz"
    (pathlib.Path(folder) / name).write_bytes(gzip.compress(packed.getvalue(), mtime=SECONDS))
    return name

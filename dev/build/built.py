"""The products of crates and their staleness: the same rule for dev/build/build, ./yarib, ./install and bindings/build.

The name of a product contains a checksum of everything that it was built from, and it gets that name once it is complete.
Hence it is stale if no file has the name for the current sources. Next to it is a file with its own checksum: a product that
is empty, cut or changed is not whole, and is built again. All products are in out/build. A library is a directory of .rt
files, which `rt ci` only accepts among the files of a crate, so it is stored as a tar file."""
import functools
import hashlib
import os

from dev.crates import CRATES, TOP, is_program, is_static, needs

STATE = TOP / "out/build"
# The parts of a crate's folder that the prover reads, and the files that it reads there.
PARTS = ("src", "specs", "proofs")
KINDS = (".rt", ".antt")
# The logic by which the crates are proved: the rules by which a toolchain accepts a proof.
LOGIC = "dac8208d650f15bf"


def own(crate):
    """Returns the crates of the repository that a crate's line names."""
    return [one for one in needs()[crate] if one in needs()]


def is_read(name):
    """Returns true if the prover reads a file of this name: not an editor's copy of a source, and not Python's files."""
    return name.endswith(KINDS) and not name.startswith(".")


@functools.cache
def sources_sum(crate, crates=CRATES):
    """Returns a checksum of everything that a crate is built from: the logic, its line of crates.txt, its files below this
    directory, and its dependencies."""
    below = [sources_sum(one, crates) for one in own(crate)]
    made = hashlib.sha256(repr((LOGIC, crate, is_static(crate), needs()[crate], below)).encode())
    for part in PARTS:
        walked = [(at, name) for at, _, names in os.walk(crates / crate / part) for name in names if is_read(name)]
        # Each start of ./yarib runs this: paths as strings need half the time.
        for file in sorted(path for path in (f"{at}/{name}" for at, name in walked) if os.path.isfile(path)):
            with open(file, "rb") as opened:
                text = opened.read()
            made.update(repr((file.removeprefix(f"{crates}/"), len(text))).encode() + text)
    return made.hexdigest()[:32]


def product(crate, toolchain="", crates=CRATES):
    """Returns the path of the program or archive for these sources, or of the library, which only the same toolchain can
    read."""
    name = f"{crate}-{sources_sum(crate, crates)}"
    if is_program(crate):
        return STATE / name
    if is_static(crate):
        return STATE / f"{name}.a"
    return STATE / f"{name}-{hashlib.sha256(toolchain.encode()).hexdigest()[:16]}.tar"


def sum_of(path):
    """Returns the checksum of a file's bytes."""
    with open(path, "rb") as file:
        return hashlib.sha256(file.read()).hexdigest()


def sum_file(path):
    """Returns the path of the file that has a product's checksum, in the form of sha256sum."""
    return path.with_name(f"{path.name}.sha256")


def is_whole(path):
    """Returns true if a product exists and has the bytes that it had when it was built."""
    try:
        return sum_file(path).read_text() == f"{sum_of(path)}  {path.name}\n"
    except FileNotFoundError:
        return False


def put(new, path):
    """Renames a complete product to its name, after its checksum is stored. If this is interrupted, the product is not whole."""
    noted = sum_file(new)
    with open(noted, "w") as file:
        file.write(f"{sum_of(new)}  {path.name}\n")
        file.flush()
        os.fsync(file.fileno())
    os.replace(noted, sum_file(path))
    os.replace(new, path)


def discard(path):
    """Removes a product and its checksum."""
    path.unlink(missing_ok=True)
    sum_file(path).unlink(missing_ok=True)

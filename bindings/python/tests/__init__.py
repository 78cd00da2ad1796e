"""Tests of Python's binding. `bindings/build` makes the library; then, in bindings/python:

    python3 -m unittest                                # all of them
    python3 -m unittest tests.test_calls.Borders       # some

YARIB_LIBRARY names another library, or its directory, and YARIB_VECTORS a file of test vectors, which is written
otherwise."""
import atexit
import os
import pathlib
import sys
import tempfile

FOLDER = pathlib.Path(__file__).resolve().parents[1]


def begin():
    """Makes the package, its library and the test vectors known to the tests, and to the processes that they start."""
    for folder in (FOLDER.parents[1], FOLDER):
        if str(folder) not in sys.path:
            sys.path.insert(0, str(folder))
    library = pathlib.Path(os.environ.get("YARIB_LIBRARY", FOLDER.parent / "out")).resolve()
    os.environ["YARIB_LIBRARY"] = str(library / "libyarib.so.0" if library.is_dir() else library)
    if "YARIB_VECTORS" not in os.environ:
        from dev.models import table_vectors
        folder = tempfile.TemporaryDirectory(prefix="yarib-vectors-")
        atexit.register(folder.cleanup)
        os.environ["YARIB_VECTORS"] = str(pathlib.Path(folder.name, "vectors"))
        table_vectors.write(os.environ["YARIB_VECTORS"])


begin()

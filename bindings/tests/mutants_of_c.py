"""Runs a test of bindings/c on a mutant of the C layer. Only the wrong file is compiled again, and with a header all; a
test is linked with it, and takes all other objects from where bindings/build left them."""
import functools

from bindings.tests.library import BINDINGS, STRICT, has_options, made, scratch
from bindings.tests.mutants import MutantCase
from dev.build.watched import watched
from dev.testing import call

FILES = ("places", "handles", "readers", "copies", "files")
# The tests that bring their own heap, and the sanitizer that watches a test.
OWN_HEAP = {"test_busy", "test_followed", "test_concurrent", "test_daemon", "test_refused", "test_files", "test_heap"}
SANITIZERS = {"test_concurrent": "address", "test_daemon": "address", "test_files": "address", "test_readers": "thread",
              "test_refused": "address"}
REFUSING = {"test_refused", "test_files"}


def options_of(sanitizer):
    """Returns gcc's option for a sanitizer; none if gcc hasn't it."""
    option = f"-fsanitize={sanitizer}"
    return [option] if sanitizer and has_options(option) else []


@functools.cache
def parts(sanitizer):
    """Returns the directory of the library's objects, made for this sanitizer."""
    folder = scratch() / f"parts {sanitizer}"
    folder.mkdir()
    made(f"whole {sanitizer}", YARIB_PARTS=str(folder), CFLAGS=" ".join(["-O1", *options_of(sanitizer)]))
    return folder


@functools.cache
def compiled(name, sanitizer):
    """Returns the object of a test, or of what it is linked with."""
    made_to = parts(sanitizer) / f"{name}.o"
    ended = call(["gcc", "-O1", *STRICT, *options_of(sanitizer), "-pthread", "-c", BINDINGS / "c" / f"{name}.c",
                  "-o", made_to])
    if ended.returncode:
        raise AssertionError(f"gcc of {name}.c: {ended.stderr}")
    return made_to


class CMutants(MutantCase):
    def fails(self, mutant):
        """Returns true if the test fails or waits forever. One that comes to no end in ten minutes has no verdict."""
        name, *words = mutant.noticed_by.split()
        sanitizer, copy = SANITIZERS.get(name), self.copy_of("c")
        stem = mutant.file.partition(".")[0]
        files = FILES if stem == "layer" else [stem]
        for file in files:
            if not (self.folder / f"{file}.o").exists():
                self.assert_ended(self.call("gcc", "-std=c99", "-O1", *options_of(sanitizer), "-pthread", "-w", "-c",
                                            copy / f"{file}.c", "-o", f"{file}.o"))
        own = [compiled(one, sanitizer) for one in [name, *["refusing_heap"] * (name in REFUSING)]]
        others = [one for one in (*FILES, "about") if one not in files and name != "test_heap"]
        rest = [parts(sanitizer) / f"{one}.o" for one in others]
        rest += [parts(sanitizer) / "heap.o"] if name not in OWN_HEAP and stem != "heap" else []
        rest += [] if name == "test_heap" else [parts(sanitizer) / "proved.a"]
        if not (self.folder / name).exists():
            changed = [f"{file}.o" for file in files]
            self.assert_ended(self.call("gcc", "-pthread", *options_of(sanitizer), *own, *changed, *rest, "-o", name))
        return watched([self.folder / name, *words]) not in (0, 2, None)

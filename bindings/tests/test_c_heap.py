"""The heap of the library for C: it keeps blocks apart, gives memory back, and loses none."""
from bindings.tests.library import LibraryCase, made
from bindings.tests.random_feeds import random_feed
from dev.testing import needs_command

NEEDS = {"library"}

# Each block comes from malloc, which valgrind and the sanitizers watch.
NO_SLABS = "-DYARIB_NO_SLABS"
SANITIZERS = {
    # The sanitizer of threads doesn't know that mremap gives other memory.
    "thread": (("-fsanitize=thread",), ["calls"]),
    "address": (("-fsanitize=address,undefined", NO_SLABS), ["calls", "resizes"]),
    "undefined": (("-fsanitize=undefined",), ["calls", "resizes"]),
}
STRICT = ("-g", "-fsanitize=address,undefined", "-fno-sanitize-recover")
VALGRIND = ("valgrind", "-q", "--error-exitcode=9", "--leak-check=full")
TESTED = ("calls", "report")


@needs_command("make")
class Heap(LibraryCase):
    def test_parts(self):
        """What it gives back, and how it doesn't hold up the program's allocations."""
        self.varies()
        self.run_parts("heap", self.build("heap"), stdout=r"(?s:.*)")

    def test_whole(self):
        """All parts, one after another, on the slabs that the ones before leave."""
        self.varies()
        self.run_counted(self.build("heap"), stdout=r"(?s:.*)", least=1000)

    def test_sanitizers(self):
        self.varies()
        for name, (options, parts) in SANITIZERS.items():
            with self.subTest(name):
                self.needs_options("-g", *options)
                heap = self.build("heap", "-g", *options)
                for part in parts:
                    self.run_counted(heap, part, "watched", stdout=r"(?s:.*)", least=100)

    @needs_command("valgrind")
    def test_valgrind(self):
        self.varies()
        self.run_counted(*VALGRIND, self.build("heap", "-g", NO_SLABS), "calls", "watched", least=100)


@needs_command("make")
class Leaks(LibraryCase):
    """No byte of the library is lost, read or written where it isn't to be."""

    def run_tested(self, name, kind, *checker, options=()):
        self.write({"a.feed": random_feed(7)})
        test = self.build(name, *options, libraries=(made("seen", CFLAGS=f"-O2 {NO_SLABS}"), None))
        words = ["a.feed", "1000", kind] if name == "report" else []
        self.run_counted(*checker, test, *words, stdout=r"(?s:.*)", least=50)

    @needs_command("valgrind")
    def test_valgrind(self):
        for name in TESTED:
            with self.subTest(name):
                self.run_tested(name, "1", *VALGRIND, "--show-leak-kinds=all")

    def test_sanitizers(self):
        self.needs_options(*STRICT)
        for name in TESTED:
            with self.subTest(name):
                self.run_tested(name, "0", options=STRICT)

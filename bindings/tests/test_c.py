"""The library for C, call by call: every status, old names, headers for C and C++, and what each call needs of
memory."""
import re
import shutil

from bindings.tests.library import ADDRESS, BINDINGS, STRICT, LibraryCase, declared, has_options, library
from dev.testing import environment, needs_command

NEEDS = {"library"}

# The names of version 0.1, which no header declares any more.
OLD_NAMES = {"yarib_forward", "yarib_share", "yarib_follow"}
LIBRARIES = ("libyarib.a", "libyarib.so")

# What is wrong and noticed where YARIB_CHECK is defined.
FAULTS = {
    "a null pointer": "yarib_free(NULL);",
    "a null pointer to a concurrent table": "yarib_concurrent_free(NULL);",
    "one handle in the place of two": "if (yarib_fib_clone(&table, &table)) return 0;",
    "a list that is read and written":
        "yarib_route list[2] = {{0}}; if (yarib_look_up(&table, &list[0].via, 1, list, 1)) return 0;",
}
CONSTANTS = ("#include <yarib.h>\n"
             "static yarib plain = YARIB_INIT;\nstatic yarib_concurrent table = YARIB_CONCURRENT_INIT;\n"
             "int main(void) { yarib own = YARIB_INIT; return plain.inside || table.inside || own.inside; }\n")
IN_CPP = "#include <yarib.h>\nint main() { yarib table = YARIB_EMPTY; yarib_free(&table); return 0; }\n"


def linked(name):
    """Returns the word of make by which a test is linked with this library."""
    return f'"{library() / name}"'


@needs_command("make")
class Calls(LibraryCase):
    def test_calls(self):
        self.run_counted(self.build("calls", words=["OPTIONS_calls="]), least=1000)

    def test_calls_with_checks(self):
        self.run_counted(self.build("calls"), least=1000)

    def test_busy(self):
        """Calls inside other calls on one handle run or are busy."""
        self.run_counted(self.build("busy"), least=50)

    # Catches an `apply` that allocates more than the nodes of a new route, or in another command, even if it frees the
    # block at once; a `look_up` of many that allocates; and a `reserve` that reserves too little, or again.
    def test_requests(self):
        """A new route needs one node or two, and no other command allocates, in a small table and a large one."""
        self.run_counted(self.build("requests"), least=100_000)

    def test_readonly(self):
        """Reading calls write nothing into the memory of a table, which is read-only."""
        self.run_counted(self.build("readonly"), least=10)

    def test_view(self):
        """Look-ups in a view give what the table answers."""
        self.run_counted(self.build("view"), least=1000)

    def test_followed(self):
        """A followed table is followed as long as memory suffices, by one forwarding table, which look-ups read."""
        self.run_counted(self.build("followed"), least=1000)

    def test_changed(self):
        """A command's changes of best routes are those of a model, also in a concurrent table, and nothing is written
        past them."""
        sanitizers = ("-g", "-fsanitize=address,undefined")
        self.run_counted(self.build("changed", *sanitizers * has_options(*sanitizers)), least=1000)

    def test_files(self):
        """A feed's routes are saved and loaded, and each fault of a file is reported."""
        self.run_parts("files", self.build("files", *ADDRESS * has_options(*ADDRESS)))

    def test_whole_files(self):
        """Files of many lines, and memory that is refused meanwhile."""
        self.run_counted(self.build("files", *ADDRESS * has_options(*ADDRESS)), least=10_000)


@needs_command("make")
class FirstCalls(LibraryCase):
    """A thread's first reading calls need no memory and may be in a signal handler, and the library may be unloaded."""

    def test_linked(self):
        made = self.build("first_calls")
        for words in ([], ["keys"]):
            with self.subTest(" ".join(words) or "no keys"):
                self.run_counted(made, *words, least=100)

    def test_loaded(self):
        made = self.build("first_calls", "-DLOADED", words=["LINKED_first_calls=-ldl"])
        for words in ([], ["keys"]):
            with self.subTest(" ".join(words) or "no keys"):
                self.run_counted(made, library() / "libyarib.so.0", *words, least=100)


class Headers(LibraryCase):
    def compile(self, compiler, file, *options):
        """Compiles and links a file of the test's directory, and returns the path of the program."""
        words = [compiler, "-I", BINDINGS / "c", *options, file, library() / "libyarib.a", "-o", "made"]
        self.assert_ended(self.call(*words))
        return self.folder / "made"

    @needs_command("g++")
    def test_cpp(self):
        self.write({"header.cpp": IN_CPP})
        self.assert_ended(self.call(self.compile("g++", "header.cpp", "-Wall", "-Wextra", "-Werror")))

    def test_constant_initializers(self):
        for compiler, ending in (("gcc", "c"), ("g++", "cpp")):
            with self.subTest(compiler):
                if not shutil.which(compiler):
                    self.skipTest(f"{compiler} not on PATH")
                self.write({f"initial.{ending}": CONSTANTS})
                strict = ("-Wall", "-Wextra", "-Wpedantic", "-pedantic-errors", "-Werror")
                self.assert_ended(self.call(self.compile(compiler, f"initial.{ending}", *strict)))

    def test_faults(self):
        for name, fault in FAULTS.items():
            with self.subTest(name):
                main = f"int main(void) {{ yarib table = YARIB_EMPTY; (void)table; {fault} return 0; }}\n"
                self.write({"fault.c": f"#include <yarib.h>\n{main}"})
                made = self.compile("gcc", "fault.c", *STRICT, "-DYARIB_CHECK")
                self.assertNotEqual(self.call(made).returncode, 0)


class Exports(LibraryCase):
    def test_symbols(self):
        """The libraries export nothing but the header's calls and their old names."""
        for name, option in (("libyarib.so", "-D"), ("libyarib.a", "-g")):
            with self.subTest(name):
                listed = self.call("nm", "--defined-only", "--format=posix", option, library() / name).stdout
                symbols = [line.split()[:2] for line in listed.splitlines() if len(line.split()) > 1]
                exported = {symbol.partition("@")[0] for symbol, kind in symbols if kind != "A"}
                self.assertEqual(exported, {*declared(), *OLD_NAMES})

    def test_soname(self):
        listed = self.call("readelf", "-d", library() / "libyarib.so", env=environment()).stdout
        self.assertEqual(re.findall(r"soname: \[(.*?)\]", listed), ["libyarib.so.0"])

    # Catches an old name that isn't exported, or is that of another call.
    @needs_command("make")
    def test_old_names(self):
        """Programs that were linked with either library find the names of version 0.1."""
        for name in LIBRARIES:
            with self.subTest(name):
                made = self.build("old_names", words=[f"LINKED_old_names={linked(name)}"])
                self.run_counted(made, env={"LD_LIBRARY_PATH": str(library())}, least=3)

    # Catches a library that ends with an illegal instruction on a processor without SSE4.2, or refuses one that has it.
    @needs_command("qemu-x86_64")
    def test_processors(self):
        """On a processor that is too old, the library ends the program with a message."""
        for name in LIBRARIES:
            words = ["gcc", "-O1", *STRICT, "-o", "example", BINDINGS / "c/example.c", library() / name]
            self.assert_ended(self.call(*words))
            for processor, status in (("core2duo", 127), ("Nehalem", 0)):
                with self.subTest(f"{name} on {processor}"):
                    ended = self.call("qemu-x86_64", "-cpu", processor, "-E", f"LD_LIBRARY_PATH={library()}",
                                      "./example")
                    self.assertEqual(ended.returncode, status)
                    self.assertEqual(len(ended.stderr.splitlines()), int(status == 127))
                    self.assertEqual("x86-64-v2" in ended.stderr, status == 127)

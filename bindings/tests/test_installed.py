"""./install --library leaves what a program's author needs, for gcc, pkg-config and CMake, and takes it away again."""
import shutil

from bindings.tests.library import BINDINGS, LibraryCase, archive, declared, shown
from dev.crates import TOP
from dev.testing import environment, needs_command
from dev.versions import VERSION

NEEDS = {"library"}

FILES = ("include/yarib.h", "include/yarib_check.h", "lib/libyarib.a", "lib/libyarib.so", "lib/libyarib.so.0",
         "lib/pkgconfig/yarib.pc")
LISTS = f"""cmake_minimum_required(VERSION 3.13)
project(caller C)
find_package(yarib 99.0 QUIET CONFIG)
if(yarib_FOUND)
  message(FATAL_ERROR "a newer version is found")
endif()
find_package(yarib {VERSION} REQUIRED CONFIG)
foreach(kind yarib static)
  add_executable(by_${{kind}} "{BINDINGS}/c/example.c")
  target_link_libraries(by_${{kind}} yarib::${{kind}})
endforeach()
"""
NO_TARGETS = """cmake_minimum_required(VERSION 3.13)
project(caller C)
find_package(yarib QUIET CONFIG)
if(yarib_FOUND OR TARGET yarib::yarib OR TARGET yarib::static)
  message(FATAL_ERROR "a part of the library is found")
endif()
"""


class InstalledCase(LibraryCase):
    def setUp(self):
        """Installs the library into a directory whose name has a space."""
        self.prefix = self.folder / "a prefix"
        self.settings = environment() | {"YARIB_ARCHIVE": str(archive())}
        self.assert_ended(self.call(TOP / "install", "--library", self.prefix, env=self.settings), None, None)


class Installed(InstalledCase):
    def test_files(self):
        self.assertEqual([name for name in FILES if not (self.prefix / name).exists()], [])

    def test_gcc(self):
        self.assert_ended(self.call("gcc", "-std=c99", "-I", self.prefix / "include", BINDINGS / "c/example.c",
                                    "-L", self.prefix / "lib", "-lyarib", "-o", "example"))
        ended = self.call("./example", env={"LD_LIBRARY_PATH": str(self.prefix / "lib")})
        self.assert_ended(ended, shown("c/README.md")["./example"])

    @needs_command("pkg-config")
    def test_pkg_config(self):
        settings = environment() | {"PKG_CONFIG_PATH": str(self.prefix / "lib/pkgconfig")}
        self.assert_ended(self.call("pkg-config", "--modversion", "yarib", env=settings), f"{VERSION}\n")

    @needs_command("groff")
    def test_manual_is_well_formed(self):
        self.assert_ended(self.call("groff", "-man", "-ww", "-z", "-Tutf8", self.prefix / "share/man/man3/yarib.3"))

    def test_manual_has_each_call(self):
        manual = (self.prefix / "share/man/man3/yarib.3").read_text()
        for name in declared():
            with self.subTest(name):
                self.assertRegex(manual, rf"[ *]{name}\(")

    def test_remove(self):
        ended = self.call(TOP / "install", "--library", "--remove", self.prefix, env=self.settings)
        self.assert_ended(ended, None, None)
        self.assertEqual([path.name for path in self.prefix.rglob("*")] if self.prefix.exists() else [], [])


@needs_command("cmake")
class CMake(InstalledCase):
    """CMake finds the library below a prefix, in a version that isn't newer than it, and links either form of it."""

    def configure(self, prefix, text):
        self.write({"caller/CMakeLists.txt": text})
        return self.call("cmake", "-S", "caller", "-B", "made", f"-DCMAKE_PREFIX_PATH={prefix}",
                         "-DCMAKE_LIBRARY_ARCHITECTURE=x86_64-linux-gnu")

    def check(self, prefix, libraries):
        self.assert_ended(self.configure(prefix, LISTS), None, None)
        self.assert_ended(self.call("cmake", "--build", "made"), None, None)
        for kind in ("yarib", "static"):
            self.assert_ended(self.call(f"made/by_{kind}", env={}), shown("c/README.md")["./example"])
        # Without one of its files the library isn't found.
        (libraries / "libyarib.a").rename(libraries / "away")
        ended = self.configure(prefix, LISTS)
        self.assertNotEqual(ended.returncode, 0)
        self.assertIn("libyarib.a", ended.stderr)
        self.assert_ended(self.configure(prefix, NO_TARGETS), None, None)

    def as_in_debian(self):
        """Returns a copy of the directory as Debian's package lays it out."""
        there = self.folder / "an architecture"
        shutil.copytree(self.prefix / "include", there / "include")
        shutil.copytree(self.prefix / "lib", there / "lib/x86_64-linux-gnu", symlinks=True)
        return there

    def test_prefix(self):
        self.check(self.prefix, self.prefix / "lib")

    def test_architecture(self):
        there = self.as_in_debian()
        self.check(there, there / "lib/x86_64-linux-gnu")

    def test_link(self):
        """CMake also looks through a link such as /lib, which leads to /usr/lib."""
        linked = self.folder / "a root"
        linked.mkdir()
        (linked / "lib").symlink_to(self.as_in_debian() / "lib")
        self.check(linked, linked / "lib/x86_64-linux-gnu")

"""Makes the packages of the proved program and library, and uses them without a toolchain.

The packages are installed in roots of Debian 12 and 13. YARIB_ROOTS names directories that have one each, with python3, gcc,
libc6-dev and pkg-config, with colons between them; they are copied. Without it mmdebstrap makes these roots, once for this
machine, in the user's cache. The library is made of the archive that YARIB_ARCHIVE names, or else of that of
dev/build/build."""
import functools
import gzip
import json
import os
import pathlib
import shutil
import subprocess
import sys
import tarfile
import tempfile
import unittest

from dev.crates import TOP, cache
from dev.testing import TestCase, call, environment, is_unproved, needs_command, program
from dev.versions import VERSION
from packaging.evidence import git, sum_of
from packaging.packages import Release, tools, tracked
from tests.texts import ROW, ROW_OUT

NEEDS = {"program", "library"}
PROVED = True
SUITES = {"12": "bookworm", "13": "trixie"}
NEEDED = "python3,gcc,libc6-dev,pkg-config"
ARCHIVE = f"yarib-{VERSION}-linux-x86_64"
# What `ip -j route` prints.
ROUTES = '[{"dst":"10.0.0.0/8","gateway":"192.0.2.1","dev":"eth0","protocol":"static"}]'
# What is called in a root: a run, and a converter into a table into a map, by the commands' names on PATH.
CALLS = f"""set -e
cd /tmp
test "$(yarib --version | head -n 1)" = "yarib {VERSION}"
yarib run row.feed
echo '{ROUTES}' | yarib-ip-to-feeds feeds 2>/dev/null
yarib table --best feeds/*.feed | yarib-table-to-map >map.html
grep -q '</html>' map.html
"""
LIBRARY_CALLS = """set -e
cd /tmp
cc -o example /usr/share/doc/libyarib-dev/examples/example.c $(pkg-config --cflags --libs yarib)
./example
test -e /usr/lib/x86_64-linux-gnu/cmake/yarib/yarib-config.cmake
gzip -cd /usr/share/man/man3/yarib.3.gz | grep -q '^.SH TYPES AND CALLS'
python3 /usr/share/doc/python3-yarib/examples/example.py
"""
# How an example of Go or Rust is built of the archive of its sources, in which directory, as which file, and how a test of
# the archive is run by its test vectors.
EXAMPLES = {
    "go": (["go", "build", "-o", "two_feeds", "./example"], "go", "two_feeds", ["go", "test", "-run", "BothSides", "."]),
    "cargo": (["cargo", "build", "--offline", "-q", "--example", "two_feeds"], "rust", "target/debug/examples/two_feeds",
              ["cargo", "test", "--offline", "-q", "--test", "changes"]),
}
# Stubs of a commit that is proved again: a build, and a release whose evidence names the files that it was made of.
STUBS = {"dev/build/build": "#!/bin/sh\necho of \"$1\"\n", "release": """#!/bin/sh
mkdir -p "$2"
cp "${0%/*}/EVIDENCE" "$2/EVIDENCE.json"
"""}
# Makes the same release again in a process of its own.
AGAIN = "import sys; from tests.test_packages import write_release; write_release(*sys.argv[1:])"
PIP = [sys.executable, "-m", "pip", "--disable-pip-version-check", "install", "-q", "--no-index", "--target"]


def write_release(proved, folder):
    """Makes a release of a program in a directory, with the evidence of a test."""
    archive = os.environ.get("YARIB_ARCHIVE") or subprocess.run(
        [TOP / "dev/build/build", "yarib_c"], check=True, stdout=subprocess.PIPE, text=True).stdout.strip()
    evidence = lambda library: f'{{"libyarib.so.0": "{library}"}}\n'.encode()
    Release(proved, archive, git("rev-parse", "HEAD"), int(git("log", "-1", "--format=%ct")), evidence).write(folder)


@functools.cache
def shared():
    """Returns a directory that lasts as long as the tests."""
    return tempfile.TemporaryDirectory(prefix="yarib-test-")


@functools.cache
def release():
    """Returns the directory of a release, which is made once for all tests."""
    folder = pathlib.Path(shared().name).resolve() / "release"
    write_release(program(), folder)
    return folder


@functools.cache
def example(name):
    """Returns how the example of an archive was built, and its path."""
    command, folder, path, _ = EXAMPLES[name]
    top = pathlib.Path(shared().name).resolve()
    extract(release() / f"yarib-{VERSION}-{name}.tar.gz", top)
    sources = top / f"yarib-{VERSION}-{name}" / folder
    return call(command, cwd=sources, timeout=300, env=environment()), sources / path


def extract(path, folder):
    with tarfile.open(path) as archive:
        archive.extractall(folder)


def has_pip():
    return call([sys.executable, "-m", "pip", "--version"]).returncode == 0


@unittest.skipUnless((TOP / ".git").exists(), "a release is made of a commit")
@unittest.skipIf(is_unproved(), "packages have the proved program")
@needs_command("git", "gcc", "readelf")
class Packages(TestCase):
    """The packages of a release."""

    def setUp(self):
        self.write({"row.feed": ROW, "routes": ROUTES})

    def call(self, *command, **settings):
        """Calls a command; Python writes bytecode next to what is installed, as it does for a user who is root."""
        variables = {name: value for name, value in environment().items() if name != "PYTHONDONTWRITEBYTECODE"}
        return super().call(*command, **{"env": variables | settings.pop("variables", {})} | settings)

    # Catches packages that depend on the directory, the time, the umask or the time zone.
    def test_made_again(self):
        again = self.folder / "again"
        ended = self.call(sys.executable, "-c", AGAIN, program(), again, cwd=TOP, preexec_fn=lambda: os.umask(0o077),
                          env=os.environ | {"TZ": "Asia/Tokyo", "LANG": "C"})
        self.assert_ended(ended, stdout=None)
        for file in sorted(release().iterdir()):
            with self.subTest(file.name.replace(VERSION, "VERSION")):
                self.assertEqual((again / file.name).read_bytes(), file.read_bytes())

    def test_sums(self):
        self.assert_ended(self.call("sha256sum", "--quiet", "-c", "SHA256SUMS", cwd=release()))

    def test_verify_without_the_toolchain(self):
        changed = self.folder / "changed"
        shutil.copytree(release(), changed)
        (changed / "EVIDENCE.json").write_text("{}\n")
        for name, folder, status in (("a release", release(), 0), ("a changed file", changed, 1)):
            with self.subTest(name):
                ended = self.call(TOP / "release", "--verify", folder, env={"PATH": "/usr/bin:/bin"})
                self.assert_ended(ended, None, None, status)

    # Catches a command without a manual page.
    def test_manual_pages(self):
        tree = tools()
        commands = {pathlib.PurePath(path).name for path in tree.links}
        pages = {pathlib.PurePath(path).name.removesuffix(".1") for path in tree.files if path.endswith(".1")}
        self.assertEqual(commands - pages, set())
        scripts = {f"yarib-{path.name}" for folder in ("convert", "map") for path in (TOP / folder).glob("*-to-*")}
        self.assertEqual(commands, scripts)

    # Catches a package with an error of its form.
    @needs_command("lintian")
    def test_lintian(self):
        self.assert_ended(self.call("lintian", "-i", "-E", "--fail-on", "error,warning,info", *sorted(release().glob("*.deb"))))

    # Catches a package for Python that leaves the bytecode of root's calls.
    @needs_command("dpkg")
    def test_removal_of_bytecode(self):
        dpkg = ["dpkg", f"--root={self.folder / 'root'}", "--force-not-root,depends,script-chrootless"]
        (self.folder / "root/var/lib/dpkg").mkdir(parents=True)
        [package] = release().glob("python3-yarib_*.deb")
        self.assert_ended(self.call(*dpkg, "-i", package), stdout=None, stderr=None)
        self.write({"root/usr/lib/python3/dist-packages/yarib/__pycache__/table.pyc": "", "root/usr/lib/python3/own/__pycache__/a": ""})
        self.assert_ended(self.call(*dpkg, "--purge", "python3-yarib"), stdout=None, stderr=None)
        self.assertEqual([str(path.relative_to(self.folder)) for path in self.folder.glob("root/usr/**/*") if not path.is_dir()],
                         ["root/usr/lib/python3/own/__pycache__/a"])
        self.assertFalse((self.folder / "root/usr/lib/python3/dist-packages").exists())

    # Catches an archive whose install script leaves something, such as bytecode, or installs what doesn't run.
    def test_archive(self):
        extract(release() / f"{ARCHIVE}.tar.gz", self.folder)
        install, prefix = self.folder / ARCHIVE / "install", self.folder / "put here"
        self.assert_ended(self.call(install, prefix), stdout=None)
        with self.subTest("a run"):
            self.assert_ended(self.call(prefix / "bin/yarib", "run", "row.feed"), ROW_OUT)
        with self.subTest("a converter"), open(self.folder / "routes") as routes:
            self.assert_ended(self.call(prefix / "bin/yarib-ip-to-feeds", "feeds", stdin=routes), stdout=None, stderr=None)
        with self.subTest("a map"):
            ended = self.call(prefix / "bin/yarib-table-to-map", input="total 0\n")
            self.assert_ended(ended, stdout=None, stderr="yarib-table-to-map: standard input: no row: no address has a route\n")
        with self.subTest("its version"):
            ended = self.call("pkg-config", "--modversion", "yarib", variables={"PKG_CONFIG_PATH": str(prefix / "lib/pkgconfig")})
            self.assert_ended(ended, f"{VERSION}\n")
        self.assert_ended(self.call(install, "--remove", prefix), stdout=None)
        self.assertFalse(prefix.exists())

    # Catches a wheel that pip refuses, or that lacks the library.
    @unittest.skipUnless(has_pip(), "python3 has no pip")
    def test_wheel(self):
        [wheel] = release().glob("*.whl")
        self.assert_ended(self.call(*PIP, "site", wheel, variables={"PIP_ROOT_USER_ACTION": "ignore"}), stdout=None)
        self.assert_example(TOP / "bindings/python/example.py", "site", 3)

    def assert_example(self, file, site, lines, **variables):
        """Fails unless a copy of an example of Python prints this number of lines with what pip has installed in a
        directory."""
        shutil.copy(file, self.folder)
        ended = self.call(sys.executable, file.name, variables={"PYTHONPATH": site} | variables)
        self.assert_ended(ended, stdout=None)
        self.assertEqual(ended.stdout.count("\n"), lines)

    # Catches a source archive that lacks a file.
    def test_files_of_the_sdist(self):
        sdist = release() / f"yarib-{VERSION}.tar.gz"
        with tarfile.open(sdist) as archive:
            members = archive.getmembers()
        self.assertEqual({(one.uid, one.gid, one.mode, one.mtime) for one in members},
                         {(0, 0, 0o644, int(git("log", "-1", "--format=%ct")))})
        files = [path.removeprefix("bindings/python/") for path in tracked("bindings/python")]
        self.assertEqual(sorted(one.name.partition("/")[2] for one in members if one.isfile()),
                         sorted(["PKG-INFO", *(name for name in files if not name.startswith(("tests/", "must-fail/")))]))

    # Catches a source archive that pip makes no package of.
    @unittest.skipUnless(has_pip(), "python3 has no pip")
    def test_sdist(self):
        sdist = release() / f"yarib-{VERSION}.tar.gz"
        self.assert_ended(self.call(*PIP, "built", sdist, variables={"PIP_ROOT_USER_ACTION": "ignore"}), stdout=None)
        for path in (sdist, release() / f"{ARCHIVE}.tar.gz"):
            extract(path, self.folder / "sources")
        [library] = (self.folder / "sources").rglob("libyarib.so.0")
        [file] = (self.folder / "sources").rglob("example_daemon.py")
        self.assert_example(file, "built", 5, YARIB_LIBRARY=str(library))

    def assert_bindings(self, name):
        """Fails unless the archive of a language's sources builds an example, and passes a test."""
        ended, path = example(name)
        self.assert_ended(ended, stdout=None)
        tested = self.call(*EXAMPLES[name][3], cwd=path.parents[EXAMPLES[name][2].count("/")], timeout=300)
        self.assert_ended(tested, stdout=None, stderr=None)

    @needs_command("go")
    def test_archive_for_go(self):
        self.assert_bindings("go")

    @needs_command("cargo")
    def test_archive_for_rust(self):
        self.assert_bindings("cargo")

    # Catches packages that need more than they say, don't work without a toolchain, or leave bytecode.
    def test_debian_12(self):
        self.assert_used_in_root("12")

    def test_debian_13(self):
        self.assert_used_in_root("13")

    def assert_used_in_root(self, version):
        """Fails unless the packages can be installed in a root of Debian, used and removed."""
        root = self.root_of(version)
        self.varies()  # by the languages that are installed here
        programs = {name: example(name)[1] for name in EXAMPLES if shutil.which(name)}
        for file in release().glob("*.deb"):
            shutil.copy(file, root / "tmp")
        for name, file in programs.items():
            shutil.copy(file, root / "tmp" / name)
        shutil.copy(self.folder / "row.feed", root / "tmp")
        in_root = lambda command: self.call("chroot", root, "sh", "-c", command)
        self.assert_ended(in_root("dpkg -i /tmp/*.deb"), stdout=None)
        with self.subTest("the program, a converter and a map"):
            self.assert_ended(in_root(CALLS), ROW_OUT)
        with self.subTest("C and Python"):
            ended = in_root(LIBRARY_CALLS)
            self.assert_ended(ended, stdout=None)
            self.assertEqual(ended.stdout.count("10.1.0.0"), 4)
        for name in programs:
            ended = in_root(f"/tmp/{name}")
            self.assert_ended(ended, stdout=None, message=f"the example of {name}")
            self.assertEqual(ended.stdout.count("10.1.2.3: "), 2, f"the example of {name}")
        with self.subTest("a manual page"):
            page = gzip.decompress((root / "usr/share/man/man1/yarib-bird-to-feeds.1.gz").read_bytes())
            self.assertEqual(page[:4], b".TH ")
        self.assert_ended(in_root("dpkg --purge python3-yarib libyarib-dev libyarib0 yarib"), stdout=None)
        paths = ("usr/bin/yarib", "usr/share/yarib", "usr/libexec/yarib", "usr/share/doc/yarib",
                 "usr/lib/python3/dist-packages/yarib")
        self.assertEqual([path for path in paths if (root / path).exists()], [])

    def root_of(self, version):
        """Returns a copy of a root of Debian, which is made once for this machine."""
        named = map(pathlib.Path, filter(None, os.environ.get("YARIB_ROOTS", "").split(os.pathsep)))
        root = next((path for path in named if (path / "etc/debian_version").read_text().startswith(version)), None)
        root = root or cache("roots") / SUITES[version]
        if os.geteuid() == 0 and not root.exists() and shutil.which("mmdebstrap"):
            root.parent.mkdir(parents=True, exist_ok=True)
            with tempfile.TemporaryDirectory(dir=root.parent) as new:
                words = ["mmdebstrap", "--quiet", "--variant=minbase", f"--include={NEEDED}", SUITES[version], f"{new}/root"]
                if self.call(*words).returncode == 0:
                    os.rename(f"{new}/root", root)
        if os.geteuid() != 0 or not root.exists():
            self.skipTest("a clean root needs the user root, and either YARIB_ROOTS or mmdebstrap")
        self.call("cp", "-a", "--reflink=auto", root, self.folder / "root")
        return self.folder / "root"


class Verified(TestCase):
    """./release --verify with the toolchain, in a repository whose commit stubs prove and build again."""

    def repository(self):
        """Makes a repository with this one's ./release, and a release of a commit of it; returns its directory."""
        top, said = self.folder / "top", {name: name for name in ("sha256", "crates", "unproved files", "tree", "logic")}
        for folder in ("dev", "packaging"):
            shutil.copytree(TOP / folder, top / folder, ignore=shutil.ignore_patterns("__pycache__"))
        shutil.copy(TOP / "VERSION", top)
        for name, text in (STUBS | {"EVIDENCE": json.dumps(said)}).items():
            (top / name).write_text(text)
            (top / name).chmod(0o755)
        in_top = ["git", "-C", top, "-c", "user.name=a", "-c", "user.email=a@invalid.invalid"]
        commit = ["commit", "-q", "--allow-empty", "-m", "stubs"]
        # HEAD is on no branch: of such a repository `git clone -q` prints advice.
        for words in (["init", "-q"], commit, ["checkout", "-q", "--detach"], ["add", "."], commit):
            subprocess.run([*in_top, *words], check=True)
        said["commit"] = self.call(*in_top, "rev-parse", "HEAD").stdout.strip()
        shutil.copy(TOP / "release", top / "release")
        self.write({"top/made/EVIDENCE.json": json.dumps(said)})
        self.write({"top/made/SHA256SUMS": f"{sum_of(top / 'made/EVIDENCE.json')}  EVIDENCE.json\n"})
        return top

    # Catches a check of a release that can't read the repository of another user, or isn't silent.
    def assert_verified(self, **user):
        top = self.repository()
        self.folder.chmod(0o755)
        (self.folder / "bin").mkdir()
        (self.folder / "bin/rt").symlink_to("/bin/true")
        for path in (self.folder / "bin", top, *top.rglob("*")):
            path.chmod(path.stat().st_mode | (0o755 if path.is_dir() else 0o444))
        # What the user and the machine say of other repositories must not decide.
        variables = {"PATH": f"{self.folder}/bin:/usr/bin:/bin", "HOME": "/nonexistent", "GIT_CONFIG_NOSYSTEM": "1"}
        ended = self.call(top / "release", "--verify", top / "made", env=variables, **user)
        self.assert_ended(ended, stdout=None)
        self.assertEqual(ended.stdout.count("proved and built again"), 1)

    @needs_command("git")
    def test_by_its_owner(self):
        self.assert_verified()

    @needs_command("git")
    @unittest.skipIf(os.geteuid() != 0, "another user needs the user root")
    def test_by_another_user(self):
        self.assert_verified(user=65534, group=65534, extra_groups=[], umask=0o077)

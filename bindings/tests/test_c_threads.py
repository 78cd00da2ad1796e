"""Threads, forks and sandboxes at one handle of the library for C, plain and under gcc's sanitizers."""
from bindings.tests.library import ADDRESS, THREAD, LibraryCase, bare, has_options, sanitized
from dev.testing import needs_command

NEEDS = {"library"}


@needs_command("make")
class Threads(LibraryCase):
    """Threads that read and change one handle, or one concurrent table."""

    def run_threads(self, *options):
        """Runs the tests whose threads meet by chance."""
        self.needs_options(*options)
        self.varies()
        libraries = (sanitized(*options), None)
        for name, stdout in (("threads", r"\d+ answered, \d+ busy\n"), ("readers", r"\d+ answered\n")):
            with self.subTest(name):
                self.run_counted(self.build(name, *options, libraries=libraries), stdout=stdout, least=10_000)

    def test_plain(self):
        self.run_threads()

    def test_thread_sanitizer(self):
        self.run_threads(*THREAD)

    def test_address_sanitizer(self):
        self.run_threads(*ADDRESS)


@needs_command("make")
class Concurrent(LibraryCase):
    """Readers of a concurrent table run during its changes, on one published table."""

    def test_with_checks(self):
        self.varies()
        self.run_parts("concurrent", self.build("concurrent", "-DYARIB_CHECK"))

    def test_address_sanitizer(self):
        """Without YARIB_CHECK, which ends a program that compares a table with itself."""
        self.varies()
        options = ADDRESS * has_options(*ADDRESS)
        self.run_parts("concurrent", self.build("concurrent", *options, libraries=(None, bare(*options))))

    def test_whole(self):
        """All parts, one after another, on the tables that the ones before leave."""
        self.varies()
        options = ADDRESS * has_options(*ADDRESS)
        for name, made in (("with checks", self.build("concurrent", "-DYARIB_CHECK")),
                           ("address", self.build("concurrent", *options, libraries=(None, bare(*options))))):
            with self.subTest(name):
                self.run_counted(made, least=1000)

    def test_refused(self):
        options = ADDRESS * has_options(*ADDRESS)
        made = self.build("refused", *options, libraries=(None, bare(*options)))
        self.run_counted(made, "concurrent", stdout=r"refused \d{3,}\n", least=1000)


@needs_command("make")
class Daemons(LibraryCase):
    """Forks, sandboxes, cancelled threads and busy processes."""

    def test_plain(self):
        self.varies()
        self.run_parts("daemon", self.build("daemon"))

    def test_address_sanitizer(self):
        self.needs_options(*ADDRESS)
        self.varies()
        self.run_parts("daemon", self.build("daemon", *ADDRESS, libraries=(None, bare(*ADDRESS))))

"""The commands on the pages: the program prints what they show below each."""
from dev.testing import call, program
from dev.tests.pages import TOP, Rules, calls, name_of

NEEDS = {"program"}


class Commands(Rules):
    def test_program_prints_what_pages_show(self):
        found = list(calls())
        self.assertGreater(len(found), 10)
        self.assert_none(fault for one in found for fault in self.faults(*one))

    def faults(self, page, words, output):
        """Yields how the program's output and status differ from those on the page."""
        ended = call([program(), *words], cwd=TOP)
        if ended.stdout != output:
            yield f"{name_of(page)}: {' '.join(words)}: the program prints something else"
        if ended.returncode not in ((1,) if words[0] == "diff" and output else (0, 2)):
            yield f"{name_of(page)}: {' '.join(words)}: the program ends with status {ended.returncode}"

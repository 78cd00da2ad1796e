"""Each test of an obligation that YARIB_CHECK adds notices its fault, and a header without it fails."""
import re
import shutil

from bindings.tests.library import BINDINGS, LibraryCase, library
from dev.testing import environment, needs_command

NEEDS = {"library"}

LACKS = '#include <stdlib.h>\n#define LACKS(k) (getenv("LACKS") && atoi(getenv("LACKS")) == (k))\n'


def with_lacks(text):
    """Returns the header's text, in which the part of an obligation isn't tested whose number LACKS in the environment
    is, and these parts."""
    parts = []

    def lacking(place):
        first = len(parts)
        parts.extend(place[1].split(" && "))
        return f"    assert({' && '.join(f'(LACKS({k}) || {parts[k]})' for k in range(first, len(parts)))});"

    return LACKS + re.sub(r"^    assert\((.*)\);$", lacking, text, flags=re.M), parts


class Checks(LibraryCase):
    @needs_command("make")
    def test_faults(self):
        self.run_counted(self.build("checks"), least=100)

    def test_each_part(self):
        """A test fails without the check of each part, and with all of them none does."""
        text, parts = with_lacks((BINDINGS / "c/yarib_check.h").read_text())
        self.write({"yarib_check.h": text})
        # gcc first looks for a header next to the file that includes it.
        shutil.copy(BINDINGS / "c/yarib.h", self.folder)
        for name in ("test_checks.c", "check.h"):
            shutil.copy(BINDINGS / "c" / name, self.folder)
        words = ["gcc", "-std=c99", "-I", ".", "-o", "lacking", "test_checks.c", library() / "libyarib.a"]
        self.assert_ended(self.call(*words))
        self.assertGreater(len(parts), 100)
        for number, part in enumerate([*parts, "nothing"]):
            with self.subTest(f"{number}: {part}"):
                status = self.call("./lacking", env=environment() | {"LACKS": str(number)}).returncode
                self.assertEqual(status != 0, number < len(parts))

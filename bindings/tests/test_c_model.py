"""The model of places and publications has no wrong state, each wrong protocol has one, and the code has the model's
steps."""
import re

from bindings.tests.library import BINDINGS, LibraryCase
from dev.testing import needs_command

NEEDS = {"library"}

OPERATION = re.compile(r"__atomic_(\w+?)(?:_n)?\(((?:[^()]|\([^()]*(?:\([^()]*\))?[^()]*\))*)\)"
                       r"|membarrier\(MEMBARRIER_CMD_PRIVATE")
MODEL = BINDINGS / "c/test_model.c"


def atomic_step(kind, words):
    """Returns an atomic operation in the model's words."""
    changed = re.sub(r"^&|\(\(struct \w+ \*\)(\w+)\)->", "", words.split(",")[0])
    order = "".join(re.findall(r"__ATOMIC_(\w+)", words)[:1])
    return "barrier" if not kind else f"{kind} {order}" if kind == "signal_fence" else f"{kind} {changed} {order}"


def atomic_steps(name):
    """Returns the atomic steps of each function of a file of C that has any, as lines."""
    text = (BINDINGS / "c" / name).read_text()
    found = [(function, [atomic_step(*one) for one in OPERATION.findall(body)])
             for function, body in re.findall(r"^[^\s#/}][^\n;]*?(\w+)\([^;{]*\)\n\{\n(.*?)^\}", text, re.M | re.S)]
    return [f"{function}: {', '.join(steps)}" for function, steps in found if steps]


class Model(LibraryCase):
    def test_steps_of_the_code(self):
        steps = [step for name in ("layer.h", "places.c", "handles.c", "readers.c") for step in atomic_steps(name)]
        self.assertEqual(steps, re.findall(r"^ \*     (\w+: .*)$", MODEL.read_text(), re.M))

    @needs_command("make")
    def test_states(self):
        """All states of the right protocol, and a wrong one of each wrong protocol."""
        out = self.run_counted(self.build("model"), stdout=r"(?s:.*)", least=12)
        wrong = re.search(r"wrong_protocols\[\] = \{(.*?)\};", MODEL.read_text(), re.S)[1].split('"')[1::2]
        found = [line for line in out.splitlines() if not re.search(r": \d+ states$", line)]
        self.assertGreater(len(wrong), 10)
        for name in wrong:
            with self.subTest(name):
                self.assertEqual(sum(line.startswith(f"{name}: ") for line in found), 1)
        self.assertEqual([line for line in found if "no wrong state" in line], [])

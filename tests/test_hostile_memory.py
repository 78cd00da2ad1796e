"""Runs the program with little memory, and with refused requests for memory.

Under rising limits of its address space, each run must end in one of three ways: as with ample memory; with status 5
and nothing on standard output; or with status 5 and the model's output without the commands reported as refused. Limits
under which it can't be loaded at all are left out. Then requests of look-ups, a list and a forwarding table are
refused."""
import re
import resource
import subprocess

from dev.models.table_model import MAX_FEEDS, run_text
from dev.testing import Ended, launched, needs_command
from tests.refusing import OUT_OF_MEMORY, RefusedCase, answered_addresses, check_shown
from tests.texts import AGAIN, FORWARDED, ROW, many_routes, own_text

NEEDS, PROVED = {"program"}, True
ENOUGH = 16
LONG = AGAIN * 20_000
MANY = [own_text(feed) for feed in range(1, MAX_FEEDS + 1)]
OWN = [f"own{feed}.feed" for feed in range(1, MAX_FEEDS + 1)]
# Of each call: the texts of a run, for the model, and by how many bytes and by which part of itself a limit rises.
CALLS = {
    "one small file": (["run", "small1.feed"], [ROW], 16_384, 0),
    "one long file": (["run", "--batch", "100", "long1.feed"], [LONG], 65_536, 0.02),
    "MAX_FEEDS files": (["run", *OWN], MANY, 65_536, 0.05),
    "a look-up in MAX_FEEDS files": (["lookup", "--address", "9.2.3.4", *OWN], None, 16_384, 0.02),
    "all that covers, in MAX_FEEDS files": (["lookup", "--all", "--address", "9.2.3.4", *OWN], None, 16_384, 0.02),
    "the table of MAX_FEEDS files": (["table", *OWN], None, 16_384, 0.02),
    "a comparison of MAX_FEEDS files with one": (["diff", *OWN, "--", "small1.feed"], None, 65_536, 0.02),
    "a replay": (["replay", "--levels", "6", *["5", "63"] * 100], None, 16_384, 0),
    "the help": (["run", "--help"], None, 16_384, 0),
}


class LittleMemory(RefusedCase):
    def setUp(self):
        super().setUp()
        self.varies()
        for name, texts in (("small", [ROW]), ("long", [LONG]), ("own", MANY)):
            self.write_feeds(name, texts)

    def limited(self, words, size, memory):
        """Returns how a call ends with at most `size` bytes of address space and these memory settings, or None if the
        program can't be loaded into them."""

        def limit():
            resource.setrlimit(resource.RLIMIT_AS, (size, size))
            resource.setrlimit(resource.RLIMIT_CORE, (0, 0))

        try:
            ended = self.yarib(*words, preexec_fn=limit, env=memory)
            # A status of the program's own shows that it was loaded.
            if ended.returncode not in range(6) and self.yarib(
                    *words, preexec_fn=limit, env={"LD_TRACE_LOADED_OBJECTS": "1"}).returncode != 0:
                return None
        except (subprocess.SubprocessError, OSError):
            return None
        return None if ended.returncode == 127 else ended

    def kind_of(self, ended, ample, texts, words, size):
        """Compares a call under a limit with that with ample memory or, if commands were refused, with the model.
        Returns the kind of its end."""
        if ended == ample:
            return "as with ample memory"
        failed = re.search(r"^yarib: .*: commands failed, out of memory: [1-9]", ended.stderr, re.M)
        if ended.returncode == 5 and failed:
            addresses = [word for before, word in zip(words, words[1:]) if before == "--address"]
            self.assertEqual(answered_addresses(ended.stdout), addresses, f"in {size // 1024} KB")
            return "with commands refused"
        if ended in (OUT_OF_MEMORY, (5, "", "yarib: fault P3\n")):
            return "with status 5 and nothing printed"
        refused = {tuple(map(int, pair)) for pair in re.findall(r"^(\d+):(\d+) refused$", ended.stdout, re.MULTILINE)}
        explained = bool(refused) and texts is not None and ended.stdout == run_text(texts, refused)
        self.assertEqual((ended.returncode, explained, ended.stderr), (5, True, ""), f"in {size // 1024} KB")
        return "with commands refused"

    def assert_rising_limits(self, words, texts, step, part, memory):
        """Calls under limits that rise by a step, and by a part of themselves, until ENOUGH in succession have all they
        want."""
        ample = self.yarib(*words)
        kinds, size, in_turn = set(), 1 << 20, 0
        while in_turn < ENOUGH and size < 1 << 40:
            ended = self.limited(words, size, memory)
            if ended is not None:
                kinds.add(self.kind_of(ended, ample, texts, words, size))
                in_turn = in_turn + 1 if ended == ample else 0
            size += max(step, int(size * part)) // 4096 * 4096
        self.assertEqual(in_turn, ENOUGH, "the last calls have all they want")
        self.assertGreater(len(kinds), 1, "some call was short of memory")


@needs_command("gcc")
class Refused(RefusedCase):
    # Catches status 2 instead of 5, or another message for refused commands: `lookup --address`, `table`.
    # Catches status 2 instead of 5 only if there is also a faulty address: `lookup --addresses`.
    def test_commands(self):
        """Each request for memory of a look-up and of a list is refused in turn, those for its commands among them."""
        paths = self.write_feeds("refused", [AGAIN, ROW])
        self.write({"faulty.txt": "10.0.0.1\nfrob\n"})
        for words in (
            ["lookup", "--addresses", "faulty.txt"], ["lookup", "--address", "10.0.0.1"],
            ["lookup", "--all", "--addresses", "faulty.txt"], ["table"], ["diff", "--by=route", paths[1], "--"],
        ):
            with self.subTest(" ".join(words)):
                self.kinds.clear()
                self.refuse_each([*words, *paths], check_shown, False)
                self.assertEqual(self.kinds, {"lookup or table", "a command of a look-up or list"})

    # Catches F3 for a look-up of many addresses if the allocation of a forwarding table fails.
    def test_forwarding_tables(self):
        """Look-ups of enough addresses for a forwarding table to answer them, with failing allocations. The last
        requests are that table's, and none of them prevents the answers from being printed."""
        text, asked, answers = many_routes(FORWARDED[1])
        times = FORWARDED[0] // len(asked) + 1
        self.write({"many.feed": text, "many.txt": "".join(asked) * times})
        words = ["lookup", "--addresses", "many.txt", "many.feed"]
        made, beyond = 1, 1 << 24
        while beyond - made > 1:
            middle = (made + beyond) // 2
            made, beyond = (middle, beyond) if self.refused(words, middle).refused else (made, middle)
        for back in (0, 1, 2, 3, 6, 11, 21):
            with self.subTest(f"without request {back} from the last"):
                self.assert_ended(Ended(*self.refused(words, made - back)[:3]), "".join(answers) * times)


def limits(name, memory):
    words, *rest = CALLS[name]
    return lambda self: self.assert_rising_limits(words, *rest, memory(words[0]))


for call in CALLS:
    for setting, memory_of in (("default", lambda subcommand: {}),
                               ("launched", lambda subcommand: launched(subcommand, limited=True))):
        method = f"test_{call.replace(',', '').replace(' ', '_').replace('-', '_')}_with_{setting}_memory"
        setattr(LittleMemory, method, limits(call, memory_of))

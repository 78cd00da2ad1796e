"""What dev/mutants/definitions says of each change of a definition, by a stub of the prover (dev/tests/kept_repository.py)."""
import re

from dev.tests.kept_repository import KeptTest

DEFINED = "-- One.\npub one : Nat\none = 1\n\n-- Another.\npub other : Nat\nother = 1\n"
EXAMPLES = """use Rattle.one.specs.One.{one, other}

-- one
pub also_one : one ≡ 1
also_one = refl

-- one
pub one_is_one : one ≡ 1
one_is_one = also_one

-- other
pub other_is_one : other ≡ 1
other_is_one = refl

pub abbrev short : one ≡ 1
short = refl
"""
# Has the stub of the prover report an error this number of lines before the last one of each of these files.
AT = """at() {
  for file in proofs/$1; do if [ -e "$file" ]; then echo "$file:$(($(wc -l <"$file") - $2)):1: error: it isn't so"; fi; done
}
"""
REFUSED, NOT_READ = "at 'H{0}_*Examples.antt' 0; ", "BAD CHANGE: the prover can't read it"
# Changes of definitions: the old and the new text, the example, and what is said of it. The prover reports errors of those
# with a fifth part, in the copy of this number, or in the unchanged one, which is the next.
CHANGES = {
    "refused": ("one = 1", "one = 2", "one_is_one", "refused, as it must be: one_is_one", REFUSED),
    "still-proved": ("one = 1", "one = 1 + 0", "one_is_one", "NOT REFUSED: the example is still proved", ""),
    "by-another": ("one = 1", "one = 3", "one_is_one", "NOT REFUSED by one_is_one, but by also_one", "at 'H{0}_*Examples.antt' 3; "),
    "unread": ("one = 1", "one = 4", "one_is_one", NOT_READ, REFUSED + "at 'H{0}_*specs_One.antt' 0; "),
    "unread-above": ("one = 1", "one = 5", "one_is_one", NOT_READ, REFUSED
                     + "echo 'proofs/H{0}_one_examples_proofs_Examples.antt:1:1: error: it is no text'; "),
    "never-true": ("one = 1", "one = 6", "one_is_one", "NOT TRIED: one_is_one isn't proved of a copy of the definition as it is",
                   REFUSED + "at 'H{1}_*Examples.antt' 0; "),
    "of-another": ("other = 1", "other = 2", "one_is_one", "BAD CHANGE: one_is_one doesn't speak of what it changes"),
    "of-no-example": ("one = 1", "one = 2", "nothing", "BAD CHANGE: one_examples has no example nothing"),
    "of-an-abbreviation": ("one = 1", "one = 2", "short", "BAD CHANGE: one_examples has no example short"),
    "of-no-text": ("one = 7", "one = 2", "one_is_one", "BAD CHANGE: an 'old:' text is in specs/One.antt 0 times, and not once: one = 7"),
    "of-a-name": ("pub other : Nat", "pub another : Nat", "other_is_one", "BAD CHANGE: it changes which names the file has"),
    "of-a-comment": ("-- One.", "-- Eins.", "one_is_one", "BAD CHANGE: it changes no definition"),
}
NO_CHANGES = {"of-no-file": "BAD CHANGE: there is no file specs/None.antt", "of-no-form": "BAD CHANGE: it isn't written as a change is"}
TWO = {name: CHANGES["refused"] for name in ("first", "second")}
IS_FIRST, IS_SECOND = (f"[ -e proofs/H{number}_one_specs_One.antt ]" for number in (0, 2))


def listed(changes, file="specs/One.antt"):
    """Returns the part of a list that has these changes of a file."""
    return "".join(f"## {name}\n\n```\nfile: {file}\nold: {old}\nnew: {new}\nrefused by: {example}\n```\n\n"
                   for name, (old, new, example, *_) in changes.items())


class Definitions(KeptTest):
    def tried(self, text, meanwhile):
        """Returns the status, what is said of each change, the last line, and how often the prover was called."""
        self.write({"top/crates/one/specs/One.antt": DEFINED, "top/crates/one_examples/proofs/Examples.antt": EXAMPLES,
                    "top/crates/one/must-fail/definitions.md": f"# Changes\n\n{text}"})
        ended, notes = self.run_tool("dev/mutants/definitions", "--gate", meanwhile=meanwhile)
        reports = dict(re.findall(r"^definition one/([\w-]+): (.*)$", ended.stdout, re.M))
        return ended.returncode, reports, ended.stdout.splitlines()[-1], len(notes)

    # Catches a change of a definition that counts as refused though its example is still proved, the prover can't read it, or
    # something else is refused.
    def test_report_of_each_change(self):
        judged = [row[4] for row in CHANGES.values() if len(row) > 4]
        errors = AT + "".join(row.format(2 * at, 2 * at + 1) for at, row in enumerate(judged))
        more = listed({"of-no-file": CHANGES["refused"]}, "specs/None.antt") + "## of-no-form\n\nNothing.\n"
        wanted = {name: row[3] for name, row in CHANGES.items()} | NO_CHANGES
        for call in ("first", "second"):
            status, reports, last, calls = self.tried(listed(CHANGES) + more, errors)
            self.assertEqual((status, last, calls), (1, f"1 passed, {len(wanted) - 1} failed", 1))
            for name, report in wanted.items():
                with self.subTest(f"{call} call: {name}"):
                    self.assertEqual(reports.get(name), report)

    # Catches a check without an end that decides about each change in it.
    def test_one_without_a_verdict_in_time(self):
        errors = f"if {IS_SECOND}; then exit; fi; {AT}{REFUSED.format('*[02468]')}"
        self.assertEqual(self.tried(listed(TWO), errors), (1, {
            "first": CHANGES["refused"][3], "second": "NOT TRIED: one_is_one has no verdict in 120 s of processor time"},
            "1 passed, 1 failed", 3))

    def test_changes_that_are_tried_one_by_one(self):
        errors = f"if {IS_FIRST} && {IS_SECOND}; then exit; fi; {AT}{REFUSED.format('*[02468]')}"
        for calls in (3, 0):
            self.assertEqual(self.tried(listed(TWO), errors), (0, dict.fromkeys(TWO, CHANGES["refused"][3]), "2 passed, 0 failed", calls))

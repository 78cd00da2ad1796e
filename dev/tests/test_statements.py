"""Changes laws and pages in a copy of the repository: `dev/statements/statement --check` has to refuse each change that
means something, and no other. Pages have each word of definitions, types, clauses and their comments."""
import contextlib
import re
import shutil

from dev.crates import CRATES, TOP, crate_of
from dev.rust_sources import source
from dev.statements.definition_reader import parse_module, type_of, uncommented
from dev.statements.statement_forms import definition_lines, type_lines, with_comment
from dev.statements.statement_pages import shown_function
from dev.testing import TestCase, needs_command

LAWS = "crates/rt_rib/specs/Laws.antt"
VIEWS = "crates/yarib_c/src/views.rt"
WORDS = "dev/statements/statement_pages.toml"
OF_SIZES = "result ≢ DONE → (blocks.new ≡ blocks.old) × (routers.new ≡ routers.old)"
DIFFERS = "is not what dev/statements/statement --write would write"
LIBRARIES, PROMISE = f"docs/STATEMENT-LIBRARIES.md {DIFFERS}", f"docs/LIBRARY-C.md {DIFFERS}"
# Changes of one place, each refused: a name, the file, the old and the new text, and the end of the message.
CHANGES = (
    ("equal journals only if one is empty", LAWS, "asked j ≡ asked k → j ≡ k", "asked j ≡ asked k → j ≡ [] → j ≡ k",
     LIBRARIES),
    ("best routes suffice only in the empty table", LAWS, "IsTable table → look_up addr (best_routes table)",
     "IsTable table → table ≡ [] → look_up addr (best_routes table)", LIBRARIES),
    ("the first match is the answer only in the empty table", LAWS, "× (slice_get (look_up_all addr table) 0",
     "× (table ≡ [] → slice_get (look_up_all addr table) 0", LIBRARIES),
    ("a lock's table of another type", "crates/ya_lock/src/tree_lock.rt", "    pub(crate) table: LockTable<V>,",
     "    pub(crate) table: FreeTable<V>,", f"docs/STATEMENT-LOCK.md {DIFFERS}"),
    ("another definition of the whole promise", "docs/LIBRARY-C.md", "AnswersByNumber view.now",
     "AnswersByNumber view.old", PROMISE),
    ("another number of the promise's definitions", "docs/LIBRARY-C.md", " definitions of ", "9 definitions of ",
     PROMISE),
    ("a clause that is gone", VIEWS, f"    ensures silent {{ {OF_SIZES} }}\n", "", LIBRARIES),
    ("two statuses with one number", "crates/yarib_c/src/status.rt", "pub const NOTHING: u32 = 1;",
     "pub const NOTHING: u32 = 0;", LIBRARIES),
    ("a tie that is gone", "crates/ya_lock/src/rule.rt", "    ghost first = { λ _. Unused };\n", "",
     "for LockRule: no first"),
    ("a page's number of lines", "README.md", " lines](docs/STATEMENT-RUN.md)", "9 lines](docs/STATEMENT-RUN.md)",
     f"README.md {DIFFERS}"),
    ("a chapter's number of lines", "README.md", "](docs/STATEMENT-LOCK.md#the-running-lock)",
     "9](docs/STATEMENT-LOCK.md#the-running-lock)", f"README.md {DIFFERS}"),
    ("a page without a link", "README.md", "](docs/STATEMENT-RUN.md)", "]()", "lines of definitions"),
)
# Clauses of the C library that say less, each refused by the page of the libraries: a name, the old and the new text.
WEAKER = (
    ("an argument that may change", OF_SIZES, "result ≢ DONE → blocks.new ≡ blocks.old"),
    ("arguments of which one may change", OF_SIZES, OF_SIZES.replace(" × ", " ⊎ ")),
    ("a condition that never holds", OF_SIZES, OF_SIZES.replace("DONE", "result")),
    ("a handle that changes", "ensures same { held_in table.new ≡ held_in table.old }",
     "ensures same { held_in table.old ≡ held_in table.old }"),
    ("a status of an empty handle", "result ≡ NOTHING → held_in table.old ≡ None",
     "result ≡ NOTHING → held_in table.new ≡ None"),
    ("the reason of another status", "result ≡ BAD_SIZE → length numbers.old ≢",
     "result ≡ DONE → length numbers.old ≢"),
    ("a reason that isn't that of `order`", "result ≡ WRONG_KIND → HandleHolds table.old (λ held. ¬ HasFib held)",
     "result ≡ WRONG_KIND → HandleHolds table.old (λ held. HasFib held)"),
    ("one more status", "ensures known { IsOneOf (DONE ∷ NOTHING ∷ WRONG_KIND ∷ []) result }",
     "ensures known { IsOneOf (DONE ∷ NOTHING ∷ WRONG_KIND ∷ BAD_SIZE ∷ []) result }"),
    ("an order that doesn't give the status", "(λ held. Check (¬ HasFib held) WRONG_KIND (IsOneOf (DONE ∷ [])))",
     "(λ held. IsOneOf (DONE ∷ WRONG_KIND ∷ []))"),
)


@needs_command("rt")
class Pages(TestCase):
    """The check in a copy of the files that the pages are written from."""

    def setUp(self):
        for folder in ("dev", "docs", "crates"):
            shutil.copytree(TOP / folder, self.folder / folder,
                            ignore=shutil.ignore_patterns("__pycache__", "out", "must-fail"))
        for name in ("README.md", "crates.txt"):
            shutil.copy(TOP / name, self.folder / name)

    def statement(self, *words):
        return self.call(self.folder / "dev/statements/statement", *words)

    @contextlib.contextmanager
    def changed(self, name, old, new):
        """Changes a text, and restores the file at the end."""
        file = self.folder / name
        text = file.read_text()
        self.assertIn(old, text)
        file.write_text(text.replace(old, new))
        yield
        file.write_text(text)

    def assert_refused(self, said):
        """Fails unless the check refuses the copy with a message that ends so."""
        ended = self.statement("--check")
        self.assertEqual((ended.returncode, ended.stderr.rstrip("\n")[-len(said):]), (1, said))

    # Catches a check that refuses the pages of this repository, or because of a definition's place.
    def test_pages_as_they_are(self):
        text = (self.folder / LAWS).read_text()
        (self.folder / LAWS).write_text(re.sub(r"\n\n", "\n\n\n", text, count=3))
        self.assert_ended(self.statement("--check"))

    # Catches a law or a tie that no page prints, so that a weaker one passes; a page that goes on saying what nothing
    # ties to the sources; a front page without a page's link, or with another number of lines than a page or a chapter.
    def test_changes(self):
        for name, file, old, new, said in CHANGES:
            with self.subTest(name), self.changed(file, old, new):
                self.assert_refused(said)

    # Catches a page that leaves out a clause of the C library, or a word of it.
    def test_weaker_clauses(self):
        names = re.findall(r'^pub extern "C" fn (\w+)', (TOP / VIEWS).read_text(), re.M)
        functions = [f"yarib_c::views::{name}" for name in names]
        as_it_is = self.statement(*functions).stdout
        for name, old, new in WEAKER:
            with self.subTest(name), self.changed(VIEWS, old, new):
                ended = self.statement(*functions)
                self.assertEqual((ended.returncode, new in ended.stdout, ended.stdout == as_it_is), (0, True, False))

    # Catches a new law that nobody put on a page, or a clause whose definition neither a page nor an example has.
    def test_what_no_page_has(self):
        for clause, said in (("rt_rib::laws::best_routes", "BestRoutesSuffice"),
                             ("rt_trie::Trie::retain", "with_pair")):
            with self.subTest(said), self.changed(WORDS, f'  "{clause}",\n', ""):
                self.statement("--write")
                self.assert_refused(f"{said} is on no statement page, and no example tests it")


def all_definitions():
    return [one for file in sorted(CRATES.glob("*/specs/**/*.antt"))
            for one in parse_module(f"Rattle.{crate_of(file)}.specs.{file.stem}", file).values()]


def all_types():
    return [type_of(one.name, item) for one in sorted(CRATES.iterdir()) for file in sorted(one.glob("src/**/*.rt"))
            for item in source(file).items if item.kind in ("struct", "enum", "trait", "const")]


def words(lines):
    """Returns the words and signs of a definition in order, without those that pages leave out."""
    text = re.sub(r"\b(pub|abbrev|unfoldable) |(: Type 0 )?\bwhere\b", "", uncommented("\n".join(lines)))
    return re.findall(r'"(?:[^"\\]|\\.)*"|[\w\'?]+|[^\s\w;]', text)


def sorted_words(lines):
    return sorted(re.findall(r"[\w'`]+|[^\s\w,;/`']", "\n".join(lines)))


def code_of(lines):
    """Returns the words of lines in order, without those of comments."""
    return re.findall(r"[^\s;]+", "\n".join(re.sub(r"(^|\s)(--|//).*", "", line) for line in lines))


class Forms(TestCase):
    """What the pages' forms print of the sources."""

    def assert_each(self, found, least, faults):
        """Fails unless more than these were looked at, and none of them is at fault."""
        self.assertGreater(len(found), least)
        self.assertEqual(list(faults), [])

    # Catches a form that leaves out a word of a definition or changes their order.
    def test_every_word_of_a_definition(self):
        found = [(one, definition_lines(one.lines)) for one in all_definitions()]
        self.assert_each(found, 1000, (one.key for one, lines in found if words(lines) != words(one.lines)))
        self.assert_each(found, 1000, (f"{one.key} without its last line" for one, lines in found
                                       if len(lines) > 1 and words(lines[:-1]) == words(one.lines)))

    # Catches a form that leaves out a word of a type or of its comments, or a field.
    def test_every_word_of_a_type(self):
        found = [(one, *type_lines(one.comment, one.lines)) for one in all_types()]
        self.assert_each(found, 100, (one.key for one, comment, lines in found
                                      if sorted_words([*comment, *lines]) != sorted_words([*one.comment, *one.lines])))

    # Catches a form that leaves out a word of a comment, or prints a word of a definition in a comment.
    def test_every_word_of_a_comment(self):
        found = [("--", one, definition_lines(one.lines)) for one in all_definitions()]
        found += [("///", one, type_lines([], one.lines)[1]) for one in all_types()]
        faults = []
        for mark, one, lines in found:
            comment = [f"{mark} {line}" for line in one.comment if line.strip()]
            shown = with_comment(comment, lines)
            if sorted_words(shown) != sorted_words([*comment, *lines]) or code_of(shown) != code_of(lines):
                faults.append(one.key)
        self.assert_each(found, 1100, faults)

    # Catches a form that leaves out a word of a clause, or a clause.
    def test_every_word_of_a_clause(self):
        found = [one for folder in sorted(CRATES.iterdir()) for file in sorted(folder.glob("src/**/*.rt"))
                 for one in source(file).functions if one.is_pub]
        faults = []
        for one in found:
            comment = [re.sub(r"\[(`[^`]+`)\]\([\w:]+\)", r"\1", line) for line in one.comment()]
            written = re.sub(r'^ *pub (extern "C" )?', "", "\n".join(one.written()[:one.clauses_end()]))
            shown = shown_function(one)
            if (sorted_words(shown) != sorted_words([*comment, written])
                    or sorted_words(code_of(shown)) != sorted_words(code_of([written]))):
                faults.append(f"{one.name} in {one.file.name}")
        self.assert_each(found, 300, faults)

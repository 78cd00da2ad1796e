"""The pages of the repository say what the sources, the tests and the program say. A failing test lists its faults."""
import json
import pathlib
import re
import sys

from dev.build.building import FIRST_BUILD
from dev.crates import CRATES, TOP, all_crates
from dev.models.calls import COMPARED, COMPARED_FILES, REPLAYED, SHOWN, SHOWN_FILES, WORKED, WORKED_FILES, help_texts
from dev.testing import call, needs_command
from dev.tests.pages import PAGES, Rules, calls, commands, fences, files_of_repository, name_of, named_file, prose_of
from dev.tests.test_sources import names_in_lists
from dev.versions import VERSION, other_versions

APP = TOP / "crates/rt_app"
LINK = re.compile(r"\]\(([^)\s]+)\)")
# The pages whose quoted names have to exist, and where they may be.
NAMING = [TOP / "docs" / name for name in ("PROMISES.md", "LIBRARIES.md", "LIBRARY-C.md", "TESTS.md")]
NAMED = ("crates/*/src/**/*.rt", "crates/*/specs/**/*.antt", "crates/*_examples/proofs/**/*.antt", "tests/**/*",
         "bench/*", "bindings/c/*.[ch]", "bindings/tests/*", "convert/tests/**/*.py", "map/tests/**/*.py", "dev/**/*",
         "packaging/*")
# A path on a page, and those that are placeholders, that a command writes, or that are the reader's or the toolchain's.
PATH = re.compile(r"(?!\d)(?:[\w.-]+/[\w./-]+|\w[\w.-]*\.(?:antt|c|feed|h|in|json|md|py|rt|sh|toml|txt))")
ELSEWHERE = re.compile(r"(?:.*\W)?(?:NAME|CRATE|[A-Za-z])(?:\W.*)?|(?:.*/)?out(?:/.*)?|EVIDENCE\.json"
                       r"|bin/yarib|libexec/yarib/yarib|changes\.txt|merged\.feed|NAME.*|net/netip|specs/Lent\.antt"
                       r"|toolchain/bin/clang")


def anchors(page):
    """Returns the names of a page's headings, as GitHub forms them."""
    heads = re.findall(r"^#+ (.*)$", page.read_text(), re.M)
    return {re.sub(r"[^\w\- ]", "", head.lower()).replace(" ", "-") for head in heads}


def is_line(anchor, file):
    """Returns true if the anchor names a line that the file has."""
    return re.fullmatch(r"L\d+", anchor) and int(anchor[1:]) <= len(file.read_text().splitlines())


def leads_nowhere(page, target):
    path, _, anchor = target.partition("#")
    file = page.parent / path if path else page
    return not file.exists() or anchor and anchor not in anchors(file) and not is_line(anchor, file)


def is_stored(words, output):
    """Returns true for the run that is stored with the program, with any batch: the size of a batch changes nothing in
    it."""
    def plain(given):
        return re.sub(r"--batch \d+ ", "", " ".join(pathlib.PurePath(word).name for word in given))
    return (plain(words) == plain((APP / "args").read_text().split()) and output == (APP / "stdout").read_text()
            and all(named_file(word).read_text() == (APP / "data" / named_file(word).name).read_text()
                    for word in words[1:] if word.endswith(".feed")))


def is_call(listed, files, words, status, output):
    """Returns true if one of these calls has these arguments, files, status and output, and no standard error."""
    is_file = [word.endswith((".feed", ".txt")) for word in words]
    named = [pathlib.PurePath(word).name if is_path else word for word, is_path in zip(words, is_file)]
    for word, name in zip(words, named):
        output = output.replace(json.dumps(word), json.dumps(name))
    return (named, (status, output, "")) in listed and all(
        files[name] == named_file(word).read_text() for word, name, is_path in zip(words, named, is_file) if is_path)


def is_tested(words, output):
    """Returns true if a test compares the program's output for this feed, this schedule or this query."""
    if words[0] in ("lookup", "table"):
        return is_call(SHOWN, SHOWN_FILES, words, 0, output)
    if words[0] == "diff":
        return is_call(COMPARED, COMPARED_FILES, words, 1 if output else 0, output)
    if words[0] == "replay":
        return is_call(REPLAYED, {}, words, 0, output)
    return len(words) == 2 and (named_file(words[1]).read_text(), output) in [
        (WORKED_FILES[worked.words[-1]], worked.ending[1]) for worked in WORKED]


def defined_names():
    """Returns the names of definitions and lemmas that can't be words of a sentence: compound names."""
    names = set()
    for file in TOP.glob("crates/*/[sp][pr][eo]*/**/*.antt"):
        declared = r"^(?:(?:abbrev|unfoldable|pub|record|data) )*([A-Za-z][A-Za-z0-9]*(?:_\w+|[A-Z]\w*))(?= ?[:({])"
        names |= set(re.findall(declared, file.read_text(), re.M))
    return {name for name in names if "_" in name or re.search(r"[a-z0-9][A-Z]", name)}


def ends_of_paths():
    """Returns the paths of the repository's files and directories, and each end of them: pages name a file as briefly
    as is clear. A source's path is also there without `src/`, and a file's without `.in` and `.antt`."""
    found = set()
    for path in map(name_of, files_of_repository()):
        for form in {path, path.replace("/src/", "/"), path.removesuffix(".in"), path.removesuffix(".antt")}:
            parts = form.split("/")
            found.update("/".join(parts[start:]) for start in range(len(parts)))
    return found


def quoted_paths(page):
    """Returns the words between backquotes that are paths: with a slash, or with the ending of a source."""
    prose = re.sub(r"^```.*?^```$", "", page.read_text(), flags=re.M | re.S)
    words = {word.rstrip(".,;:/").removeprefix("./") for quoted in re.findall(r"`([^`\n]+)`", prose)
             for word in quoted.split()}
    return sorted(word for word in words if PATH.fullmatch(word) and not ELSEWHERE.fullmatch(word))


def example_text(file, name):
    """Returns the text that an abbreviation of a file of examples denotes."""
    defined = re.search(rf"^{name} =(.*?)^(?=\S|\Z)", file.read_text(), re.M | re.S)
    parts = re.findall(r'codes "([^"]*)"|(\w+_lines)', defined[1]) if defined else []
    return "".join(example_text(file, other) if other else literal.replace("\\n", "\n") for literal, other in parts)


class Shown(Rules):
    """What the pages show and name."""

    def test_pages_are_found(self):
        self.assertGreater(len(PAGES), 30)
        self.assertGreater(len(list(commands())), 30)

    def test_links_lead_somewhere(self):
        self.assert_none(f"{name_of(page)}: no {target}" for page in PAGES for target in LINK.findall(page.read_text())
                         if not target.startswith(("http:", "https:")) and leads_nowhere(page, target))

    def test_rattle_is_of_a_proved_caller(self):
        """Rattle on a page is part of crates/walkthrough; dev/statements/statement checks its own pages."""
        callers = "\n".join(file.read_text() for file in sorted((CRATES / "walkthrough/src").glob("*.rt")))
        self.assert_none(f"{name_of(page)}: crates/walkthrough has no {piece.splitlines()[0].strip()} .."
                         for page in PAGES if not page.name.startswith(("STATEMENT-", "LIBRARY-C"))
                         for piece in fences(page, "rust") if piece not in callers)

    def test_outputs_are_those_of_tests(self):
        """The output of yarib or ./try, for the same words and files, is in crates/rt_app or dev/models/calls.txt."""
        self.assert_none(f"{name_of(page)}: {' '.join(words)}: neither a stored run nor a test has this output"
                         for page, words, output in calls() if not is_stored(words, output)
                         and not is_tested(words, output))

    def test_shown_files_are_as_they_are(self):
        self.assert_none(f"{name_of(page)}: {' '.join(words)}: the file contains something else"
                         for page, words, output in commands()
                         if words[0] == "cat" and named_file(words[1]).read_text() != output)

    def test_commands_are_known(self):
        """Each is cat, yarib or try; bindings/tests run what the pages of bindings/ show."""
        self.assert_none(f"{name_of(page)}: {' '.join(words)}: neither cat nor yarib nor try"
                         for page, words, _ in commands()
                         if words[0] not in ("cat", "yarib", "./yarib", "./try")
                         and page.parent.parent.name != "bindings")

    def test_definitions_names_are_quoted(self):
        """If a definition's name stands in prose without backquotes, a renaming may have changed a sentence."""
        names = defined_names()
        self.assertGreater(len(names), 1000)
        files = [file for form in ("src/**/*.rt", "specs/**/*.antt", "proofs/**/*.antt")
                 for file in sorted(TOP.glob(f"crates/*/{form}"))]
        files += [page for page in PAGES if not page.name.startswith("STATEMENT-")]
        self.assert_none(
            f"{name_of(file)}:{number}: {name} is a definition's name, and stands in prose without backquotes"
            for file in files for number, prose in prose_of(file)
            for name in sorted(names & set(re.findall(r"[\w']+", prose)) - {prose.strip()}))  # it may head an example

    def test_quoted_names_exist(self):
        """Some source, definition, script or mutant has each name that a page of NAMING quotes."""
        files = {file for form in NAMED for file in TOP.glob(form) if file.is_file()
                 and file.suffix not in (".md", ".pyc")}
        known = {word for file in files
                 for word in re.findall(r"\w+", file.read_text(errors="replace"))} | set(all_crates())
        known |= {name for crate in all_crates() for name in names_in_lists(crate)}
        self.assert_none(f"{name_of(page)}: nothing has the name `{name}`" for page in NAMING
                         for name in sorted(set(re.findall(r"`([^`\n]+)`", page.read_text())))
                         if re.fullmatch(r"[\w:]+", name)
                         and not all(word in known for word in name.split("::") if word))

    def test_named_paths_exist(self):
        """CHANGELOG.md also names what is gone."""
        ends = ends_of_paths()
        self.assert_none(f"{name_of(page)}: names {path}, which doesn't exist" for page in PAGES
                         if page.name != "CHANGELOG.md"
                         for path in quoted_paths(page) if path not in ends)


class Sources(Rules):
    """What the pages say of the sources, the toolchain and the help texts."""

    def test_example_of_a_run_is_the_tutorials(self):
        examples = TOP / "crates/feed_examples/proofs"
        wanted = {(examples / "Feed.antt", name): TOP / f"examples/{name}.feed" for name in ("north", "south", "east")}
        wanted[examples / "Run.antt", "the_tutorials_page"] = APP / "stdout"
        self.assert_none(f"{name_of(file)}: {name} is not {name_of(tutorial)}"
                         for (file, name), tutorial in wanted.items()
                         if example_text(file, name) != tutorial.read_text())

    @needs_command("rt")
    def test_logic_is_the_toolchains(self):
        """A page that names a kit's logic names that of `rt version`; kits of the same logic replace each other."""
        kit = call(["rt", "version"]).stdout.strip()
        self.assert_none(f"{name_of(page)}: names {logic}, and `rt version` prints {kit}" for page in PAGES
                         for logic in re.findall(r"`rattle-kit-\w+ (logic \w+)`", page.read_text())
                         if not kit.endswith(logic))

    def test_time_of_a_first_build(self):
        self.assertIn(FIRST_BUILD, " ".join((TOP / "README.md").read_text().split()))

    def test_versions(self):
        self.assert_none(f"{name}: the version is {found}, and in VERSION {VERSION}"
                         for name, found in other_versions())

    def test_help_is_in_man_page_and_completions(self):
        """They have each command and option of docs/CLI.md, and the version; that page has no other section."""
        pages = [TOP / "packaging" / name for name in ("yarib.1", "completions/yarib.bash", "completions/_yarib")]
        texts = {page: re.sub(r"\\f[BIR]", "", page.read_text()).replace("\\-", "-") for page in pages}
        helps = help_texts()
        self.assertEqual((TOP / "docs/CLI.md").read_text().count("\n## "), len(helps))
        self.assertIn(f'"yarib {VERSION}"', texts[pages[0]])
        self.assert_none(f"{name_of(page)}: has no {word}, which the help of {name} has" for name, text in helps.items()
                         for word in sorted({name, *re.findall(r"^ +(?:-\w, )?(--[\w-]+)", text, re.M)})
                         for page in pages if not re.search(rf"(?<![\w-]){word}(?![\w-])", texts[page]))

    def test_command_for_a_field_finds_every_place(self):
        """The command of CONTRIBUTING.md names each file in which a route's fields follow one another."""
        pattern = re.search(r"git grep -lwiE '(.*)' --", (TOP / "CONTRIBUTING.md").read_text())[1]
        texts = {file: file.read_text(errors="replace") for file in files_of_repository() if file.is_file()
                 and file.suffix in (".c", ".go", ".in", ".py", ".rs", ".rt")
                 and not file.is_relative_to(TOP / "convert/samples")}
        routes = {file: text for file, text in texts.items() if re.search(r"\d/\d+ \d+ \d+\.\d+\.", text)}
        self.assertGreater(len(routes), 20)
        self.assert_none(f"{name_of(file)} has a route, and the command doesn't name it"
                         for file, text in routes.items()
                         if not re.search(rf"\b(?:{pattern})\b", text, re.I))

    def test_trust_has_each_unsafe_line(self):
        page = (TOP / "docs/TRUST.md").read_text()
        self.assert_none(f"{name_of(file)}: `{line}` isn't in docs/TRUST.md"
                         for file in sorted(CRATES.glob("*/src/**/*.rt"))
                         for line in unproved_lines(file) if f"`{line}`" not in page)

    @needs_command("gcc")
    def test_trust_has_the_lines_of_c(self):
        """docs/TRUST.md has the numbers that dev/build/on_path counts."""
        counted = call([TOP / "dev/build/on_path"]).stdout.splitlines()
        rows = re.findall(r"^\| (?:\[`(\w+\.[ch])`\]\([^)]*\)[^|]*|all of these files) \| (\d+) \| (\d+) \|",
                          (TOP / "docs/TRUST.md").read_text(), re.M)
        self.assertEqual(sorted(f"{name or 'all'} {lines} {on_path}" for name, lines, on_path in rows), sorted(counted))

    def test_generated_files(self):
        """The statement pages, docs/LIBRARY-C.md, and the tables and pictures of docs/PERFORMANCE.md are up to date."""
        for script in ("dev/statements/statement", "bench/tables.py", "bench/draw_figures.py"):
            with self.subTest(script):
                self.assert_ended(call([sys.executable, TOP / script, "--check"]), stdout=None, message=script)


def unproved_lines(file):
    """Returns the lines of a source with the word `unsafe`, without comments and the attribute of an exported name."""
    lines = (re.sub(r"//.*", "", line).strip() for line in file.read_text().splitlines())
    return [line for line in lines if re.search(r"\bunsafe\b(?!\(no_mangle\))", line)]

"""tests/expected.txt: the name of each test, subTest, mutant, change of a definition and proved crate, and each test's number of
assertions. ./test compares them with what it ran, so nothing that is dropped or emptied passes without a word."""
import json
import re

from dev import runner
from dev.crates import TOP, all_crates

EXPECTED = TOP / "tests/expected.txt"
# What the last runs recorded of each test, for `./test --expected`.
RECORDS = TOP / "out/tests"
HEAD = """# Each test with its number of assertions (- if it depends on time, chance or the machine, ? if it was always left out),
# each subTest, mutant, change of a definition and proved crate. `./test --expected` writes this file.
"""
LINE = re.compile(r"(?P<test>[\w.]+) (?:(?P<number>\d+|[-?])|(?P<part>\[.*\]))")


def read():
    """Returns the expected tests, each with its number of assertions as HEAD describes it, and the names of its subTests;
    and the lines of all else."""
    tests, others = {}, set()
    lines = EXPECTED.read_text().splitlines() if EXPECTED.exists() else []
    for line in lines:
        if line.startswith("#"):
            continue
        if not (found := LINE.fullmatch(line)):
            others.add(line)
        elif found["part"]:
            tests[found["test"]][1].add(found["part"])
        else:
            tests[found["test"]] = found["number"], set()
    return tests, others


def write(tests, others):
    lines = []
    for test, (number, parts) in sorted(tests.items()):
        lines += [f"{test} {number}", *(f"{test} {part}" for part in sorted(parts))]
    EXPECTED.write_text(HEAD + "".join(f"{line}\n" for line in [*sorted(others), *lines]))


def number_of(record):
    """Returns a record's number of assertions as text."""
    return "-" if record["assertions"] is None else str(record["assertions"])


def is_skipped(record):
    """Returns true if a test, or a part of it, was left out."""
    return record["ended"] == "skipped" or any(ending == "skipped" for ending, _ in record["parts"].values())


def differences(records, others, whole):
    """Returns a line for each difference between what was expected and the records of tests. `whole` contains the modules that
    were to run whole. `others` contains the lines of all else that was tried, or is None if nothing else was tried."""
    tests, expected_others = read()
    known = {record["test"]: record for record in records}
    left_out = [re.search(r"\(([\w.]+)\)$", name)[1] for name, record in known.items()
                if record["ended"] == "skipped" and re.match(r"setUp(?:Class|Module) \(", name)]
    for test, (number, parts) in sorted(tests.items()):
        module = next((module for module in whole if test.startswith(f"{module}.")), None)
        if module is None or any(test.startswith(f"{name}.") for name in left_out):
            continue
        if test not in known:
            yield f"{test}: is in tests/expected.txt, and didn't run"
            continue
        record = known[test]
        if record["ended"] != "skipped":
            yield from (f"{test} {part}: is in tests/expected.txt, and didn't run" for part in sorted(parts - set(record["parts"])))
        if record["ended"] == "passed" and not is_skipped(record) and number not in ("?", number_of(record)):
            yield f"{test}: made {number_of(record)} assertions, and in tests/expected.txt {number}"
    for record in records:
        if re.match(r"(?:setUp|tearDown)", record["test"]):
            continue
        number, parts = tests.get(record["test"], (None, None))
        if parts is None:
            yield f"{record['test']}: isn't in tests/expected.txt"
        elif number != "?":
            yield from (f"{record['test']} {part}: isn't in tests/expected.txt" for part in sorted(set(record["parts"]) - parts))
    if others is not None:
        yield from (f"{line}: is in tests/expected.txt, and wasn't tried" for line in sorted(expected_others - others))
        yield from (f"{line}: isn't in tests/expected.txt" for line in sorted(others - expected_others))


def gone():
    """Returns a line for each expected test whose module is gone."""
    modules = runner.modules()
    for test in sorted(read()[0]):
        if not any(test.startswith(f"{module}.") for module in modules):
            yield f"{test}: is in tests/expected.txt, and its module is gone"


def kept():
    """Returns what the last runs recorded, by the names of tests."""
    return {name: record for file in RECORDS.glob("*.json") for name, record in json.loads(file.read_text()).items()}


def keep(records):
    """Keeps the records of tests for `./test --expected`, in a file for each module."""
    RECORDS.mkdir(parents=True, exist_ok=True)
    modules = {}
    for record in records:
        if " " not in record["test"]:  # a test, and not what sets up a class
            modules.setdefault(record["test"].rsplit(".", 2)[0], {})[record["test"]] = record
    for module, known in modules.items():
        file = RECORDS / f"{module}.json"
        before = json.loads(file.read_text()) if file.exists() else {}
        file.write_text(json.dumps(before | known))


def update(listed):
    """Writes tests/expected.txt: what the last runs recorded, without tests that are no more, and the mutants and changes
    of definitions that are listed. Returns the tests of which neither a record nor a line is known."""
    tests, _ = read()
    exist = {name for tests in runner.names().values() for name in tests}
    for name, record in kept().items():
        number, parts = tests.get(name, ("?", set()))
        if record["ended"] == "skipped":
            tests[name] = number, parts
        elif is_skipped(record):
            tests[name] = number, parts | set(record["parts"])
        else:
            tests[name] = number_of(record), set(record["parts"])
    write({name: one for name, one in tests.items() if name in exist},
          {*listed, *(f"proof {crate}" for crate in all_crates())})
    return sorted(exist - set(tests))

"""The version of the program, the library and the bindings, and what a build says of itself in its second line.

The file VERSION has the version. The other places that have it are in sources for several tools, which can't all read that
file: dev/check compares them."""
import re

from dev.build.built import LOGIC, sources_sum
from dev.crates import TOP

VERSION = (TOP / "VERSION").read_text().strip()
# Each place as a file and a pattern, whose group is the version.
PLACES = (
    ("crates/command_line/src/commands.rt", r'\.version\("(.*?)"\)'),
    ("tests/help/version", r"yarib (\S+)"),
    ("packaging/yarib.1", r'"yarib (\S+)"'),
    ("CHANGELOG.md", r"^## (\S+)"),
    ("bindings/c/yarib.h", r'#define YARIB_VERSION "(.*?)"'),
    ("bindings/python/yarib/_library.py", r'^VERSION = "(.*?)"'),
    ("bindings/python/pyproject.toml", r'^version = "(.*?)"'),
    ("bindings/python/make_wheel.py", r'^NAME, VERSION, ABOUT = "yarib", "(.*?)"'),
    ("bindings/rust/Cargo.toml", r'^version = "(.*?)"'),
    ("bindings/go/README.md", r"^require \S+ v(\S+)"),
)


def other_versions():
    """Returns each place that has another version or none, with what it has."""
    found = [(name, re.search(pattern, (TOP / name).read_text(), re.M)) for name, pattern in PLACES]
    return [(name, match and match[1]) for name, match in found if not match or match[1] != VERSION]


def build_line(crate):
    """Returns the line that follows the version: it identifies the sources of a build, and the logic that proves them."""
    return f"sources {sources_sum(crate)} logic {LOGIC}"

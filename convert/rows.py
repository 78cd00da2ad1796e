"""A line of a table, as `yarib table` and `yarib run` print it."""
import re

# a route's numbers, in the order of the line
NUMBERS = ("pref",)
# its groups are the prefix and the next hop
ROW = re.compile("([^ ]*) feed [^ ]+" + "".join(rf" {name} \d+" for name in NUMBERS) + " via ([^ ]*)")


def row_text(prefix, hop, feed=1, number=1):
    """The line of a route; each of its numbers is this one."""
    return f"{prefix} feed {feed}" + "".join(f" {name} {number}" for name in NUMBERS) + f" via {hop}"

"""A judge of runs: whether some order of the feeds' batches explains the output of a run of their texts.

Each command is paired with the answer that the output has for its line. A state of the search is the number of commands
that each feed has left, and the table. From a state the search continues with the next batch of each feed, whose
commands are answered from the table, and abandons a path at the first answer that differs from the printed one. No
state is searched twice: a command changes only the routes of its own feed, so all paths that leave each feed the same
commands have led to the same table. Lines have to be valid or have the fault E1, and a refusal is no answer.
"""
from dev.models.table_model import Table, command_of, table_text


def read(text):
    """The commands of a text, each with its line's number; None instead of a command if the line's fault is E1."""
    version, commands = 1, []
    if text.startswith("version 2\n"):
        text, version = text.removeprefix("version 2"), 2
    for number, line in enumerate(text.split("\n"), 1):
        if line[:1] not in ("", "#"):
            command = command_of(line, version)
            commands.append((number, command if isinstance(command, tuple) else None))
    return commands


def explains(feeds, limit, batch, output):
    """Returns True if some order of the batches of these feeds explains the output. `feeds` has the commands of each
    feed's text. Each feed may have `limit` routes and executes `batch` commands at once."""
    lines, answered = iter(output.split("\n")), []
    for feed, commands in enumerate(feeds, 1):
        asked = []
        for number, command in commands:
            heading, line = f"{feed}:{number} ", next(lines, "")
            if not line.startswith(heading) or command is None and line != heading + "fault E1":
                return False
            if command is not None:
                asked.append((command, line.removeprefix(heading)))
        answered.append(asked)
    return search(answered, limit, batch, "\n".join(lines))


def search(feeds, limit, batch, printed):
    """Returns True if some path leads to the end of all feeds, and this is the text of the table at its end."""
    start = tuple(map(len, feeds))
    seen, unvisited = {start}, [(start, Table(limit))]
    while unvisited:
        unasked, table = unvisited.pop()
        if not any(unasked):
            return table_text(table.listed()) == printed
        for at, left in enumerate(unasked):
            first = len(feeds[at]) - left
            visit = feeds[at][first : first + batch]
            after = unasked[:at] + (left - len(visit),) + unasked[at + 1 :]
            if after not in seen and (changed := after_visit(table, at + 1, visit)) is not None:
                seen.add(after)
                unvisited.append((after, changed))
    return False


def after_visit(table, feed, visit):
    """The table after the feed's commands, if they are answered as was printed."""
    table = table.copy()
    return table if all(table.apply(feed, command) == printed for command, printed in visit) else None

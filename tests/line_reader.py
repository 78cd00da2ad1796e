"""A plain reader of lines, written from docs/FORMATS.md, which shares no code with the program's. If it accepts a line
as a command, other lines are put around it, and their answers show everything that the program read in that line."""
import re

from dev.models.table_model import command_of, route_text


def reading(line, version):
    """The contents of the line: a command's name and fields as they are printed, None, or the number of its fault."""
    if len(line) > 128:
        return 8
    if line[:1] in (b"", b"#"):
        return None
    # Each byte is a character.
    command = command_of(line.decode("latin-1"), version)
    if isinstance(command, int):
        return command
    name, *fields = command
    kinds = ("address",) if name == "lookup" else ("prefix", "preference", "hop")
    return next(filter(None, (fault(kind, field, version) for kind, field in zip(kinds, fields))), None) or command


def decimal(text):
    """The number of a decimal without leading zeros, or None for any other text."""
    return int(text) if re.fullmatch(r"0|[1-9][0-9]*", text) else None


def address(text):
    octets = [decimal(part) for part in text.split(".")]
    is_address = len(octets) == 4 and all(octet is not None and octet < 256 for octet in octets)
    return int.from_bytes(octets, "big") if is_address else None


def fault(kind, text, version):
    """The number of the fault of a field of this kind, or None."""
    if kind == "preference":
        number = decimal(text)
        return 6 if number is None or number >= 2**32 else None
    if kind == "hop":
        return 7 if address(text) is None and (version == 1 or text != "discard") else None
    if kind == "address":
        return 3 if address(text) is None else None
    base, *lengths = text.split("/")
    base, length = address(base), decimal(lengths[0]) if len(lengths) == 1 else None
    if base is None or length is None:
        return 3
    return 4 if length > 32 else 5 if base % 2 ** (32 - length) else None


def added(prefix):
    return f"add {prefix} 7 203.0.113.7", "added"


def withdrawn(prefix):
    return f"withdraw {prefix}", "withdrawn"


def around(command):
    """For a command: lines before it that fill an empty table, its answer there, and lines after it whose answers show
    the table that it left, and which empty the table again."""
    name, *fields = command
    if name in ("add", "replace"):
        prefix, *offer = fields
        before, answer = ([], "added") if name == "add" else ([added(prefix)], "replaced")
        found = f"lookup {prefix.split('/')[0]}", f"route {route_text(prefix, 1, *offer)}"
        return before, answer, [found, withdrawn(prefix)]
    if name == "withdraw":
        return [added(fields[0])], "withdrawn", [("dump", "dumped 0")]
    if name == "lookup":
        host, rest = f"{fields[0]}/32", "0.0.0.0/0"
        answer = f"route {route_text(host, 1, 7, '203.0.113.7')}"
        return [added(rest), added(host)], answer, [withdrawn(rest), withdrawn(host)]
    if name == "purge":
        return [added("10.0.0.0/8")], "purged 1", [("dump", "dumped 0")]
    return [added("10.0.0.0/8")], "dumped 1", [withdrawn("10.0.0.0/8")]


def run_of(hostile, version):
    """Returns a text of this version with these lines among others, the answers to its lines, and the run's status."""
    lines, status = [(b"version 2" if version == 2 else b"#", None)], 0
    for line in (line for text in hostile for line in text.split(b"\n")):
        command = reading(line, version)
        before, answer, behind = [], command and f"fault E{command}", []
        if isinstance(command, tuple):
            before, answer, behind = around(command)
        elif command:
            status = 2
        lines += [(text.encode(), wanted) for text, wanted in before]
        lines.append((line, answer))
        lines += [(text.encode(), wanted) for text, wanted in behind]
    return b"\n".join(line for line, _ in lines), [answer for _, answer in lines], status

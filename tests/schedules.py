"""Runs the program under a schedule that tests/schedule.c makes, so that other work on the machine changes nothing."""
import struct
import tempfile

SIZES = 4096
ROUTES = 1_000


def loaded(case, **settings):
    """Returns the environment in which a test's calls load the library with these settings."""
    return case.preloaded("tests/schedule.c") | {name: str(value) for name, value in settings.items()}


def size_of_route(case):
    """Returns the size that each `add` allocates once while it holds the lock, and that is rare elsewhere."""
    case.write({"routes.feed": "".join(f"add 10.{k >> 8}.{k & 255}.0/24 1 192.0.2.1\n" for k in range(ROUTES))})
    with tempfile.TemporaryFile() as kept:
        kept.truncate(4 * SIZES)
        case.yarib("run", "routes.feed", env=loaded(case, SIZES_IN=kept.fileno()), pass_fds=[kept.fileno()])
        kept.seek(0)
        counts = struct.unpack(f"{SIZES}I", kept.read())
    often = [(count, size) for size, count in enumerate(counts) if count >= ROUTES // 2]
    return min(often)[1]


def in_turns(case, *words):
    """Runs two files of a test: each `add` of the second holds the lock until the first file waits for the lock."""
    return case.yarib("run", *words, env=loaded(case, HOLD_SIZE=size_of_route(case)))

"""The errors that end a conversion, in words for the user."""
import contextlib


class Refused(Exception):
    """The input can't be converted; the text says why."""


class Wrong(ValueError):
    """A field of the input isn't what it should be; the text says how."""


class Missing(Refused):
    """A JSON value isn't what the daemon's command prints there; the text says how."""


@contextlib.contextmanager
def naming(file):
    """Adds the name of its file to an error of the operating system."""
    try:
        yield
    except OSError as error:
        if error.filename is None:
            error.filename = file
        raise


def printable(text):
    """Returns a message's line with each character that a terminal could obey, or that it wouldn't show, as `repr` writes
    it: names of files, protocols and VRFs may be chosen by others."""
    return text if text.isprintable() else "".join(one if one.isprintable() else repr(one)[1:-1] for one in text)


def in_words(error):
    """The error that ends a conversion, in one line."""
    if not isinstance(error, OSError) or error.filename is None:
        return str(error)
    files = [str(file) for file in (error.filename, error.filename2) if file is not None]
    return f"{' to '.join(files)}: {error.strerror}"

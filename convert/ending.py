"""The first module that a converter loads: it ends the converter even if Python's modules can't be loaded."""
import os
import sys

NAME = os.path.basename(sys.argv[0])
NO_MEMORY = f"{NAME}: out of memory for this input"


def say_in_one_line(kind, error, _):
    """Replaces Python's traceback. When memory runs out, modules can't be loaded, and Python reports that with various
    exceptions."""
    if issubclass(kind, (MemoryError, ImportError, SystemError)):
        os.write(2, b"%s\n" % NO_MEMORY.encode())
    elif not issubclass(kind, KeyboardInterrupt):
        # `repr` writes what a terminal could obey
        os.write(2, f"{NAME}: {kind.__name__}: {str(error)!r}\n".encode())


sys.excepthook = say_in_one_line

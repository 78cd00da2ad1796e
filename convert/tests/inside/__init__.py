"""Tests that know how the converters are written in Python: their modules, their functions, and their constants. They go when
the Python goes."""
import sys

from convert.tests.commands import CONVERT

# the converters import their modules from their own directory
if str(CONVERT) not in sys.path:
    sys.path.insert(0, str(CONVERT))

"""Runs a converter with other constants of feeds.py: with_constants.py CONSTANTS CONVERTER [WORD..]"""
import pathlib
import runpy
import sys

# The converter's messages have its own name, which the next import reads.
_, constants, *sys.argv = sys.argv
sys.path[0] = str(pathlib.Path(sys.argv[0]).parent)
import feeds

exec(constants, vars(feeds))
runpy.run_path(sys.argv[0], run_name="__main__")

"""Packages, installs and describes a release."""
import sys

# A command leaves nothing next to the sources, except what Python keeps of this file.
sys.dont_write_bytecode = True

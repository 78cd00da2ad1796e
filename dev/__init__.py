"""What only maintainers run: building, statements, mutants, and models, with what tests share."""
import sys

# A command leaves nothing next to the sources, except what Python keeps of this file.
sys.dont_write_bytecode = True

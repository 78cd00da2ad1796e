"""Tries the mutants of heap.c, files.c of the C layer."""
from bindings.tests.mutants import add_mutants
from bindings.tests.mutants_of_c import CMutants

NEEDS = {"library"}
PROVED = True


class Mutants(CMutants):
    pass


add_mutants(Mutants, "c", r"heap\.c|files\.c")

"""Tries the mutants of places.c, handles.c, layer.h of the C layer."""
from bindings.tests.mutants import add_mutants
from bindings.tests.mutants_of_c import CMutants

NEEDS = {"library"}
PROVED = True


class Mutants(CMutants):
    pass


add_mutants(Mutants, "c", r"places\.c|handles\.c|layer\.h")

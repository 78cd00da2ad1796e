"""Tries the mutants of Rust's binding in lib.rs."""
from bindings.tests.mutants import add_mutants
from bindings.tests.mutants_of_rust import RustMutants

NEEDS = {"library"}
PROVED = True


class Mutants(RustMutants):
    pass


add_mutants(Mutants, "rust", r"src/lib\.rs")

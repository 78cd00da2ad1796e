"""Plants wrong bodies and changed definitions, and has the prover refuse them."""

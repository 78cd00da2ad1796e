"""Benchmarks, and what they share. None of it is called by ./test, except that tables and pictures are compared."""

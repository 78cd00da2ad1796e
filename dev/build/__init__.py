"""Builds programs and libraries, and judges a tree."""

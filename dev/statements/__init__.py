"""Prints statements from the sources onto pages."""

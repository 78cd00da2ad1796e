"""Tests of the converters, which call a command and look at what it leaves. `inside/` has those that know the Python."""

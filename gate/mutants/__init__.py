"""Mutants: wrong bodies of functions that their contracts must refuse."""

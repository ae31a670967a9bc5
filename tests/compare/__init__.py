"""Comparisons of built programs with the second program."""

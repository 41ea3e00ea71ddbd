"""Comparisons with the second program, and trials of the words."""

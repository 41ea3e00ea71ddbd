"""The benchmark: plain C of the same rules, and what is measured."""

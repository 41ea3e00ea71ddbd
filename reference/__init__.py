"""The second program: a plain book of the bench kernel, and its tests."""

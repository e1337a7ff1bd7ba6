"""Tests of the package, with the built program. `python3 -m unittest` in this folder's parent runs them."""

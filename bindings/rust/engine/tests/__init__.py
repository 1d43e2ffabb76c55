"""Tests of the programs that make the engine of the Rust crate and look at it.

`python3 -m unittest` in the folder above runs them.
"""

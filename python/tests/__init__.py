"""Tests of the package over the program: that of BSONFIND, else of PATH, else of the repository."""

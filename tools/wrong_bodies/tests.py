"""Tests of wrong_bodies, over a repository of two small crates that the prover checks."""
import unittest
from tests_of_reading import Reading
from tests_of_records import Recording
from tests_of_trials import ByTheProver, Choosing

__all__ = ["ByTheProver", "Choosing", "Reading", "Recording"]

if __name__ == "__main__":
    unittest.main()

"""Tests of the library and the front end; minizinc/test runs them."""

"""Tests of the package; ../test.sh runs them."""

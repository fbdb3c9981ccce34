"""Tests of the tools; tools/check runs them."""

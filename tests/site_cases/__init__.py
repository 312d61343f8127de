"""The cases of tests/site."""

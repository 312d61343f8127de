"""The cases of tests/admin."""

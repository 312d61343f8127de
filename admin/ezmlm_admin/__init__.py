"""ezmlm-admin: daily questions about a list, and what the program has no command for."""

"""The agent's cases, and what they are made of."""

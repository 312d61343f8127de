"""The agent under a real Postfix: how it is set up, what is gone through, what is measured."""

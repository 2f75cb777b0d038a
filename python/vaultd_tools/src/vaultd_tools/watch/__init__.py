"""Looks at a running server from outside: whether it serves, and how full it is."""

"""The program `vault`."""

"""The live page of a vault: it shows in a browser who holds what and who waits for whom."""

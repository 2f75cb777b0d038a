"""The way in for designers by ssh: for whom a key speaks, what it may do, and the log of who did what."""

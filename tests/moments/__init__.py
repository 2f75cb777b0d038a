"""Every moment of a command is tried: at each call that it makes into the system something happens, and nothing that a designer saved is lost.

`hook` runs the real program and stops it at a moment, `programs` asks it to, `world` is a vault with its machines and folders, `scenes` are the
commands and where they begin, `deeds` what happens at a moment, and `judge` says what may not be so afterwards.
"""

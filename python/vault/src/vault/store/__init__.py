"""Stores of bytes, and a designer's files in them: of each version the vault keeps a card, the store the bytes."""

"""Files of this machine: written whole, copied through a hash, locked, named."""

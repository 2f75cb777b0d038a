"""All that is done with a working folder."""

from vault.working.getting import Getting
from vault.working.importing import Importing


class Working(Getting, Importing):
    """A working folder, and the designer's files that it belongs to. Call its methods within `Folder.locked`."""

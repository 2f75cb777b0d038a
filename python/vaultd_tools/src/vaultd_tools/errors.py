"""What the tools raise."""

from vault.errors import VaultError


class ToolError(VaultError):
    """Something that whoever runs a vault must know; its text is a sentence with what to do."""

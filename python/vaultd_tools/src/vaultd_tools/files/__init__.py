"""A vault's two files, and the store beside them: copies of them, backups, what can be saved of damaged ones, and the sweep."""

from vaultd_tools.errors import ToolError
from vaultd_tools.files.copies import Claim, Report, check, copy_of, copy_vault, find_vaultd, has_head_of, inspect
from vaultd_tools.output import print_all, say_error

__all__ = ["Claim", "Report", "ToolError", "check", "copy_of", "copy_vault", "find_vaultd", "has_head_of", "inspect", "print_all", "say_error"]

"""The command `tigerline` with its subcommands."""

from .command_line import main

__all__ = ["main"]

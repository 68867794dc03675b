"""The commands. Each reads its arguments, calls the modules below, and prints."""

from plandesk.cli import begin, deliver, diffs, fielding, look, reviewing, strikes, work
from plandesk.cli.base import main

__all__ = ["begin", "deliver", "diffs", "fielding", "look", "main", "reviewing", "strikes", "work"]

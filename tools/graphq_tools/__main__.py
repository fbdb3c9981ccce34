"""Runs the tool that the first word names; the executables beside this package do so."""

from __future__ import annotations

import importlib
import sys
from pathlib import Path

if __package__ in (None, ""):
    sys.path[0] = str(Path(__file__).resolve().parent.parent)

if sys.version_info < (3, 11):
    sys.exit(f"graphq-{sys.argv[1]}: Python 3.11 or later is wanted, and this is {sys.version.split()[0]}")

from graphq_tools.outcome import prepare_streams, run  # noqa: E402

# Where the main of each tool stands.
MAINS = {"import": "importing.main", "export": "exporting.main", "draw": "drawing.main", "shell": "shell.main"}


def call(tool: str) -> int:
    """Runs a tool on the arguments of the command line, and gives its status."""
    prepare_streams()
    return run(f"graphq-{tool}", importlib.import_module(f"graphq_tools.{MAINS[tool]}").main)


def import_() -> int:
    """graphq-import, as a package installs it."""
    return call("import")


def export() -> int:
    """graphq-export, as a package installs it."""
    return call("export")


def draw() -> int:
    """graphq-draw, as a package installs it."""
    return call("draw")


def shell() -> int:
    """graphq-shell, as a package installs it."""
    return call("shell")


if __name__ == "__main__":
    sys.exit(call(sys.argv.pop(1)))

#!/usr/bin/env python3
"""Runs the command drillolive of the package that is installed below the same folder as this script."""

from __future__ import annotations

import sys
from pathlib import Path

PACKAGE_FOLDER = "share/drillolive/python"


def main() -> int | None:
    """Runs the command on the words of the command line, and returns its exit status."""
    sys.path.insert(0, str(Path(__file__).resolve().parent.parent / PACKAGE_FOLDER))
    from drillolive.command.main import main as run_command

    return run_command()


if __name__ == "__main__":
    sys.exit(main())

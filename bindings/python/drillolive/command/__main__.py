"""Runs the command as `python -m drillolive.command`."""

from __future__ import annotations

import sys

from .main import main

sys.exit(main())

"""Counts in words."""

from __future__ import annotations


def counted(count: int, name: str) -> str:
    """Returns a count and what is counted, such as `1 fault` and `2,000 faults`."""
    return f"{count:,} {name}" if count == 1 else f"{count:,} {name}s"

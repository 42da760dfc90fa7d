"""The mistakes that end the command."""

from __future__ import annotations

REFUSED = 1
USAGE = 2
INTERRUPTED = 130
BROKEN_PIPE = 141


class CommandError(Exception):
    """A mistake that ends the command: what is wrong, a sentence of advice, and the status of the command."""

    def __init__(self, message: str, advice: str = "", status: int = REFUSED) -> None:
        super().__init__(f"{message}. {advice}" if advice else message)
        self.message = message
        self.advice = advice
        self.status = status


def reason_of(error: OSError) -> str:
    """Returns what the system refuses, as a message says it."""
    text = error.strerror or str(error)
    return text[:1].lower() + text[1:]

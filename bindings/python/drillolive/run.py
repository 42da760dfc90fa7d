"""Runs of the program `far` inside this process."""

from __future__ import annotations

from ctypes import byref, c_char_p, c_size_t, string_at
from typing import NamedTuple, Sequence

from ._calls import Handle, new_handle
from .errors import argument_error


class Run(NamedTuple):
    """What the program answered: its status, its text on standard output, and its line on standard error."""

    status: int
    text: str
    error: str


def output_text(output: Handle, name: str = "text") -> str:
    """Returns the text of an output, or its line on standard error for the name `error`."""
    length = c_size_t()
    address = output.get(name, byref(length))
    return string_at(address, length.value).decode("utf-8", "replace") if address else ""


def run(words: Sequence[str], text: bytes | str = b"") -> Run:
    """Runs the program on words, of which the first is the command, and on bytes of input.

    Nothing outside is touched.

    A refusal is an answer: its status is not 0, and its line is in `error`. ArgumentError: a word has a zero byte.
    """
    if any("\0" in word for word in words):
        raise argument_error("a word has a zero byte", "Give words as a command line has them.")
    held = text.encode() if isinstance(text, str) else bytes(text)
    listed = (c_char_p * len(words))(*(word.encode() for word in words))
    output = new_handle("output", "run", len(words), listed, held, len(held))
    return Run(output.get("status"), output_text(output), output_text(output, "error"))

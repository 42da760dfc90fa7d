"""What the references of the commands share: the words of the command line, the input, refusals, and a run."""

from __future__ import annotations

import os
import re
import sys
from typing import BinaryIO, Callable, Iterator, NoReturn

from reference.obj import Fault, Mesh, read_obj

GREATEST_INPUT = 2**28
NOT_UNDERSTOOD, TOO_LONG, BAD_LINE, BAD_MESH, TOO_LARGE, OVERFLOW, NO_LIMIT, NO_PLACE = 2, 4, 5, 6, 7, 8, 9, 13
BAD_TABLE, OTHER_TABLE, OTHER_COUNT = 14, 15, 16


class Numbers:
    """The values of an option that is a whole number between two, in digits without a leading zero."""

    def __init__(self, least: int, most: int):
        self.least, self.most = least, most

    def __contains__(self, value: bytes) -> bool:
        plain = re.fullmatch(b"0|[1-9][0-9]*", value)
        return plain is not None and self.least <= int(value) <= self.most


# The commands, each with its options and their values, and the options that must be there.
DEPTH = {b"depth": Numbers(0, 10)}
OPTIONS = {
    b"refine": {
        **DEPTH,
        b"decimals": Numbers(0, 18),
        b"uv": [b"smooth", b"corners", b"boundaries", b"linear"],
        b"by": [b"table", b"level"],
        b"tags": [b"no", b"yes"],
    },
    b"stencils": DEPTH,
    b"limit": {b"depth": Numbers(1, 10), b"decimals": Numbers(0, 18)},
    b"frames": {**DEPTH, b"scale": Numbers(0, 18)},
    b"levels": DEPTH,
    b"patch": {**DEPTH, b"face": Numbers(0, 4194303), b"grid": Numbers(1, 64)},
    b"sparse": {
        **DEPTH,
        b"select": [b"feature", b"all"],
        b"decimals": Numbers(0, 18),
        b"uv": [b"none", b"smooth", b"corners", b"boundaries", b"linear"],
    },
    b"map": {
        **DEPTH,
        b"face": Numbers(0, 1048575),
        b"grid": Numbers(1, 256),
        b"corner": Numbers(0, 65535),
        b"select": [b"feature", b"all"],
    },
    b"verify": DEPTH,
    b"apply": {},
    b"gen": {b"seed": Numbers(0, 2**32 - 1), b"size": Numbers(1, 256), **DEPTH},
}
REQUIRED = {b"seed", b"size", b"depth", b"face", b"grid"}


class Refusal(Exception):
    """A refusal: the status that the program ends with, and its line on standard error."""

    def __init__(self, status: int, line: str):
        super().__init__(line)
        self.status = status
        self.line = line


def refuse_word(place: int) -> NoReturn:
    raise Refusal(NOT_UNDERSTOOD, f"far: word {place} is not understood")


def understood(words: list[bytes]) -> tuple[bytes, dict[bytes, bytes]]:
    """The command that the words say, and the values of its options by their names; or the Refusal of the first bad
    word, and of the place after the last where one is missing that must be there."""
    if not words or words[0] not in OPTIONS:
        refuse_word(0)
    options = {}
    for place, word in enumerate(words[1:], start=1):
        name, _, value = word.partition(b"=")
        if name in options or value not in OPTIONS[words[0]].get(name, []):
            refuse_word(place)
        options[name] = value
    if not REQUIRED & OPTIONS[words[0]].keys() <= options.keys():
        refuse_word(len(words))
    return words[0], options


def are_text(words: list[bytes]) -> bool:
    """Whether every word is UTF-8."""
    try:
        for word in words:
            word.decode("utf-8")
    except UnicodeDecodeError:
        return False
    return True


def refuse_length() -> NoReturn:
    raise Refusal(TOO_LONG, f"far: input is longer than {GREATEST_INPUT} bytes")


def refuse_line(line: int, cause: str) -> NoReturn:
    raise Refusal(BAD_LINE, f"far: line {line}: {cause}") from None


def mesh_of(data: bytes, scale: int = 0, before: int = 0) -> Mesh:
    """The mesh of a text behind so many lines, before it is judged as a mesh, or the Refusal of its bad line."""
    try:
        return read_obj(data, scale)
    except Fault as fault:
        refuse_line(before + fault.line, fault.cause)


def read_mesh(source: BinaryIO) -> Mesh:
    """The mesh of an input, before it is judged as a mesh, or the Refusal of what is too long or has a bad line."""
    data = source.read(GREATEST_INPUT + 1)
    if len(data) > GREATEST_INPUT:
        refuse_length()
    return mesh_of(data)


def run(answer: Callable[[list[bytes], BinaryIO], Iterator[str]]) -> int:
    """Answers the words of the command line and standard input, text after text, and gives the exit status."""
    words = [os.fsencode(word) for word in sys.argv[1:]]
    try:
        if not are_text(words):
            refuse_word(0)
        for text in answer(words, sys.stdin.buffer):
            sys.stdout.write(text)
            sys.stdout.flush()
    except Refusal as refusal:
        sys.stderr.write(refusal.line + "\n")
        return refusal.status
    return 0

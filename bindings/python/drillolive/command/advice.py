"""Leads on from words of the command line that are not understood."""

from __future__ import annotations

import argparse
import difflib
import re
from collections.abc import Iterable
from pathlib import Path
from typing import Any, NoReturn

from .failure import USAGE, CommandError

# Words of the program `far`, and what says the same here.
WORDS_OF_FAR = {
    "depth": "-d {}",
    "decimals": "--digits {}, or --round {}",
    "tags": "--tags",
    "uv": "--uv {}",
    "select": "--select {}",
}
WORD_OF_FAR = re.compile(r"(depth|decimals|tags|uv|select)=(.*)")
INVALID_CHOICE = re.compile(r"invalid choice: '(.*?)' \(choose from (.*)\)")
HOW = "drillolive refine -d 2 cube.obj -o smooth.obj"


class Parser(argparse.ArgumentParser):
    """A parser that tells a mistake in one line, with what leads on."""

    def error(self, message: str) -> NoReturn:
        """Raises CommandError."""
        advice = self._advice_on(message)
        raise CommandError(f"{self.prog.removeprefix('drillolive ')}: {message}", advice, USAGE)

    def _advice_on(self, message: str) -> str:
        choice = INVALID_CHOICE.search(message)
        if choice:
            return did_you_mean(choice[1], re.findall(r"[\w-]+", choice[2])) or self._see_help()
        if message.startswith("unrecognized arguments: "):
            word = message.partition(": ")[2].split()[0].partition("=")[0]
            if not word.startswith("-"):
                return "Give one FILE, and separate options by spaces."
            return did_you_mean(word, self._option_string_actions) or self._see_help()
        if "-d/--depth" in message and "required" in message:
            return f"Give the number of steps, as in {self.prog} -d 2."
        return self._see_help()

    def _see_help(self) -> str:
        return f"`{self.prog} --help` lists the options."


def did_you_mean(word: str, words: Iterable[str]) -> str:
    """Returns a question with the nearest word, or an empty text where none is near."""
    near = difflib.get_close_matches(word, list(words), 1)
    return f"Did you mean {near[0]}?" if near else ""


def refuse_words_of_far(words: list[str], commands: Iterable[str]) -> None:
    """Raises CommandError for the first word that is an option of the program `far`, such as depth=2."""
    for place, word in enumerate(words):
        match = WORD_OF_FAR.fullmatch(word)
        if match and not Path(word).exists():
            instead = WORDS_OF_FAR[match[1]].format(*[match[2]] * 2)
            example = f", as in {HOW}" if words[0] not in commands else ""
            raise CommandError(f"{word} is not understood", f"Say {instead}{example}.", USAGE)


def advice_on_command(words: list[str], commands: Any) -> CommandError:
    """Returns the mistake of a command line that does not begin with a command."""
    word = words[0]
    near = did_you_mean(word, commands)
    if word.startswith("-"):
        return CommandError(f"{word} is not a command", f"Say the command first, as in {HOW}.", USAGE)
    if not near and (Path(word).exists() or word.lower().endswith(".obj")):
        advice = f"Put a command before the file, as in drillolive refine -d 2 {word}."
        return CommandError(f"{word} is not a command", advice, USAGE)
    return CommandError(f"{word} is not a command", near or "`drillolive --help` lists the commands.", USAGE)

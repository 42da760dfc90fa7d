"""The page of the commands and options of `far` and of `drillolive`."""

import argparse
import importlib
import re
import sys
from dataclasses import dataclass
from pathlib import Path
from typing import Dict, Iterator, List, Tuple

from .markdown import code, escaped, page, table

TABLE, READ = "crates/far_words/src/table.rt", "crates/far_words/src/read.rt"
HELP = "docs/help.txt"
COMMAND = re.compile(r'CommandRule \{\s*name: "([\w-]+)",\s*options: &\[(.*?)\],\s*\},', re.DOTALL)
OPTION = re.compile(r'(required|number|name)_option!\(\s*"(\w+)",\s*(?:([\d_]+),\s*([\d_]+)|&\[([^\]]*)\]),?\s*\)')
HELP_COMMAND = re.compile(r"  \./far ([\w-]+)(?: .*)?$")
HELP_OPTION = re.compile(r" {6}(\w+) {2,}(\S.*)$")


@dataclass(frozen=True)
class Option:
    """An option of a command of `far`: its name, its values, and its default."""

    name: str
    values: str
    default: str


@dataclass
class Help:
    """The part of the help on a command: its line, its text, its options and its examples."""

    usage: str
    text: List[str]
    options: Dict[str, str]
    examples: List[str]


def option_of(match: "re.Match[str]", zeros: List[str]) -> Option:
    """An option of the table of the program."""
    kind, name, least, greatest, listed = match.groups()
    if listed is not None:
        names = re.findall(r'"([^"]*)"', listed)
        return Option(name, ", ".join(code(it) for it in names), code(names[0]))
    values = f"{int(least):,} to {int(greatest):,}"
    return Option(name, values, "required" if kind == "required" else "0" if name in zeros else "none")


def commands_of_far(top: Path) -> Iterator[Tuple[str, List[Option]]]:
    """The commands of the program with their options, from its table."""
    zeros = re.findall(r'required_number\(options, "(\w+)"\)', (top / READ).read_text(encoding="utf-8"))
    for name, listed in COMMAND.findall((top / TABLE).read_text(encoding="utf-8")):
        yield name, [option_of(match, zeros) for match in OPTION.finditer(listed)]


def read_help(top: Path) -> Dict[str, Help]:
    """The parts of the help on commands."""
    found: Dict[str, Help] = {}
    held, option = None, ""
    for line in (top / HELP).read_text(encoding="utf-8").split("\n"):
        command, row = HELP_COMMAND.match(line), HELP_OPTION.match(line)
        if command:
            held, option = found.setdefault(command[1], Help(line.strip(), [], {}, [])), ""
        elif not line.startswith("      ") or held is None:
            held = None
        elif line.strip().startswith("Example: "):
            held.examples.append(line.strip()[len("Example: ") :])
        elif row:
            option = row[1]
            held.options[option] = row[2]
        elif option:
            held.options[option] += " " + line.strip()
        else:
            held.text.append(line.strip())
    return found


def far_lines(top: Path) -> Iterator[str]:
    """The part of the program."""
    helps = read_help(top)
    for name, options in commands_of_far(top):
        part = helps.get(name, Help(f"./far {name}", [], {}, []))
        yield from ["", f"### far {name}", "", escaped(" ".join(part.text)), "", "```text", part.usage, "```"]
        if options:
            rows = [[code(it.name), it.values, it.default, escaped(part.options.get(it.name, ""))] for it in options]
            yield from ["", *table(["Option", "Values", "Default", "Meaning"], rows)]
        for example in part.examples:
            yield from ["", f"Example: {code(example)}"]


# The command `drillolive`


def parsers_of_drillolive(top: Path) -> Iterator[Tuple[str, str, argparse.ArgumentParser]]:
    """The subcommands of `drillolive`, each with its summary and its parser."""
    sys.path.insert(0, str(top / "bindings/python"))
    try:
        main = importlib.import_module("drillolive.command.main")
        for name, summary in main.COMMANDS.items():
            parser = argparse.ArgumentParser(prog=f"drillolive {name}", add_help=False)
            importlib.import_module(f"drillolive.command.{name}").add_arguments(parser)
            yield name, summary, parser
    finally:
        sys.path.pop(0)


def words_of(action: argparse.Action) -> str:
    """An option as it is written: its names, and its value."""
    value = ""
    if action.nargs != 0:
        value = str(action.metavar or ("" if action.choices else action.dest.upper()))
    words = ", ".join(f"{name} {value}".strip() for name in action.option_strings) or value
    return words + ("..." if action.nargs in ("*", "+") else "")


def default_of(action: argparse.Action) -> str:
    """The default of an option, or that it is required."""
    if action.required and action.option_strings:
        return "required"
    if action.default in (None, False, argparse.SUPPRESS) or not action.option_strings:
        return ""
    return code(str(action.default))


def values_of(action: argparse.Action) -> str:
    """The names that an option may have as its value."""
    return ", ".join(code(str(choice)) for choice in action.choices or [])


def help_of(action: argparse.Action) -> str:
    """The help of an option."""
    text = action.help or ""
    return escaped(text % {**vars(action), "prog": "drillolive"} if "%" in text else text)


def drillolive_lines(top: Path) -> Iterator[str]:
    """The part of the command."""
    for name, summary, parser in parsers_of_drillolive(top):
        yield from ["", f"### drillolive {name}", "", escaped(summary[:1].upper() + summary[1:] + ".")]
        actions = [action for action in parser._actions if action.help != argparse.SUPPRESS]
        rows = [[code(words_of(it)), values_of(it), default_of(it), help_of(it)] for it in actions]
        yield from ["", *table(["Option", "Values", "Default", "Meaning"], rows)]


def page_of_options(top: Path) -> str:
    """The page of options."""
    lines = ["# Commands and options", "", "## far"]
    lines += ["", "An option is a word `name=value`. Options come in any order, each once."]
    lines += [*far_lines(top), "", "## drillolive", *drillolive_lines(top)]
    return page(lines)

"""The command line: its subcommands, and how it ends."""

from __future__ import annotations

import argparse
import importlib
import os
import sys
import threading
from collections.abc import Sequence

from ..errors import Error, LibraryNotFound
from .advice import Parser, advice_on_command, refuse_words_of_far
from .failure import BROKEN_PIPE, INTERRUPTED, REFUSED, CommandError
from .progress import DELAY, Progress
from .source import name_of

# Each subcommand is a module here of the same name, with `add_arguments` and `run`.
COMMANDS = {
    "refine": "write the refined mesh as OBJ text",
    "limit": "write the limit points of a level, with its faces",
    "frames": "refine poses of one mesh by one table, and write a file for each",
    "check": "list all faults of a mesh with their lines, or write a mesh without them",
    "levels": "count the points, edges, faces and features of each level",
    "sparse": "write the sparse levels: the faces near features",
    "table": "write a stencil table: each point of a level as a weighted mean of points of the mesh",
    "view": "write a page that shows the levels in a browser",
}

DESCRIPTION = (
    "Refines polygon meshes in OBJ files by the Catmull-Clark rules, with semi-sharp creases.\n"
    "Numbers are exact inside, and are written as the nearest doubles."
)
EXAMPLE = "example: drillolive refine -d 2 cube.obj -o smooth.obj"


def main(words: Sequence[str] | None = None, delay: float = DELAY) -> int:
    """Runs the command on the words of its command line, and returns the status with which it ends.

    `delay` is after how many seconds a line of progress appears on a terminal.
    """
    held = sys.argv[1:] if words is None else list(words)
    try:
        return run_command(held, delay)
    except CommandError as error:
        return report(str(error), error.status)
    except LibraryNotFound as error:
        return report(str(error), REFUSED)
    except MemoryError:
        return report("out of memory. Refine fewer times, or simplify the mesh.", REFUSED)
    except BrokenPipeError:
        # What is left in the buffer goes nowhere, so that the interpreter does not complain at its end.
        os.dup2(os.open(os.devnull, os.O_WRONLY), sys.stdout.fileno())
        return BROKEN_PIPE
    except KeyboardInterrupt:
        return interrupted()


def run_command(words: list[str], delay: float) -> int:
    """Runs a subcommand, or prints the help or the version."""
    refuse_words_of_far(words, COMMANDS)
    if not words or words[0] not in COMMANDS:
        return run_without_command(words)
    command = importlib.import_module(f".{words[0]}", __package__)
    summary = COMMANDS[words[0]]
    parser = Parser(prog=f"drillolive {words[0]}", description=summary[:1].upper() + summary[1:] + ".")
    command.add_arguments(parser)
    arguments = parser.parse_args(words[1:])
    with Progress(delay=delay) as progress:
        arguments.progress = progress
        try:
            return command.run(arguments)
        except Error as error:
            file = name_of(getattr(arguments, "file", None))
            raise CommandError(f"{file}: {error.fault.cause}", error.advice) from error


def run_without_command(words: list[str]) -> int:
    """Prints the help or the version. Raises CommandError for other words."""
    parser = Parser(prog="drillolive", description=DESCRIPTION, formatter_class=argparse.RawDescriptionHelpFormatter)
    listed = "\n".join(f"  {name:8}{summary}" for name, summary in COMMANDS.items())
    parser.usage = "drillolive COMMAND [options] [FILE]"
    parser.epilog = f"commands:\n{listed}\n\n{EXAMPLE}\n`drillolive COMMAND --help` lists the options of a command."
    parser.add_argument("--version", action="store_true", help="print the version of the library and exit")
    if words == ["--version"]:
        from .. import __version__

        print(f"drillolive {__version__}")
    elif not words or words[0] in ("-h", "--help", "help"):
        print(parser.format_help(), end="")
    else:
        raise advice_on_command(words, COMMANDS)
    return 0


def report(line: str, status: int) -> int:
    """Writes a line on standard error, and returns the status."""
    print(f"drillolive: {line}", file=sys.stderr)
    return status


def interrupted() -> int:
    """Ends the command after Ctrl-C. Files that were begun are removed by now."""
    if threading.active_count() > 1:
        # The library works on in its thread, with memory that an ordinary end would free.
        os._exit(INTERRUPTED)
    return INTERRUPTED

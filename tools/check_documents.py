#!/usr/bin/env python3
"""Checks the links of the documents, and runs their commands.

    tools/check_documents.py
    tools/check_documents.py --links
    tools/check_documents.py docs/guide/README.md

A link to a file of the repository has to lead to a tracked file or to a folder of such files, and its anchor to a heading. That
holds for each Markdown file. With --links nothing else is checked.

In each Markdown file but those of docs/reference, a block that is fenced with ```console is checked:

    $ ./far gen seed=0 size=1 depth=1
    gen points 4 faces 1
    ..
    last 0 5 3

A line that begins with `$ ` is a command, and goes on where it ends with a backslash. The lines up to the next command are its
output on both streams together. A line `..` is any number of lines, also none. Bash runs the commands of a document one after
another, at the top of a copy of the tracked files. There `./far` runs the proved program, and `drillolive` the command over the
library of build/lib. A picture that a command writes with `-o docs/NAME` has to be the file of the repository. A block that is
fenced with ```python runs there too, by this Python, and has to end without an error. Commands that need the library, or numpy,
are left out where there is none, and a line says so. All copies share one copy of crates/ and cases/, so a command that changes a
file there is a fault.

Blocks that are fenced with ```sh have the commands that are not run. NOT_RUN lists them, each with the reason. Any other command
in such a block, and a command in a block of another kind, is a fault.

The last line is `N commands of M documents: no fault`, and the exit status 0. The status is 1 where there is a fault, which is
printed, and 2 without a program.
"""

import argparse
import difflib
import importlib.util
import os
import re
import shlex
import signal
import subprocess
import sys
import tempfile
from concurrent.futures import ThreadPoolExecutor
from fnmatch import fnmatch
from pathlib import Path
from typing import Dict, Iterator, List, Optional, Tuple

from document_links import Documents
from tracked_files import PROGRAM, TOP, copy_files, put_program, tracked_files

SECONDS = 300
MOST_LINES = 40
ANY_LINES = ".."
MADE = "docs/reference/"
SHARED = "cases", "crates"  # the folders with most files, of which all copies share one
FENCE = re.compile(r"( *)```+ *(\w*)")
PICTURE = re.compile(r" -o +(docs/\S+)")
LOOKS_LIKE_A_COMMAND = re.compile(r"\$ |\./far\b|tools/|tests/|bench/|rt |drillolive ")
NEEDS_THE_LIBRARY = re.compile(r"\bdrillolive\b")
NEEDS_NUMPY = re.compile(r"^import numpy$", re.MULTILINE)
HAS_NUMPY = importlib.util.find_spec("numpy") is not None
LIBRARY = TOP / "build/lib/libdrillolive.so"

# Patterns of the commands that are not run, each with the reason.
NOT_RUN = {
    ".ci/run": "it runs this check, and takes an hour from nothing",
    "./far --install *": "it proves all, and tests/run/test_launcher.py runs it over a stand-in of rt",
    "bindings/blender/build_addon.py*": "tests/run/test_blender.py makes the zip and installs it",
    "blender *": "it needs Blender, and draws a picture for a document",
    "pip *": "it installs, and bindings/python/tests tries it in a folder of its own",
    "cc *": "tools/build_library.py compiles the examples and the tests",
    "./far --build": "it proves the program, which takes an hour from nothing",
    "git *": "it is for a machine without the repository, or changes it",
    "cd *": "it only leads to the command after it",
    "cp -r *": "it makes a repository of one's own, whose proof takes minutes",
    "echo '*' >> crates.txt": "it is for a repository of one's own",
    "sed -i *": "it is for a repository of one's own",
    "rt *": "it proves, or changes what is kept of proofs",
    "bench/bench.py*": "it takes many minutes, and prints times",
    "tests/random/compare_random.py*": "it is run by .ci/run",
    "tests/run/run_cases.py*": "it is run by .ci/run",
    "tests/run/refuse_memory.py*": "it needs a C compiler",
}


class Command:
    """A command of a document: the number of its line, its text, and the lines below it, which it has to print."""

    def __init__(self, line: int, text: str) -> None:
        self.line, self.text = line, text
        self.wanted: List[str] = []


# Reading documents


def blocks(text: str) -> Iterator[Tuple[str, int, List[str]]]:
    """The fenced blocks: of each the word after its fence, the number of its first line, and its lines."""
    kind: Optional[str] = None
    indent, first = 0, 0
    held: List[str] = []
    for number, line in enumerate(text.splitlines(), start=1):
        fence = FENCE.match(line)
        if fence and kind is None:
            kind, indent, first, held = fence[2], len(fence[1]), number + 1, []
        elif fence:
            yield kind, first, held
            kind = None
        elif kind is not None:
            held.append(line[indent:])


def commands_of(first: int, lines: List[str]) -> List[Command]:
    """The commands of a block for a console. A command without text has the lines above the first one."""
    found: List[Command] = []
    goes_on = False
    for number, line in enumerate(lines, start=first):
        if goes_on:
            found[-1].text += "\n" + line
        elif line.startswith("$ "):
            found.append(Command(number, line[2:]))
        else:
            if not found:
                found.append(Command(number, ""))
            found[-1].wanted.append(line)
        goes_on = (goes_on or line.startswith("$ ")) and line.endswith("\\")
    return found


def python_of(first: int, lines: List[str]) -> Command:
    """The command that runs a block of Python, which prints nothing."""
    return Command(first, f"{shlex.quote(sys.executable)} - <<'END_OF_BLOCK'\n" + "\n".join(lines) + "\nEND_OF_BLOCK")


def is_not_run(command: str) -> bool:
    """Whether a command is listed as one that is not run."""
    return any(fnmatch(command, pattern) for pattern in NOT_RUN)


def unchecked(kind: str, first: int, lines: List[str]) -> Iterator[Tuple[int, str]]:
    """The commands of a block for no console that are not run for no reason that is listed, with their lines."""
    goes_on = False
    for number, line in enumerate(lines, start=first):
        is_command = kind == "sh" and line.strip() and not line.startswith("#") or LOOKS_LIKE_A_COMMAND.match(line)
        command = line[2:] if line.startswith("$ ") else line
        if is_command and not goes_on and not (kind == "sh" and is_not_run(command)):
            yield number, command
        goes_on = line.endswith("\\")


def read_document(name: str) -> Tuple[List[Command], List[str]]:
    """The commands of a document that are run, and a line for each that is not checked."""
    commands: List[Command] = []
    faults: List[str] = []
    for kind, first, lines in blocks((TOP / name).read_text(encoding="utf-8")):
        if kind == "console":
            commands += commands_of(first, lines)
        elif kind == "python":
            commands.append(python_of(first, lines))
        else:
            faults += [f"{name}:{at}: is not checked: {text}" for at, text in unchecked(kind, first, lines)]
    return commands, faults


# Running commands


def is_output(wanted: List[str], written: List[str]) -> bool:
    """Whether the lines that are written are the wanted ones, where `..` is any number of lines."""
    if ANY_LINES not in wanted:
        return wanted == written
    parts: List[List[str]] = []
    part: List[str] = []
    for line in wanted:
        if line == ANY_LINES:
            parts.append(part)
            part = []
        else:
            part.append(line)
    start, end = parts[0], part
    if len(start) + len(end) > len(written) or written[: len(start)] != start or written[len(written) - len(end) :] != end:
        return False
    rest = written[len(start) : len(written) - len(end)]
    for part in parts[1:]:
        at = next((i for i in range(len(rest) - len(part) + 1) if rest[i : i + len(part)] == part), None)
        if at is None:
            return False
        rest = rest[at + len(part) :]
    return True


def difference(wanted: List[str], written: List[str]) -> str:
    """The first lines in which the written ones differ from the wanted ones."""
    lines = list(difflib.unified_diff(wanted, written[: 10 * MOST_LINES], "wanted", "written", lineterm=""))
    if len(lines) > MOST_LINES:
        lines[MOST_LINES:] = [f"({len(lines) - MOST_LINES} more lines)"]
    return "".join(f"    {line}\n" for line in lines).rstrip("\n")


def wrong_pictures(command: Command, copy: Path) -> Iterator[str]:
    """A line for each picture that the command wrote in the copy and that is not the one of the repository."""
    for name in PICTURE.findall(command.text):
        made, kept = copy / name, TOP / name
        if not kept.is_file():
            yield f"the repository has no file {name}"
        elif not made.is_file() or made.read_bytes() != kept.read_bytes():
            yield f"the file {name} that it writes is not the one of the repository"


def environment(copy: Path) -> Dict[str, str]:
    """The environment of commands: `drillolive` is that of the copy, and so is the package of Python, over the library that is built."""
    paths = {"PATH": f"{copy}:{os.environ['PATH']}", "PYTHONPATH": str(copy / "bindings/python")}
    return {**os.environ, **paths, "DRILLOLIVE_LIBRARY": str(LIBRARY), "PYTHONDONTWRITEBYTECODE": "1"}


def lines_written(text: str, copy: Path) -> Optional[List[str]]:
    """The lines that bash writes on both outputs when it runs the text in the copy; None where it does not end in time."""
    with subprocess.Popen(
        ["bash", "-c", text],
        cwd=copy,
        env=environment(copy),
        stdin=subprocess.DEVNULL,
        stdout=subprocess.PIPE,
        stderr=subprocess.STDOUT,
        start_new_session=True,
    ) as started:
        try:
            written = started.communicate(timeout=SECONDS)[0]
        except subprocess.TimeoutExpired:
            os.killpg(started.pid, signal.SIGKILL)
            return None
    lines = written.decode("utf-8", "replace").split("\n")
    return lines[:-1] if lines[-1] == "" else lines


def run_command(command: Command, copy: Path) -> List[str]:
    """What is wrong with the command; nothing where it prints what the document says."""
    if not command.text:
        return ["these lines have no command above them"]
    for name in PICTURE.findall(command.text):
        (copy / name).unlink(missing_ok=True)
    lines = lines_written(command.text, copy)
    if lines is None:
        return [f"no end after {SECONDS} seconds"]
    wrong = [] if is_output(command.wanted, lines) else [difference(command.wanted, lines)]
    return wrong + list(wrong_pictures(command, copy))


def lacks_something(command: Command) -> bool:
    """Whether a command needs the library, or numpy, and this machine has none."""
    lacks_library = not LIBRARY.is_file() and NEEDS_THE_LIBRARY.search(command.text)
    return bool(lacks_library or not HAS_NUMPY and NEEDS_NUMPY.search(command.text))


class SharedFolders:
    """One copy of the tracked files below SHARED, with the program, to which the copies for the documents link."""

    def __init__(self, names: List[str], program: Path, top: Path) -> None:
        self.top = top
        self.others = [name for name in names if not is_shared(name)]
        copy_files(filter(is_shared, names), top)
        put_program(program, top)
        self.states = self.states_now()

    def states_now(self) -> Dict[str, Tuple[int, int]]:
        """Of each file its size, and when it was changed last."""
        paths = [Path(folder, name) for folder, _, names in os.walk(self.top) for name in names]
        stats = [(path, path.lstat()) for path in paths]
        return {str(path.relative_to(self.top)): (stat.st_size, stat.st_mtime_ns) for path, stat in stats}

    def copy_to(self, folder: Path) -> None:
        """Copies all other files, and links to the folders."""
        copy_files(self.others, folder)
        for name in SHARED:
            if (self.top / name).is_dir():
                (folder / name).symlink_to(self.top / name, target_is_directory=True)

    def faults(self) -> List[str]:
        """A line for each file that was added, changed or removed since the copy was made."""
        changed = self.states.items() ^ self.states_now().items()
        return [f"a command of a document changes {name}" for name in sorted({name for name, _ in changed})]


def is_shared(name: str) -> bool:
    """Whether a file is in a folder that all copies share."""
    return name.split("/")[0] in SHARED


def check_document(name: str, shared: SharedFolders) -> Tuple[int, List[str]]:
    """The number of commands of the document that were run, and its faults."""
    commands, faults = read_document(name)
    commands = [command for command in commands if not lacks_something(command)]
    if not commands:
        return 0, faults
    with tempfile.TemporaryDirectory(prefix="documents-") as folder:
        copy = Path(folder)
        shared.copy_to(copy)
        for command in commands:
            faults += [f"{name}:{command.line}: $ {command.text}\n{wrong}" for wrong in run_command(command, copy)]
    return len(commands), faults


def check_commands(documents: List[str], names: List[str], program: Path) -> int:
    """Runs the commands of documents. Prints the faults, or the number of commands, and returns the exit status."""
    with tempfile.TemporaryDirectory(prefix="documents-") as folder, ThreadPoolExecutor(os.cpu_count()) as pool:
        shared = SharedFolders(names, program, Path(folder))
        outcomes = list(pool.map(lambda name: check_document(name, shared), documents))
        faults = [fault for _, found in outcomes for fault in found] + shared.faults()
    if faults:
        print("\n".join(faults))
        return 1
    if not LIBRARY.is_file():
        print("build/lib has no library: commands of drillolive and blocks of Python are skipped")
    elif not HAS_NUMPY:
        print(f"{sys.executable} has no numpy: blocks of Python that import it are skipped")
    counts = [count for count, _ in outcomes if count]
    print(f"{sum(counts)} commands of {len(counts)} documents: no fault")
    return 0


def arguments() -> argparse.Namespace:
    """The options of the command line."""
    parser = argparse.ArgumentParser(description="Checks the links and runs the commands of the documents.")
    parser.add_argument("documents", nargs="*", help="Markdown files, from the top of the repository; none: all")
    parser.add_argument("--links", action="store_true", help="check the links only")
    parser.add_argument("--program", type=Path, default=TOP / PROGRAM, help="the program that ./far runs")
    return parser.parse_args()


def main() -> int:
    options = arguments()
    names = tracked_files()
    documents = options.documents or [name for name in names if name.endswith(".md")]
    faults = Documents(TOP, names).faults(documents)
    if faults:
        print("\n".join(faults))
    if options.links:
        print(f"{len(documents)} documents, {len(faults)} links that lead nowhere")
        return 1 if faults else 0
    if not os.access(options.program, os.X_OK):
        print(f"no program {options.program}: `./far --build` or `rt ci` builds it", file=sys.stderr)
        return 2
    status = check_commands([name for name in documents if not name.startswith(MADE)], names, options.program)
    return 1 if faults else status


if __name__ == "__main__":
    sys.exit(main())

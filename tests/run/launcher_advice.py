"""Checks what the launcher says where standard error is a terminal, for the test of the launcher."""

from __future__ import annotations

import re
import subprocess
from pathlib import Path
from typing import Protocol

from paths import TOP
from reference.outcomes import Outcome, Words, outcome, outcome_of_interrupt, outcome_on_terminal
from reference.run import OPTIONS, REQUIRED, Numbers
from tracked_files import PROGRAM, put_program

MOVES = b"frames\nmove 0 2 2 2\ngo\n"

# Words that are refused, and what the advice has to name beside `./far help`. It is given at the top of the repository.
MISTAKES = [
    (["refine", "depth=2", "cube.obj"], ["cube.obj", "< cube.obj"]),
    (["refine", "depth=1", "a mesh.obj"], [r"< a\ mesh.obj"]),
    (["refine", "examples/cube"], ["< examples/cube"]),
    (["refine", "far"], ["< far"]),
    (["refine", "--depth", "2"], ["--depth", "depth=2"]),
    (["refine", "--depth=2"], ["say depth=2"]),
    (["refine", "-d", "2"], ["-d", "depth=2"]),
    (["refine", "-d"], ["depth=N"]),
    (["refine", "depth", "3"], ["depth=3"]),
    (["refine", "depth=1", "-o", "out.obj"], ["> out.obj"]),
    (["refine", "depth=2", "decimal=6"], ["decimal=6", "decimals=6"]),
    (["refine", "depth=2", "uv=corner"], ["uv=corner", "smooth", "corners", "boundaries", "linear"]),
    (["refine", "depth=11"], ["depth=11", "0 to 10"]),
    (["refine", "depth=1", "depth=1"], ["depth=1", "twice"]),
    (["refine"], ["depth=N", "0 to 10"]),
    (["refine", "-h"], ["-h", "./far help refine"]),
    (["refine", "depth=1", ""], ["''", "depth=N [decimals=N]"]),
    (["refien", "depth=2"], ["refien", "refine", "levels", "gen"]),
    (["help", "refien"], ["refien", "refine", "levels", "gen"]),
    (["-h"], ["-h"]),
    (["--help", "refine"], ["--help"]),
    (["cube.obj"], ["cube.obj", "./far refine depth=1 < cube.obj"]),
    (["apply", "depth=1"], ["depth=1", "no further word"]),
    ([b"refine", b"depth=1", b"\xff"], ["UTF-8"]),
]

# Words, an input that is no OBJ, and what the advice has to name.
OTHER_INPUTS = [
    (["refine", "depth=1"], b"solid cube\n facet normal 0 0 1\n", ["OBJ", "line 1", "solid"]),
    (["levels", "depth=1"], bytes(84) + b"\x01\n", ["OBJ", "line 1", "another word"]),
    (["refine", "depth=1"], b"v 0 0 0\ncurv 0 1 1 2\n", ["OBJ", "line 2", "curv"]),
    (["frames", "depth=1"], b"v 0 0 0\nframes\njump\n", ["OBJ", "moves", "line 3", "jump"]),
]


class Launcher(Protocol):
    """The launcher of a copy of the repository, which counts its checks."""

    program: Path
    far: Path
    copy: Path

    def check(self, what: str, passed: object, ended: Outcome) -> None: ...


def check_advice_on(launcher: Launcher, words: Words, source: Path, parts: list[str]) -> None:
    """Checks that on a terminal the outcome is that of the program, and one line more that names these parts."""
    wanted, ended = outcome(launcher.program, words, source.read_bytes()), on_terminal(launcher, words, source)
    added = ended[2][len(wanted[2]) :].decode()
    as_said = ended[:2] == wanted[:2] and ended[2].startswith(wanted[2]) and re.fullmatch(r"\./far: [^\n]+\n", added)
    lacking = [part for part in parts if part not in added]
    launcher.check(f"advice on {words} lacks {lacking}", as_said and not lacking, ended)


def on_terminal(launcher: Launcher, words: Words, source: bytes | Path) -> Outcome:
    """The outcome of a run where standard error is a terminal. The input is a file, or bytes on a terminal."""
    if isinstance(source, bytes):
        return outcome_on_terminal([launcher.far, *words], source, launcher.copy)
    with source.open("rb") as file:
        return outcome_on_terminal([launcher.far, *words], file, launcher.copy)


def check_advice(launcher: Launcher) -> None:
    """Checks the advice on mistakes, on each option and each missing one, and on inputs that are no OBJ."""
    cube = launcher.copy / "examples/cube.obj"
    for words, parts in MISTAKES:
        check_advice_on(launcher, words, cube, ["./far help", *parts])
    check_advice_on(launcher, ["smooth"], cube, ["./far help", *(command.decode() for command in OPTIONS)])
    for command, options in OPTIONS.items():
        name = command.decode()
        missing = [f"{option.decode()}=N is missing" for option in options if option in REQUIRED]
        if missing:
            check_advice_on(launcher, [name], cube, [f"./far help {name}", *missing])
        for option, values in options.items():
            numbers = [f" {values.least} ", f"to {values.most};"] if isinstance(values, Numbers) else []
            allowed = numbers or [value.decode() for value in values]
            check_advice_on(launcher, [name, f"{option.decode()}=x"], cube, [f"./far help {name}", *allowed])
    for words, data, parts in OTHER_INPUTS:
        (launcher.copy / "input").write_bytes(data)
        check_advice_on(launcher, words, launcher.copy / "input", ["docs/guide/formats.md", *parts])


def check_terminals(launcher: Launcher) -> None:
    """Checks what the launcher says where standard error is a terminal, and that it hands over elsewhere."""
    check_advice(launcher)
    cube = (TOP / "examples/cube.obj").read_bytes()
    sheet = "gen seed=0 size=1 depth=1"
    inputs = {"refine depth=1": (b"a mesh", cube), "apply": (b"its input", b""), sheet: (b"", b"")}
    for words, (awaited, data) in inputs.items():
        wanted, ended = outcome(launcher.program, words.split(), data), on_terminal(launcher, words.split(), data)
        line = b"./far: reads %s from the terminal; < FILE reads a file\n" % awaited if awaited else b""
        launcher.check(f"{words} on a terminal", ended == (*wanted[:2], line + wanted[2]), ended)
    wanted, ended = outcome(launcher.program, ["refine"], b""), on_terminal(launcher, ["refine"], b"")
    is_refused = ended[:2] == wanted[:2] and ended[2].startswith(wanted[2])
    launcher.check("words are refused before a terminal is read", is_refused, ended)
    status, said = outcome_of_interrupt([launcher.far, "frames", "depth=1"], cube + MOVES)
    launcher.check("an interrupt on a terminal", status in (-2, 130) and b"./far:" not in said, (status, b"", said))
    check_hands_over(launcher)


def check_hands_over(launcher: Launcher) -> None:
    """Checks that the program takes the place of the launcher where standard error is no terminal."""
    program = launcher.copy / PROGRAM
    program.write_text("#!/usr/bin/env bash\necho $$\n")
    with subprocess.Popen([launcher.far, "gen"], stdout=subprocess.PIPE, stderr=subprocess.PIPE) as started:
        written, said = started.communicate()
        ended = (started.returncode, written, said)
        launcher.check("the process of the program", written == b"%d\n" % started.pid, ended)
    put_program(launcher.program, launcher.copy)

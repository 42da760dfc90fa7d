#!/usr/bin/env python3
"""Shows that the launcher passes words, input, outputs and status through, to the proved program and to the unproved one.

In a copy of the tracked files each of some runs is made by the proved program itself, by `./far` while no program is
proved, and by `./far` once the proved program is where the launcher looks for it. All have to end alike, but for
the one line on standard error by which `./far` says that a run is not proved. Beside these runs it tries what the
launcher does by itself: its help and version, its advice on terminals, a source that is newer than a program, a
toolchain that is missing or fails, and `./far --build`, `./far --install` and `./far --uninstall`. There stand-ins
of `rt`, and of `python3` with the builder of the library, are called in the place of the toolchain, since proving
takes an hour.

It builds the program unproved once, which takes half a minute where a processor is free. Its one line is
`the launcher: N checks passed`, and the exit status 0. It is 1 where a check fails, which is printed, and 2 where
there is no proved program.
"""

from __future__ import annotations

import argparse
import os
import re
import shutil
import sys
import tarfile
import tempfile
from concurrent.futures import ThreadPoolExecutor
from pathlib import Path
from typing import Iterator

from launcher_advice import MOVES, check_terminals
from paths import TOP
from reference.outcomes import Outcome, outcome, shown
from reference.run import OPTIONS, Numbers
from release import DESCRIPTION, FACTS, MANIFEST, make_release
from tracked_files import PROGRAM, copy_files, put_program, tracked_files

NOT_PROVED = re.compile(rb"\./far: this run is not proved[^\n]*\n")
COMMANDS_OF_THE_LAUNCHER = "bash cat cmp date dirname find flock install ln mkdir mktemp mv readlink rm rmdir sed sleep touch"
CLOSED_INPUT, FULL_OUTPUT = 'exec "$@" <&-', 'exec "$@" > /dev/full'
FIXED_FILES = (
    "bin/far lib/libdrillolive.a lib/libdrillolive.so lib/pkgconfig/drillolive.pc include/drillolive.h include/drillolive.hpp "
    "share/man/man1/far.1 bin/drillolive"
).split()
SOURCE_OF_PACKAGE, PACKAGE = "bindings/python/drillolive/", "share/drillolive/python/drillolive/"


def installed() -> list[str]:
    """The files that are installed, below the folder: the Python package as it is tracked, and the others."""
    modules = [name[len(SOURCE_OF_PACKAGE) :] for name in tracked_files() if name.startswith(SOURCE_OF_PACKAGE)]
    return sorted([*FIXED_FILES, *(PACKAGE + name for name in modules)])


def content(path: str) -> bytes:
    return (TOP / path).read_bytes()


def runs() -> Iterator[tuple]:
    """Of each run its words, its input, and how bash calls it where that is not the usual way."""
    cube, dog, unfolded = (content(f"examples/{name}.obj") for name in ("cube", "dog", "unfolded_cube"))
    yield ["refine", "depth=2"], cube
    yield ["refine", "depth=1", "uv=corners", "tags=yes", "decimals=3"], unfolded
    yield ["refine", "depth=3", "by=level"], dog
    yield ["levels", "depth=1"], dog
    yield ["stencils", "depth=1"], cube
    yield ["sparse", "depth=3"], content("examples/creased_cube.obj")
    yield ["sparse", "depth=2", "uv=corners", "decimals=2"], unfolded
    yield ["limit", "depth=2", "decimals=3"], unfolded
    yield ["limit", "depth=1"], content("examples/creased_cube.obj")
    yield ["patch", "depth=2", "face=2", "grid=3"], cube
    yield ["patch", "depth=1", "face=2", "grid=3"], cube
    yield ["map", "depth=3", "face=0", "grid=4"], cube
    yield ["map", "depth=3", "face=0", "grid=4", "corner=1"], cube
    yield ["verify", "depth=1"], content("cases/verify/cube-at-depth-one/stdin")
    yield ["apply"], content("cases/apply/cube-at-depth-one/stdin")
    yield ["frames", "depth=1"], cube + MOVES
    yield ["gen", "seed=7", "size=4", "depth=2"], b""
    yield ["refine", "depth=3"], b""
    yield ["refine", "depth=1"], b"v 0 0 0\nv 0 0 nan\n"
    yield ["refine", "depth=1"], b"\xff\x00\n"
    yield ["frames", "depth=1", "scale=18"], cube + MOVES + b"move 8 0 0 0\n"
    yield ["levels", "depth=1"], content("cases/levels/bowtie/stdin")
    yield ["verify", "depth=1"], content("cases/verify/row-more/stdin")
    yield ["apply"], content("cases/apply/point-too-few/stdin")
    yield ["refine", "depth=x"], cube
    yield ["refine", "depth=1 tags=yes"], cube
    yield ["refine", "depth=1", "*"], cube
    yield ["refine", "depth=1", "tags=yes", ""], cube
    yield ["refine", "depth=1\n", "x"], cube
    yield [b"refine", b"depth=1", b"\xff"], cube
    yield ["help", "help"], cube
    yield ["--build", ""], cube
    yield [""], cube
    yield ["refine", "depth=1"], cube, CLOSED_INPUT
    yield ["refine", "depth=1"], cube, FULL_OUTPUT


class Launcher:
    """The launcher of a copy of the repository, and the checks that it passed and failed."""

    def __init__(self, program: Path, room: Path):
        self.program, self.copy = program, room / "copy"
        self.far, self.source = self.copy / "far", self.copy / "crates/far_cli/src/main.rt"
        self.unproved = self.copy / ".far/far_cli"
        self.passed, self.failed = 0, []
        copy_files(tracked_files(), self.copy)
        names = ("plain", "refusing", "agreeing", "lacking")
        self.plain, self.refusing, self.agreeing, self.lacking = (room / name for name in names)
        self.make_stand_ins()

    def make_stand_ins(self) -> None:
        """Makes folders of commands without `rt`, with one that fails, and with one that notes how it is called.

        In the third a stand-in of `python3` builds the library, and in the fourth one ends well and builds nothing.
        """
        note = 'echo proving\n{ pwd; printf "%s\\n" "$@"; cat; } > "$0.called"\n'
        build = 'mkdir -p "${1%/*}/../build/lib"\nfor it in a so; do echo $it > "${1%/*}/../build/lib/libdrillolive.$it"; done\n'
        stand_ins = {
            self.plain: {},
            self.refusing: {"rt": "exit 1\n", "python3": build},
            self.agreeing: {"rt": note, "python3": build},
            self.lacking: {"rt": note, "python3": "exit 0\n"},
        }
        for folder, commands in stand_ins.items():
            folder.mkdir()
            for name in COMMANDS_OF_THE_LAUNCHER.split():
                (folder / name).symlink_to(shutil.which(name))
            for name, text in commands.items():
                (folder / name).write_text("#!/usr/bin/env bash\n" + text)
                (folder / name).chmod(0o755)

    def check(self, what: str, passed: object, ended: Outcome) -> None:
        if passed:
            self.passed += 1
        else:
            self.failed.append(f"FAILED {what}: {shown(ended)}")

    def ends_without_program(self, what: str, folder: Path, line: bytes) -> None:
        """Checks that a run ends with status 1 and a line with this text, under the commands of the folder."""
        ended = outcome(self.far, ["levels", "depth=0"], path=str(folder))
        self.check(what, ended[:2] == (1, b"") and ended[2].count(b"\n") <= 2 and line in ended[2], ended)

    def compare_runs(self, what: str, wanted: list[Outcome], is_proved: bool) -> None:
        """Checks that each run ends as the program itself does, but for the line that says that it is not proved."""
        given = list(runs())
        with ThreadPoolExecutor(os.cpu_count()) as pool:
            outcomes = list(pool.map(lambda run: outcome(self.far, *run), given))
        for (words, *_), (status, output, error), ended in zip(given, wanted, outcomes):
            line = None if is_proved else NOT_PROVED.match(ended[2])
            rest = ended[2][line.end() :] if line else ended[2]
            as_said = is_proved or line is not None
            self.check(f"{words} {what}", as_said and (*ended[:2], rest) == (status, output, error), ended)

    def check_help(self) -> None:
        """Checks that the help has each option and each name of a value, and that its examples run."""
        ended = outcome(self.far, ["help"])
        self.check("help", ended[0] == 0 and ended[1] and not ended[2], ended)
        for words in ([], ["--help"]):
            self.check(f"help by {words}", outcome(self.far, words) == ended, outcome(self.far, words))
        text = ended[1].decode()
        for command, options in OPTIONS.items():
            part = re.split(rf"^  \./far {command.decode()}\b", text, 1, re.M)[-1].partition("Example: ")
            for name, values in options.items():
                numbers = [str(values.least), str(values.most)] if isinstance(values, Numbers) else []
                names = numbers or [value.decode() for value in values]
                lacking = [it for it in [f"{name.decode()}=", *names] if not re.search(rf"\b{it}", part[0])]
                self.check(f"help of {command.decode()} lacks {lacking}", not lacking, ended)
            self.check_part_of_help(command.decode(), text)
            ended = outcome("bash", ["-c", part[2].partition("\n")[0]], folder=self.copy)
            self.check(f"example of {command.decode()}", ended[0] == 0 and ended[1] and not ended[2], ended)

    def check_part_of_help(self, command: str, text: str) -> None:
        """Checks that the help on one command is the part of the whole help that has its line and its example."""
        ended = outcome(self.far, ["help", command])
        part = ended[1].decode()
        whole = f"\n\n{part}\n" in text and part.startswith(f"  ./far {command}") and part.count("Example: ") == 1
        self.check(f"help on {command}", ended[0] == 0 and whole and not ended[2], ended)
        self.check(f"{command} --help", outcome(self.far, [command, "--help"]) == ended, ended)

    def check_version(self, state: str) -> None:
        """Checks that the version of the header is printed, and whether the program is proved."""
        version = re.search(r'#define DRILLOLIVE_VERSION "(.*)"', content("include/drillolive.h").decode())[1]
        ended = outcome(self.far, ["--version"], path=str(self.plain))
        line = rf"far {re.escape(version)}, {state}\n"
        self.check(f"--version, {state}", ended[0] == 0 and re.fullmatch(line, ended[1].decode()) and not ended[2], ended)

    def check_link(self) -> None:
        """Checks that the launcher finds its repository through a link, from another folder."""
        link = self.copy.parent / "link"
        link.symlink_to(self.far)
        ended = outcome(link, ["gen", "seed=0", "size=1", "depth=1"])
        self.check("by a link", ended[0] == 0 and ended[1] and not ended[2], ended)

    def check_newer_source(self, wanted: list[Outcome]) -> None:
        """Checks that a source that is newer than the proved program makes the run unproved, and a newer one a new build."""
        latest = max(os.stat(it).st_mtime for it in (self.copy / PROGRAM, self.unproved))
        os.utime(self.source, (latest + 1, latest + 1))
        os.utime(self.unproved, (latest + 2, latest + 2))
        ended = outcome(self.far, ["refine", "depth=2"], content("examples/cube.obj"))
        line = NOT_PROVED.fullmatch(ended[2])
        self.check("a source newer than the proved program", line and ended[:2] == wanted[0][:2], ended)
        self.check_version("not proved, since sources are newer than the proved program")
        os.utime(self.source, (latest + 3, latest + 3))
        self.ends_without_program("a source newer than both programs", self.refusing, b"could not be built unproved")
        self.ends_without_program("a newer source without rt", self.plain, b"README.md")

    def check_build(self) -> None:
        """Checks how `./far --build` calls the toolchain, how it ends, and that the program is the proved one then."""
        ended = outcome(self.far, ["--build"], path=str(self.refusing))
        self.check("--build that fails", ended[:2] == (1, b"") and ended[2].count(b"\n") == 1, ended)
        ended = outcome(self.far, ["--build"], path=str(self.plain))
        self.check("--build without rt", ended[:2] == (1, b"") and b"README.md" in ended[2], ended)
        os.utime(self.source)
        os.utime(self.copy / PROGRAM, (0, 0))
        ended = outcome(self.far, ["--build"], data=b"input", path=str(self.agreeing))
        called = (self.agreeing / "rt.called").read_text()
        wanted = f"{self.copy}/crates/far_cli\nrun\n--\nrefine\ndepth=1\n"
        self.check(f"--build called {called!r}", ended == (0, b"", b"proving\n") and called == wanted, ended)
        ended = outcome(self.far, ["gen", "seed=0", "size=1", "depth=1"])
        self.check("a run after --build", ended[0] == 0 and ended[1] and not ended[2], ended)

    def install(self, word: str, prefix: Path, folder: Path) -> Outcome:
        """How `./far --install` or `./far --uninstall` of a folder ends, under the commands of another folder."""
        return outcome(self.far, [word, prefix], path=str(folder))

    def check_refused_install(self, prefix: Path) -> None:
        """Checks that nothing is installed where the program or the library cannot be built, or no folder is named."""
        for what, folder in (("rt that fails", self.refusing), ("no rt", self.plain), ("no C compiler", self.lacking)):
            os.utime(self.source)
            ended = self.install("--install", prefix, folder)
            last = ended[2].splitlines()[-1:]
            self.check(f"--install with {what}", ended[:2] == (1, b"") and last and last[0].startswith(b"./far: "), ended)
            self.check(f"--install with {what} leaves a file", not prefix.exists(), ended)
        for word in ("--install", "--uninstall"):
            ended = outcome(self.far, [word], path=str(self.agreeing))
            self.check(f"{word} without a folder", ended == (1, b"", f"./far: {word} takes a folder\n".encode()), ended)
        ended = self.install("--uninstall", prefix, self.agreeing)
        self.check("--uninstall of nothing", ended[:2] == (1, b"") and b"nothing is installed" in ended[2], ended)

    def check_install(self) -> None:
        """Checks that `./far --install` proves what is not built, and installs what it lists, also over itself, and nothing else."""
        prefix, wanted = self.copy.parent / "a prefix", installed()
        (self.copy / SOURCE_OF_PACKAGE / "__pycache__").mkdir(exist_ok=True)
        (self.copy / SOURCE_OF_PACKAGE / "__pycache__/mesh.cpython-39.pyc").write_text("")
        self.check_refused_install(prefix)
        (self.agreeing / "rt.called").unlink()
        os.utime(self.source)
        for time, said in (("first", b"proving\n"), ("second", b"")):
            ended = self.install("--install", prefix, self.agreeing)
            listed = (prefix / MANIFEST).read_text().splitlines() if (prefix / MANIFEST).is_file() else []
            self.check(f"{time} --install", ended == (0, b"", said) and sorted(listed) == wanted, ended)
            found = sorted(str(path.relative_to(prefix)) for path in prefix.rglob("*") if path.is_file())
            self.check(f"{time} --install made {found}", found == sorted([*wanted, MANIFEST]), ended)
        self.check("--install proves", (self.agreeing / "rt.called").read_text().startswith(f"{self.copy}/crates/far_cli\nrun\n"), ended)
        same = (prefix / "bin/far").read_bytes() == (self.copy / PROGRAM).read_bytes() and os.access(prefix / "bin/far", os.X_OK)
        self.check("the installed program is the proved one", same, ended)
        described = (prefix / "lib/pkgconfig/drillolive.pc").read_text()
        self.check("drillolive.pc", f"prefix={prefix}\n" in described and re.search(r"^Version: \d+\.\d+\.\d+$", described, re.M), ended)
        self.check_release(prefix)
        self.check_uninstall(prefix)

    def check_release(self, prefix: Path) -> None:
        """Checks that the tar of a release has the installed files and the facts of the release, and is the same twice."""
        packed = []
        for time in ("first", "second"):
            release = self.copy.parent / f"{time} release"
            shutil.copytree(prefix, release)
            facts = ["version 1.2.3", "gate 7 passed, 0 failed"]
            packed.append(make_release(release, facts, 1234567890, release.parent / f"{time} folder"))
        with tarfile.open(packed[0]) as tar:
            names = sorted(entry.name for entry in tar.getmembers() if entry.isfile())
            said, described, listed = (
                tar.extractfile(f"drillolive-1.2.3-x86_64-linux/{name}").read().decode().splitlines()
                for name in (FACTS, DESCRIPTION, MANIFEST)
            )
        wanted = sorted(f"drillolive-1.2.3-x86_64-linux/{name}" for name in [*installed(), MANIFEST, FACTS])
        self.check(f"a release has {names}", names == wanted, (0, b"", b""))
        moves = "prefix=${pcfiledir}/../.." in described and not any(str(self.copy.parent) in line for line in described)
        self.check(f"a release says {described}", moves, (0, b"", b""))
        self.check("a release lists its files", sorted(listed) == sorted([*installed(), FACTS]), (0, b"", b""))
        sums = [line for line in said if line.startswith("sha256 ")]
        self.check("a release says its sums", said[:2] == facts and len(sums) == len(installed()) + 1, (0, b"", b""))
        self.check("a release is the same twice", packed[0].read_bytes() == packed[1].read_bytes(), (0, b"", b""))

    def check_uninstall(self, prefix: Path) -> None:
        """Checks that `./far --uninstall` removes what was installed, keeps all else, and names no file outside of the folder."""
        kept = ["lib/other", PACKAGE + "other/__pycache__/other.pyc"]
        compiled = [PACKAGE + "__pycache__/__init__.cpython-311.pyc", PACKAGE + "command/__pycache__/main.cpython-39.opt-1.pyc"]
        for name in (*kept, *compiled):
            (prefix / name).parent.mkdir(parents=True, exist_ok=True)
            (prefix / name).write_text("")
        ended = outcome(prefix / "bin/drillolive", ["--help"])
        self.check("the installed command", ended[0] == 0 and b"drillolive COMMAND" in ended[1] and not ended[2], ended)
        ended = self.install("--uninstall", prefix, self.plain)
        left = sorted(str(path.relative_to(prefix)) for path in prefix.rglob("*") if path.is_file())
        self.check(f"--uninstall leaves {left}", ended == (0, b"", b"") and left == sorted(kept), ended)
        folders = sorted(path.name for path in (prefix / PACKAGE).rglob("*") if path.is_dir())
        self.check(f"--uninstall leaves the folders {folders}", folders == ["__pycache__", "other"], ended)
        shutil.rmtree(prefix / "share")
        (prefix / MANIFEST).parent.mkdir(parents=True)
        for name in ("../outside", "/outside", "lib/../../outside"):
            (self.copy.parent / "outside").write_text("")
            (prefix / MANIFEST).write_text(f"{name}\n")
            ended = self.install("--uninstall", prefix, self.plain)
            refused = ended[:2] == (1, b"") and (self.copy.parent / "outside").is_file()
            self.check(f"--uninstall of {name}", refused, ended)


def test(launcher: Launcher) -> None:
    wanted = [outcome(launcher.program, *run) for run in runs()]
    launcher.ends_without_program("no rt", launcher.plain, b"README.md")
    launcher.ends_without_program("an rt that fails", launcher.refusing, b"could not be built unproved")
    launcher.compare_runs("unproved", wanted, is_proved=False)
    launcher.check_version("not proved, since no program is proved and built yet")
    put_program(launcher.program, launcher.copy)
    launcher.compare_runs("proved", wanted, is_proved=True)
    launcher.check_version("proved")
    launcher.check_help()
    check_terminals(launcher)
    launcher.check_link()
    launcher.check_newer_source(wanted)
    launcher.check_build()
    launcher.check_install()


def main() -> int:
    parser = argparse.ArgumentParser(description="Tests the launcher.")
    parser.add_argument("--program", type=Path, default=TOP / PROGRAM, help="the proved program")
    program = parser.parse_args().program.resolve()
    if not os.access(program, os.X_OK):
        print(f"no program {program}: `./far --build` or `rt ci` builds it", file=sys.stderr)
        return 2
    with tempfile.TemporaryDirectory(prefix="launcher-") as room:
        launcher = Launcher(program, Path(room).resolve())
        test(launcher)
    if launcher.failed:
        print("\n".join(launcher.failed))
        return 1
    print(f"the launcher: {launcher.passed} checks passed")
    return 0


if __name__ == "__main__":
    sys.exit(main())

#!/usr/bin/env python3
"""Shows that tools/check_places.py finds each kind of place that is forgotten.

In a copy of the tracked files one omission after another is planted. Each must add its own line to what the script
prints before, and no other, and end the script with status 1. Beside them it tries a name that no table has, and a crate
that is in every place.
"""

import tempfile
import unittest
from contextlib import contextmanager
from pathlib import Path
from typing import Dict, Iterator, List, NamedTuple, Tuple

import paths  # noqa: F401
from check_places import CODE, COMMAND_PLACES, CRATE_PLACES, LISTS, MAKE, READ, STORED, STREAM, Place
from copies import check
from tracked_files import copy_files, tracked_files


class Plant(NamedTuple):
    """An omission: in a file, or in all files of a pattern, a text becomes another one; where it is empty the files are
    removed. Then the line that must be printed, and further options of the script."""

    file: str
    text: str
    other: str
    line: str
    more: Tuple[str, ...] = ()

    @property
    def options(self) -> Tuple[str, ...]:
        """The options of the script, which checks the command or the crate of the line only."""
        subject, name = self.line.split(":")[0].split(" ")
        return () if subject == "list" else (f"--{subject}", name, *self.more)


PLANTS = [
    Plant(
        "crates/far_model/specs/Words.antt",
        '    ∷ record { name = codes "levels"; options = required_option (codes "depth") 0 10 ∷ [] }\n',
        "",
        "command levels: missing in crates/far_model/specs/Words.antt: a row of `command_table`",
    ),
    Plant(
        "crates/far_model/specs/Command.antt",
        "  Gen : ",
        "  Other : ",
        "command gen: missing in crates/far_model/specs/Command.antt: a constructor of `MakeCommand`",
        ("--kind", "make"),
    ),
    Plant(
        "crates/far_model/specs/Command.antt",
        "IsReadInRange (Stencils ",
        "IsReadInRange (Other ",
        "command stencils: missing in crates/far_model/specs/Command.antt: its range, an arm of `IsReadInRange`",
    ),
    Plant(
        "crates/far_model/specs/Answer.antt",
        "made_faults (Gen ",
        "made_faults (Other ",
        "command gen: missing in crates/far_model/specs/Answer.antt: an arm of `made_faults`",
    ),
    Plant(
        "crates/far_model/specs/Command.antt",
        "then Stored Apply",
        "then Stored Other",
        "command apply: missing in crates/far_model/specs/Command.antt: an arm of `command_named`",
    ),
    Plant(
        "crates/far_model/specs/Answer.antt",
        "answer_of_stored_text (Verify ",
        "answer_of_stored_text (Other ",
        "command verify: missing in crates/far_model/specs/Answer.antt: an arm of `answer_of_stored_text`",
    ),
    Plant(
        "crates/far_model/src/answers.rt",
        'answer (codes "gen" ',
        'answer (codes "other" ',
        "command gen: missing in crates/far_model/src/answers.rt: an example of its answer",
    ),
    Plant(
        "crates/far_words/src/table.rt",
        'name: "stencils"',
        'name: "other"',
        "command stencils: missing in crates/far_words/src/table.rt: a row of `COMMANDS`",
    ),
    Plant(
        "crates/far_words/specs/View.antt",
        "read_of_code (Levels ",
        "read_of_code (Other ",
        "command levels: missing in crates/far_words/specs/View.antt: an arm of `read_of_code`",
    ),
    Plant(
        "crates/far_words/proofs/WordsLemmas.antt",
        'codes "levels"',
        'codes "other"',
        "command levels: missing in crates/far_words/proofs/WordsLemmas.antt: a case of `says-in-range`",
    ),
    Plant(
        "crates/far_text/src/reply.rt",
        "    Sheet(",
        "    Other(",
        "command gen: missing in crates/far_text/src/reply.rt: a variant of `Reply`, where the text is a new one",
    ),
    # The variant that no call makes any more is the one that is wanted.
    Plant(
        "crates/mesh_answers/src/counts.rt",
        "",
        "",
        "command levels: missing in crates/mesh_answers/src/*.rt: the call that finds the reply",
    ),
    Plant(
        "crates/table_answers/src/applied.rt",
        "",
        "",
        "command apply: missing in crates/table_answers/src/*.rt: the call that finds the reply",
    ),
    Plant(
        "crates/table_answers/specs/Answers.antt",
        "stored_limit (Verify ",
        "stored_limit (Other ",
        "command verify: missing in crates/table_answers/specs/Answers.antt: an arm of `stored_limit`",
    ),
    Plant(
        "crates/mesh_answers/specs/StepCounts.antt",
        "step_limit (Refine ",
        "step_limit (Other ",
        "command refine: missing in crates/mesh_answers/specs/StepCounts.antt: an arm of `step_limit`",
    ),
    Plant(
        "crates/far_engine/src/command.rt",
        "ReadCommand::Levels ",
        "ReadCommand::Other ",
        "command levels: missing in crates/far_engine/src/command.rt: an arm of `run_command`",
    ),
    Plant(
        "crates/far_engine/proofs/command/run_command/Answers.antt",
        "in-Stencils",
        "in-Other",
        "command stencils: missing in crates/far_engine/proofs/command/run_command/Answers.antt: the answers of this arm",
    ),
    Plant(
        "crates/far_engine/proofs/ManifoldLemmas.antt",
        "(Makes (Gen ",
        "(Makes (Other ",
        "command gen: missing in crates/far_engine/proofs/ManifoldLemmas.antt: a case of `accepted-manifolds`",
    ),
    Plant(
        "crates/far_engine/src/command.rt",
        "StoredCommand::Apply ",
        "StoredCommand::Other ",
        "command apply: missing in crates/far_engine/src/command.rt: an arm of `find_stored`",
    ),
    Plant(
        "tests/reference/reference.py",
        'b"verify": ',
        'b"other": ',
        "command verify: missing in tests/reference/reference.py: its text, an entry of `TEXTS_OF_TABLE`",
    ),
    Plant(
        "tests/random/compare_random.py",
        '(["apply"], ',
        '(["other"], ',
        "command apply: missing in tests/random/compare_random.py: random inputs of it, in `kinds_of_runs`",
    ),
    Plant(
        "tests/reference/reference.py",
        'b"gen": ',
        'b"other": ',
        "command gen: missing in tests/reference/reference.py: its text, an entry of `TEXTS_OF_OPTIONS`",
    ),
    Plant(
        "tests/reference/reference.py",
        'b"frames": ',
        'b"other": ',
        "command frames: missing in tests/reference/reference.py: its texts, an entry of `TEXTS_OF_INPUT`",
    ),
    Plant(
        "tests/random/compare_random.py",
        'return ["stencils", ',
        'return ["other", ',
        "command stencils: missing in tests/random/compare_random.py: random words of it, in `Words`",
    ),
    Plant(
        "docs/guide/formats.md",
        "`levels`",
        "`other`",
        "command levels: missing in docs/guide/formats.md: the form of what it writes",
    ),
    Plant(
        "docs/proofs.md",
        "11 commands",
        "nine commands",
        "command gen: missing in docs/proofs.md: the number of commands, 11",
    ),
    Plant(
        "docs/rules/answers.md",
        "- `MakeCommand`",
        "- `OtherCommand`",
        "command gen: missing in docs/rules/answers.md: its name, beside its kind",
    ),
    Plant(
        "docs/help.txt",
        "One command makes",
        "Two commands make",
        "command gen: missing in docs/help.txt: the number of its kind, one",
    ),
    Plant(
        "docs/help.txt",
        "Two commands ",
        "Three commands ",
        "command verify: missing in docs/help.txt: the number of its kind, two",
    ),
    Plant(
        "docs/help.txt",
        "  ./far stencils ",
        "  ./far other ",
        "command stencils: missing in docs/help.txt: its options and an example",
    ),
    Plant(
        "cases/words/*/words",
        "stencils\n",
        "other\n",
        "command stencils: missing in cases/words/*/words: a case whose options are refused",
    ),
    Plant(
        "cases/[!w]*/*/words",
        "stencils\n",
        "other\n",
        "command stencils: missing in cases/*/*/words: a case that runs it",
    ),
    Plant(
        "crates/far_tests/src/hostile.rt",
        '    ("levels ',
        '    ("other ',
        "command levels: missing in crates/far_tests/src/hostile.rt: one whose sink fails, in `WRITES`",
    ),
    Plant(
        "crates/far_tests/src/words.rt",
        '"levels depth=10"',
        '"other depth=10"',
        "command levels: missing in crates/far_tests/src/words.rt: its words, in `WORDS`",
    ),
    Plant(
        "crates.txt",
        "\nsheet_maker:",
        "\n# sheet_maker:",
        "crate sheet_maker: missing in crates.txt: its line, with the crates that it depends on",
    ),
    Plant(
        "crates.txt",
        " sheet_maker ",
        " ",
        "crate sheet_maker: missing in crates/*_tests/src/*.rt: a test that calls it, or a crate above it",
    ),
    Plant(
        "crates/mesh_laws/src/lib.rt",
        "//! ",
        "// ",
        "crate mesh_laws: missing in crates/mesh_laws/src/lib.rt: a comment that says what the crate is",
    ),
    Plant(
        "crates/far_cli/src/main.rt",
        "//! ",
        "// ",
        "crate far_cli: missing in crates/far_cli/src/main.rt: a comment that says what the program does",
    ),
    Plant(
        "crates/sheet_maker/must-fail/*.edit",
        "",
        "",
        "crate sheet_maker: missing in crates/sheet_maker/must-fail/*.edit: wrong bodies that the prover must refuse",
    ),
    Plant(
        "docs/architecture.md",
        "theorems",
        "theorem",
        "crate theorems: missing in docs/architecture.md: its place in the picture",
    ),
    Plant(
        "CONTRIBUTING.md",
        "`docs/help.txt`",
        "the help",
        "list command: missing in CONTRIBUTING.md: `docs/help.txt`",
    ),
    Plant(
        "CONTRIBUTING.md",
        "`crates/*/must-fail/*.edit`",
        "edits",
        "list crate: missing in CONTRIBUTING.md: `crates/*/must-fail/*.edit`",
    ),
]


@contextmanager
def planted(top: Path, plant: Plant) -> Iterator[bool]:
    """The copy with an omission, and whether there was something to leave out; afterwards the copy is as before."""
    before = {path: path.read_bytes() for path in top.glob(plant.file)}
    text, other = plant.text.encode(), plant.other.encode()
    for path, data in before.items():
        if plant.text:
            path.write_bytes(data.replace(text, other))
        else:
            path.unlink()
    yield any(text in data for data in before.values())
    for path, data in before.items():
        path.write_bytes(data)


def checked_places(places: List[Place], kind: str) -> int:
    """How many places of a list are checked for one kind."""
    return sum(place.text is not None and (not place.kinds or kind in place.kinds) for place in places)


# Options of the script, the status, and how many lines it prints.
RUNS = [
    (("--command", "unheard-of"), 1, checked_places(COMMAND_PLACES, READ) + 1),
    (("--command", "unheard-of", "--kind", "stored"), 1, checked_places(COMMAND_PLACES, STORED) + 1),
    (("--command", "unheard-of", "--kind", "make"), 1, checked_places(COMMAND_PLACES, MAKE) + 1),
    (("--command", "unheard-of", "--kind", "stream"), 1, checked_places(COMMAND_PLACES, STREAM) + 1),
    (("--crate", "unheard_of"), 1, checked_places(CRATE_PLACES, CODE) + 1),
    (("--crate", "ratio128"), 0, 1),
    *((("--list", name), 0, len(places)) for name, places in LISTS.items()),
]


class CheckPlaces(unittest.TestCase):
    """Runs the checker on a copy of the repository, and plants one omission at a time."""

    folder: "tempfile.TemporaryDirectory[str]"
    top: Path

    @classmethod
    def setUpClass(cls) -> None:
        cls.folder = tempfile.TemporaryDirectory(prefix="places-")
        cls.top = Path(cls.folder.name)
        copy_files([name for name in tracked_files() if not name.startswith(("docs/reference/", "docs/pictures/"))], cls.top)

    @classmethod
    def tearDownClass(cls) -> None:
        cls.folder.cleanup()

    def test_clean(self) -> None:
        status, lines = check("check_places", self.top)
        self.assertEqual((status, len(lines)), (0, 1), lines)

    def test_plants(self) -> None:
        before: Dict[Tuple[str, ...], List[str]] = {}
        for plant in PLANTS:
            if plant.options not in before:
                before[plant.options] = check("check_places", self.top, *plant.options)[1][:-1]
            with self.subTest(line=plant.line):
                with planted(self.top, plant) as is_planted:
                    status, lines = check("check_places", self.top, *plant.options)
                self.assertTrue(is_planted, "there is nothing to leave out")
                added = [line for line in lines[:-1] if line not in before[plant.options]]
                self.assertEqual((status, added, len(lines)), (1, [plant.line], len(before[plant.options]) + 2))

    def test_runs(self) -> None:
        for options, status, count in RUNS:
            with self.subTest(options=options):
                given, lines = check("check_places", self.top, *options)
                self.assertEqual((given, len(lines)), (status, count))


if __name__ == "__main__":
    unittest.main()

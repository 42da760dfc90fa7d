#!/usr/bin/env python3
"""Shows that tools/check_documents.py finds links that lead nowhere, and commands that print something else."""

import subprocess
import sys
import unittest
from contextlib import contextmanager
from pathlib import Path
from typing import Dict, Iterator, List, Tuple

import paths  # noqa: F401
from check_documents import is_output
from copies import copy, in_parallel, repository, run

GUIDE = """# Guide

## A part: `of` it

See [the reference](../reference/laws.md#limit_laws), [this part](#a-part-of-it), [the folder](../reference/), <https://example.org>
and [another page](https://example.org/x.md).

```console
$ echo one; echo two
one
..
$ printf 'a picture' -o docs/picture.svg > docs/picture.svg
$ cat crates/sums/README.md
Sums.
```

```python
assert 1 + 1 == 2
```

```sh
git clone example
# [a](no/link.md)
```
"""

CLEAN = {
    "crates.txt": "sums:\n",
    "crates/sums/README.md": "Sums.\n",
    "README.md": "# Title\n\n[Guide](docs/guide/README.md) and ![picture](docs/picture.svg)\n",
    "docs/guide/README.md": GUIDE,
    "docs/picture.svg": "a picture",
    "docs/reference/laws.md": "# Laws\n\n## limit_laws\n\n```console\n$ false\n```\n\n[Guide](../guide/README.md)\n",
}

READING = "cat crates/sums/README.md\nSums."
CHANGES = "a command of a document changes crates/sums/"

# A document, a text in it, what takes its place, and how the first line begins that the checker has to print.
PLANTS = [
    ("README.md", "docs/guide/README.md", "docs/guide/other.md", "README.md:3: `docs/guide/other.md` leads to no file"),
    ("README.md", "docs/picture.svg", "docs/other.svg", "README.md:3: `docs/other.svg` leads to no file"),
    ("docs/guide/README.md", "#limit_laws", "#other_laws", "docs/guide/README.md:5: `../reference/laws.md#other_laws` leads to no heading"),
    ("docs/guide/README.md", "#a-part-of-it", "#a-part", "docs/guide/README.md:5: `#a-part` leads to no heading"),
    ("docs/reference/laws.md", "../guide/", "../", "docs/reference/laws.md:9: `../README.md` leads to no file"),
    ("docs/guide/README.md", "one\n..", "two\n..", "docs/guide/README.md:9: $ echo one; echo two"),
    ("docs/guide/README.md", "..\n", "", "docs/guide/README.md:9: $ echo one; echo two"),
    ("docs/guide/README.md", "a picture' -o", "other' -o", "docs/guide/README.md:12: $ printf 'other' -o docs/picture.svg"),
    ("docs/guide/README.md", "Sums.", "Products.", "docs/guide/README.md:13: $ cat crates/sums/README.md"),
    ("docs/guide/README.md", READING, "echo > crates/sums/README.md", CHANGES + "README.md"),
    ("docs/guide/README.md", READING, "rm crates/sums/README.md", CHANGES + "README.md"),
    ("docs/guide/README.md", READING, "touch crates/sums/new", CHANGES + "new"),
    ("docs/guide/README.md", "1 + 1 == 2", "1 + 1 == 3", "docs/guide/README.md:18: $ "),
    ("docs/guide/README.md", "git clone", "unheard of", "docs/guide/README.md:22: is not checked: unheard of example"),
    ("docs/guide/README.md", "```sh\ngit", "```text\n$ git", "docs/guide/README.md:22: is not checked: git clone example"),
]


@contextmanager
def copy_with(files: Dict[str, str]) -> Iterator[Path]:
    """A repository that git tracks, with these files and the checker."""
    with repository(files) as top:
        copy(top, "tools/*.py", "tools/reference_pages/*.py")
        for command in (["git", "init", "-q"], ["git", "add", "-A"]):
            subprocess.run(command, cwd=top, check=True)
        yield top


def check(top: Path, *options: str) -> Tuple[int, List[str]]:
    """The exit status of the checker of a repository, and the lines that it prints. Any program stands in for `far`."""
    return run(top / "tools/check_documents.py", "--program", sys.executable, *options)


def outcome(plant: Tuple[str, str, str, str]) -> Tuple[int, List[str]]:
    """What the checker says where a fault is planted."""
    document, text, other, _ = plant
    assert text in CLEAN[document], f"{document} has no {text!r}"
    with copy_with({**CLEAN, document: CLEAN[document].replace(text, other)}) as top:
        return check(top)


class CheckDocuments(unittest.TestCase):
    """Runs the checker on documents without a fault, and with one at a time."""

    def test_clean(self) -> None:
        with copy_with(CLEAN) as top:
            status, lines = check(top)
            self.assertEqual((status, lines[-1]), (0, "4 commands of 1 documents: no fault"))
            self.assertEqual(check(top, "--links"), (0, ["4 documents, 0 links that lead nowhere"]))

    def test_plants(self) -> None:
        for (_, _, _, line), (status, lines) in in_parallel(outcome, PLANTS):
            with self.subTest(line=line):
                self.assertEqual((status, lines[0][: len(line)]), (1, line))

    def test_no_program(self) -> None:
        with copy_with(CLEAN) as top:
            self.assertEqual(run(top / "tools/check_documents.py")[0], 2)

    def test_any_lines(self) -> None:
        self.assertTrue(is_output(["a", "..", "c"], ["a", "b", "b", "c"]))
        self.assertTrue(is_output(["..", "b", ".."], ["b"]))
        self.assertFalse(is_output(["a", "..", "c"], ["a", "b"]))
        self.assertFalse(is_output(["a", "..", "a"], ["a"]))
        self.assertFalse(is_output(["a"], ["a", "b"]))


if __name__ == "__main__":
    unittest.main()

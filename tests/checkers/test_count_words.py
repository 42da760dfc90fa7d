#!/usr/bin/env python3
"""Shows that tools/count_words.py counts words and sentences, and finds limits that are passed."""

import unittest
from typing import List, Tuple

import paths  # noqa: F401
from copies import check, repository
from count_words import counted, long_sentences

WORDS = "word " * 40
CLEAN = {
    "README.md": "# Title\n\nA sentence of six words here.\n\n```sh\n" + WORDS + "\n```\n",
    "docs/guide/meshes.md": "A page.\n",
    "docs/help.txt": "far refines meshes.\n",
    "docs/reference/laws.md": "word " * 30000,
    "crates/sums/README.md": "# sums\n\n```rust\nfn sum() {}\n```\n",
}

# A document, its text, and the lines that the counter has to print behind its table.
PLANTS = [
    ("README.md", "word. " * 901, ["README.md: 901 words, at most 900"]),
    ("docs/guide/tables.md", "word. " * 4999, ["docs/guide/*.md: 5001 words, at most 5000"]),
    ("crates/sums/README.md", "```rust\n" + "word " * 149 + "\n```\n", ["crates/sums/README.md: 151 words, at most 150"]),
    ("cases/README.md", "word. " * 251, ["cases/README.md: 251 words, at most 250"]),
    ("docs/tour.md", "A page.\n", ["docs/tour.md: no limit is set for this document"]),
    ("docs/guide/tables.md", "word " * 30 + "end.\n", [f"docs/guide/tables.md:1: a sentence of 31 words, at most 30: {'word ' * 8}.."]),
]


def outcome(plant: Tuple[str, str, List[str]]) -> Tuple[int, List[str]]:
    """What the counter says where a document has another text."""
    with repository({**CLEAN, plant[0]: plant[1]}) as top:
        return check("count_words", top)


def lengths(path: str, text: str) -> List[str]:
    """The first lines of documents' long sentences."""
    return [line.split(":")[1] for line in long_sentences(path, text)]


class CountWords(unittest.TestCase):
    """Runs the counter on documents within their limits, and on one that passes a limit."""

    def test_clean(self) -> None:
        with repository(CLEAN) as top:
            status, lines = check("count_words", top)
        self.assertEqual(status, 0)
        self.assertEqual(lines[0], "     8 of   900  README.md")
        self.assertEqual(lines[-1], "no limit is passed")
        self.assertEqual([line for line in lines if "reference" in line], [])

    def test_plants(self) -> None:
        for (document, _, wanted), (status, lines) in zip(PLANTS, map(outcome, PLANTS)):
            with self.subTest(document=document):
                self.assertEqual((status, lines[-len(wanted) :]), (1, wanted))
                self.assertTrue(lines[-len(wanted) - 1].endswith("  all"))

    def test_total(self) -> None:
        pages = {f"crates/c{number}/README.md": "word. " * 150 for number in range(167)}
        with repository({**CLEAN, **pages}) as top:
            status, lines = check("count_words", top)
        self.assertEqual((status, lines[-1]), (1, "all documents: 25062 words, at most 25000"))

    def test_words(self) -> None:
        text = "one two\n\n```\nthree four\n```\nfive\n"
        self.assertEqual(counted("docs/proofs.md", text).words, 3)
        self.assertEqual(counted("crates/sums/README.md", text).words, 7)

    def test_ends_of_sentences(self) -> None:
        thirty, more = "word " * 30, "word " * 31
        for text in [thirty, f"- {thirty}\n- {thirty}", f"| {thirty} | {thirty} |", f"# {thirty}\n{thirty}", f"{thirty}\n\n{thirty}"]:
            self.assertEqual(lengths("README.md", text), [])
        for end in [". ", "? ", "! "]:
            self.assertEqual(lengths("README.md", thirty.strip() + end + thirty), [])
        self.assertEqual(lengths("README.md", thirty.strip() + ": " + thirty), ["1"])
        self.assertEqual(lengths("README.md", f"\n\n{more}"), ["3"])
        self.assertEqual(lengths("README.md", f"{thirty} `a b c`"), ["1"])
        self.assertEqual(lengths("README.md", "word " * 29 + "`a b c`"), [])
        self.assertEqual(lengths("README.md", "word " * 29 + "[word](with/a/path.md)"), [])

    def test_help(self) -> None:
        thirty = "word " * 30
        text = f"  ./far refine depth=N [uv=WORD]\n      {thirty}\n      depth      {thirty}\n      uv         {thirty}\n"
        self.assertEqual(lengths("docs/help.txt", text), [])
        self.assertEqual(lengths("docs/help.txt", text + "                 and more\n"), ["4"])


if __name__ == "__main__":
    unittest.main()

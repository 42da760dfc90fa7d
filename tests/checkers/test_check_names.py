#!/usr/bin/env python3
"""Shows that tools/check_names.py finds names that no source declares."""

import unittest
from typing import List, Tuple

import paths  # noqa: F401
from copies import check, repository

CLEAN = {
    "crates.txt": "sums:\n",
    "crates/sums/src/lib.rt": "//! Sums.\n\npub fn sum(a: u32) -> u32\n    ensures total { result ≡ a }\n{\n    a\n}\n",
    "crates/sums/specs/Sum.antt": "-- Sums.\n\nabbrev pub sum_of : ℕ → ℕ\nsum_of n = n\n",
    "README.md": "`sum` of `sums` has the clause `total`, and `sum_of` of `Sum.antt` is its definition; `sum_of(a, b)`.\n",
    "docs/guide/meshes.md": "`far refine depth=1`, `sums::sum`\n\n```text\n`unheard`\n```\n",
    "docs/reference/laws.md": "`made_by_a_tool`\n",
    "crates/sums/README.md": "# sums\n",
    "crates/sums/src/refine.rt": "pub const DEPTH: u32 = 1;\npub struct Refine {\n    pub depth: u32,\n}\n",
}

# A document, its text, and the line that the checker has to print.
PLANTS = [
    ("README.md", "The call `total_sum` adds.\n", "README.md:1: `total_sum` is not defined"),
    ("docs/guide/meshes.md", "\nSee `sums::product`.\n", "docs/guide/meshes.md:2: `sums::product` is not defined"),
    ("docs/guide/meshes.md", "See `width=3`.\n", "docs/guide/meshes.md:1: `width=3` is not defined"),
    ("crates/sums/README.md", "See `tools/unheard.py`.\n", "crates/sums/README.md:1: `tools/unheard.py` is not defined"),
    ("README.md", "`total` of `Sum.antt` is none.\n", "README.md:1: `total` is not defined in `Sum.antt`"),
    ("CHANGELOG.md", "- `unheard`\n", "CHANGELOG.md:1: `unheard` is not defined"),
]


def outcome(plant: Tuple[str, str, str]) -> Tuple[int, List[str]]:
    """What the checker says where a document has another text."""
    with repository({**CLEAN, plant[0]: plant[1]}) as top:
        return check("check_names", top)


class CheckNames(unittest.TestCase):
    """Runs the checker on documents without a fault, and with one at a time."""

    def test_clean(self) -> None:
        with repository(CLEAN) as top:
            self.assertEqual(check("check_names", top), (0, ["all 8 pieces of code in the documents are known"]))

    def test_plants(self) -> None:
        for (_, _, line), found in zip(PLANTS, map(outcome, PLANTS)):
            with self.subTest(line=line):
                self.assertEqual(found, (1, [line]))


if __name__ == "__main__":
    unittest.main()

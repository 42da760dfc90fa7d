#!/usr/bin/env python3
"""Shows that tools/make_reference.py makes its pages from the sources, and finds pages that are not as the sources are."""

import tempfile
import unittest
from pathlib import Path
from typing import List, Tuple

from copies import copy, run, write
from paths import TOP

SUM = """//! Sums.

ghost use Rattle.sums.specs.Sum.{sum_of};

/// Returns the sum, which [`Total`] holds: less than `a < b`, or <b>.
///
/// It takes no memory.
#[inline]
pub fn sum<T: Copy>(
    a: T,
    b: T,
) -> Result<T, ()>
    // Both are small.
    requires fits { a + b < 2 ^ 32 }
    ensures { OnOk result
        (result \u2261 sum_of a b) }
{
    helper(a, b)
}

fn helper() {}

/// A total.
#[derive(Drop)]
pub struct Total {
    /// How many there are.
    pub count: u32,
    value: u32,
}

impl Model for Total {
    ghost Value = { \u2115 };

    ghost view = { \u03bb t. t.value };
}

impl Total {
    /// Returns the value.
    pub fn value(&self) -> u32 {
        self.value
    }

    fn hidden(&self) {}
}
"""

LAWS = """//! Laws.

/// A sum does not depend on the order.
pub fn sums_commute()
    ensures { sum_of a b \u2261 sum_of b a }
{}
"""

FILES = {
    "crates.txt": "subdiv_model:\nsums staticlib: subdiv_model\n",
    "crates/subdiv_model/src/lib.rt": "//! Definitions.\n",
    "crates/sums/src/lib.rt": "//! Sums of numbers. More on them.\n\npub mod laws;\nmod sum;\n\npub use sum::{Total, sum};\n",
    "crates/sums/src/sum.rt": SUM,
    "crates/sums/src/laws.rt": LAWS,
    "crates/sums/specs/Sum.antt": (
        "-- Sums.\n\n-- the sum of a | b\nabbrev pub sum_of : \u2115 \u2192 \u2115 \u2192 \u2115\nsum_of a b = a + b\n"
        "\npub data Side : Type 0 where\n  Left : Side\n  -- the other\n  Right : Side\n"
    ),
    "crates/sums/must-fail/one-less.edit": "file: src/sum.rt\nold: helper(a, b)\nnew: helper(b, b)\n",
}

# The page of the crate has these parts, one after another.
PARTS = [
    "# sums\n\nSums of numbers. More on them.\n",
    "| [`sum`](#sum) | Returns the sum, which [`Total`](#total) holds: less than `a < b`, or \\<b>. |\n",
    "### `sum`\n\n```rust\npub fn sum<T: Copy>(\n    a: T,\n    b: T,\n) -> Result<T, ()>\n```\n",
    "\nIt takes no memory.\n\n```rust\n// Both are small.\nrequires fits { a + b < 2 ^ 32 }\n",
    "ensures { OnOk result\n    (result \u2261 sum_of a b) }\n```\n",
    "\nDefinitions: [`sum_of`](../definitions/sums.md#sum).\n",
    "#[derive(Drop)]\npub struct Total {\n    /// How many there are.\n    pub count: u32,\n    // private fields\n}\n",
    "\n```rust\nimpl Model for Total {\n    ghost Value = { \u2115 };\n    ghost view = { \u03bb t. t.value };\n}\n```\n",
    "#### `Total::value`\n",
]


def make(top: Path, *options: str) -> Tuple[int, List[str]]:
    """The exit status of the script on a repository, and the lines that it prints."""
    return run(TOP / "tools/make_reference.py", "--top", str(top), *options)


class MakeReference(unittest.TestCase):
    """Makes the pages of a small repository, and plants faults in them."""

    folder: "tempfile.TemporaryDirectory[str]"
    top: Path

    @classmethod
    def setUpClass(cls) -> None:
        cls.folder = tempfile.TemporaryDirectory(prefix="reference-")
        cls.top = Path(cls.folder.name)
        copy(cls.top, "crates/far_words/src/*.rt", "docs/help.txt", "bindings/c/advice.c", "include/drillolive.h", "VERSION")
        copy(cls.top, "crates/subdiv_model/specs/Fault.antt", "crates/array_answers/specs/RecordTable.antt", "bindings/python/**/*.py")
        write(cls.top, FILES)
        make(cls.top)

    @classmethod
    def tearDownClass(cls) -> None:
        cls.folder.cleanup()

    def text(self, page: str) -> str:
        """The text of a page."""
        return (self.top / "docs/reference" / page).read_text(encoding="utf-8")

    def test_clean(self) -> None:
        status, lines = make(self.top, "--check")
        self.assertEqual((status, len(lines)), (0, 1))

    def test_faults(self) -> None:
        pages = self.top / "docs/reference"
        (pages / "laws.md").write_text("# Laws\n", encoding="utf-8")
        (pages / "edits.md").unlink()
        (pages / "calls/other.md").write_text("# Other\n", encoding="utf-8")
        write(self.top, {"crates/sums/src/sum.rt": SUM.replace("It takes no memory.", "It takes memory.")})
        wanted = ["calls/other.md is foreign", "calls/sums.md is stale", "edits.md is missing", "laws.md is stale"]
        self.assertEqual(make(self.top, "--check"), (1, [f"docs/reference/{line}" for line in wanted]))
        write(self.top, {"crates/sums/src/sum.rt": SUM})
        self.assertEqual(make(self.top)[1][0].split(", ")[1], "3 changed")
        self.assertEqual(make(self.top, "--check")[0], 0)

    def test_calls(self) -> None:
        text, at = self.text("calls/sums.md"), 0
        for part in PARTS:
            self.assertIn(part, text[at:])
            at = text.index(part, at) + len(part)
        self.assertNotIn("helper", text)
        self.assertNotIn("hidden", text)

    def test_other_pages(self) -> None:
        texts = {path.name: self.text(path.name) for path in (self.top / "docs/reference").glob("*.md")}
        definitions = self.text("definitions/sums.md")
        self.assertIn("## sums\n\n### `sums_commute`\n\nA sum does not depend on the order.\n", texts["laws.md"])
        self.assertIn("- helper(a, b)\n+ helper(b, b)\n", texts["edits.md"])
        self.assertIn("| `sum_of : \u2115 \u2192 \u2115 \u2192 \u2115` | the sum of a \\| b |\n", definitions)
        self.assertIn("| `Side : Type 0` | Constructors: `Left`, `Right` (the other). |\n", definitions)
        self.assertIn("## Interface for C\n", texts["crates.md"])
        counts = "[2](calls/sums.md) | [1](laws.md#sums) | [1](edits.md#sums)"
        self.assertIn(f"| [`sums`](calls/sums.md) | Sums of numbers. | `subdiv_model` | {counts} |\n", texts["crates.md"])
        self.assertIn("| `depth` | 0 to 10 | required |", texts["options.md"])
        self.assertIn("| `-d N, --depth N` | | required |", texts["options.md"])
        self.assertIn("| 5 | 0 | `far: line LINE: bad numeral` |", texts["refusals.md"])
        for text in [*texts.values(), definitions]:
            self.assertNotRegex(text, r"[ \t]\n")


if __name__ == "__main__":
    unittest.main()

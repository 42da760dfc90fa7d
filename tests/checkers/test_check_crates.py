#!/usr/bin/env python3
"""Shows that tools/check_crates.py finds each fault of a page and of a doc comment."""

import unittest
from typing import List, Tuple

import paths  # noqa: F401
from copies import check, repository

PAGE = """# sums

Adds numbers. A caller needs it for totals.

[Calls and clauses](../../docs/reference/calls/sums.md).

## Example

The sum of two numbers, from `crates/sums/src/sum.rt`.

```rust
pub fn sum(a: u32, b: u32) -> u32
    requires fits { a + b < 2 ^ 32 }
    ensures { result ≡ a + b }
{
    a + b
}
```
"""

SUM = """//! Sums.

/// Returns the sum.
pub fn sum(a: u32, b: u32) -> u32
    requires fits { a + b < 2 ^ 32 }
    ensures { result ≡ a + b }
{
    a + b
}

/// A total.
#[derive(Drop)]
pub struct Total {
    value: u32,
}

impl Total {
    /// Returns the value.
    pub fn value(&self) -> u32 {
        self.value
    }
}

// Nobody outside reaches this one.
pub fn helper() {}
"""

CLEAN = {
    "crates.txt": "# Crates.\nsums:\n",
    "crates/sums/README.md": PAGE,
    "crates/sums/src/lib.rt": "//! Sums of numbers.\n\nmod sum;\n\npub use sum::{Total, sum};\n",
    "crates/sums/src/sum.rt": SUM,
}

NO_SOURCE = "no file that the part names has the block at `pub fn sum(a: u32, b: u32) -> u32`"

# A file, a text in it, what takes its place, and the line that the checker has to print.
PLANTS = [
    ("README.md", "    a + b\n}\n```", "    b + a\n}\n```", NO_SOURCE),
    ("README.md", "`crates/sums/src/sum.rt`", "the source", NO_SOURCE),
    ("README.md", "# sums\n", "# Sums\n", "README.md does not begin with the name"),
    ("README.md", "calls/sums.md", "calls/others.md", "README.md does not link to the page of the crate's calls"),
    ("README.md", "## Example", "## Examples", "README.md has no part `Example`"),
    ("README.md", "Adds numbers.", "Adds numbers." + " Word." * 120, "README.md has 176 words, at most 150"),
    ("src/sum.rt", "/// Returns the sum.\n", "", "`sum` has no doc comment"),
    ("src/sum.rt", "/// Returns the sum.\n", "// Returns the sum.\n", "`sum` has no doc comment"),
    ("src/sum.rt", "    /// Returns the value.\n", "", "`Total::value` has no doc comment"),
    ("src/sum.rt", "/// A total.\n", "/// The same of a total.\n", "`Total` has a doc comment that begins with `The same`"),
    ("src/sum.rt", "/// A total.\n", "/// What is told of a total.\n", "`Total` has a doc comment that begins with `What is told`"),
    ("src/sum.rt", "/// A total.\n", "/// A total\n", "`Total` has a doc comment that does not end with a period"),
    ("src/lib.rt", "//! Sums of numbers.", "// Sums of numbers.", "the crate has no doc comment"),
]


def outcome(plant: Tuple[str, str, str, str]) -> Tuple[int, List[str]]:
    """What the checker says where a fault is planted."""
    file, text, other, _ = plant
    name = f"crates/sums/{file}"
    assert text in CLEAN[name], f"{name} has no {text!r}"
    with repository({**CLEAN, name: CLEAN[name].replace(text, other, 1)}) as top:
        return check("check_crates", top)


class CheckCrates(unittest.TestCase):
    """Runs the checker on a crate without a fault, and with one at a time."""

    def test_clean(self) -> None:
        with repository(CLEAN) as top:
            self.assertEqual(check("check_crates", top), (0, ["1 crates, 4 doc comments: no fault"]))

    def test_plants(self) -> None:
        for (_, _, _, line), found in zip(PLANTS, map(outcome, PLANTS)):
            with self.subTest(line=line):
                self.assertEqual(found, (1, [f"sums: {line}"]))

    def test_no_page(self) -> None:
        files = {name: text for name, text in CLEAN.items() if not name.endswith("README.md")}
        with repository(files) as top:
            self.assertEqual(check("check_crates", top), (1, ["sums: there is no README.md"]))

    def test_block_of_another_crate(self) -> None:
        page = PAGE.replace("crates/sums/src/sum.rt", "crates/others/src/lib.rt")
        page = page[: page.index("```rust")] + "```rust\nfn other() {}\n```\n"
        with repository({**CLEAN, "crates/sums/README.md": page, "crates/others/src/lib.rt": "fn other() {}\n"}) as top:
            line = "sums: the block at `fn other() {}` names neither the crate nor an item of it"
            self.assertEqual(check("check_crates", top), (1, [line]))


if __name__ == "__main__":
    unittest.main()

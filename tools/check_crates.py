#!/usr/bin/env python3
"""Checks the README.md and the doc comments of each crate of crates.txt.

    tools/check_crates.py
    tools/check_crates.py --top ../copy

README.md of a crate
- begins with the name of the crate and, unless the crate has only tests or a program, links to its page of docs/reference;
- has a part `Example`, and at most 150 words in all;
- has blocks of rust or antt. Each is an excerpt, but for its indentation, of a source file that the text of its part names,
  and names the crate or one of its public items, unless the file is one of the crate.

The comment of lib.rt, each public function, method, type, trait and constant, and each law has a doc comment of its own. It ends
with a period, and begins with no word that leans on another comment.

It prints a line for each fault and ends with status 1, or one line with the counts and ends with 0.
"""

import argparse
import re
import sys
import textwrap
from pathlib import Path
from typing import Iterator, List, NamedTuple, Optional, Set, Tuple

from reference_pages.comments import TARGET
from reference_pages.crates import PROGRAM, TESTS, Crate, read_crates

WORD_LIMIT = 150
BEGINNINGS = "The same", "What is told", "As above", "Likewise"
FENCE = re.compile(r"^```(rust|antt)\n(.*?)^```$", re.MULTILINE | re.DOTALL)
SPAN = re.compile(r"`([^`]+)`")
SUFFIXES = {"rust": ".rt", "antt": ".antt"}


class Block(NamedTuple):
    """A block of code in a README.md: its kind, its text, and the text of its part."""

    kind: str
    text: str
    part: str


# README.md


def hide_headings(fence: "re.Match[str]") -> str:
    """A block in which no line looks like a heading."""
    return fence[0].replace("\n#", "\n\0#")


def blocks_of(text: str) -> List[Block]:
    """The blocks of rust and antt, each with its part."""
    blocks = []
    for part in re.split(r"^(?=#+ )", FENCE.sub(hide_headings, text), flags=re.MULTILINE):
        for kind, code in FENCE.findall(part):
            blocks.append(Block(kind, code.replace("\0", ""), FENCE.sub("", part)))
    return blocks


def is_excerpt(code: str, path: Path) -> bool:
    """Whether the file has the lines of the code, one after another, but for common indentation."""
    lines = path.read_text(encoding="utf-8").split("\n")
    wanted = code.rstrip("\n").split("\n")
    for at in range(len(lines) - len(wanted) + 1):
        if lines[at].strip() == wanted[0].strip():
            if textwrap.dedent("\n".join(lines[at : at + len(wanted)])) == "\n".join(wanted):
                return True
    return False


def named_files(top: Path, block: Block) -> List[Path]:
    """The source files that the part of a block names."""
    spans = [span for span in SPAN.findall(block.part) if span.startswith("crates/") and span.endswith(SUFFIXES[block.kind])]
    return [top / span for span in spans if (top / span).is_file() and "/out/" not in span]


def names_of(crate: Crate) -> Set[str]:
    """The name of a crate and those of its public items and laws."""
    return {crate.name} | {item.name for item in crate.items + crate.laws} | {name for name, _ in crate.reexports}


def check_block(top: Path, crate: Crate, block: Block) -> Iterator[str]:
    """What is wrong with a block."""
    files = [path for path in named_files(top, block) if is_excerpt(block.text, path)]
    first = block.text.split("\n")[0].strip()
    if not files:
        yield f"no file that the part names has the block at `{first}`"
    elif not any(path.is_relative_to(top / "crates" / crate.name) for path in files):
        if not names_of(crate) & set(re.findall(r"\w+", block.text)):
            yield f"the block at `{first}` names neither the crate nor an item of it"


def check_readme(top: Path, crate: Crate, text: str) -> Iterator[str]:
    """What is wrong with the README.md of a crate."""
    if text.split("\n")[0] != f"# {crate.name}":
        yield "README.md does not begin with the name"
    if crate.kind not in (TESTS, PROGRAM) and f"](../../docs/reference/calls/{crate.name}.md)" not in text:
        yield "README.md does not link to the page of the crate's calls"
    if "\n## Example\n" not in text:
        yield "README.md has no part `Example`"
    blocks = blocks_of(text)
    if not blocks:
        yield "README.md has no example"
    for block in blocks:
        yield from check_block(top, crate, block)
    words = len(text.split())
    if words > WORD_LIMIT:
        yield f"README.md has {words} words, at most {WORD_LIMIT}"


# Doc comments


def documented(crate: Crate) -> Iterator[Tuple[str, str]]:
    """What has a doc comment of its own: its title, and the comment."""
    yield "the crate", crate.doc
    for item in [*crate.items, *crate.laws, *(call for call in crate.calls if call.owner)]:
        yield f"`{item.title}`", item.doc


def fault_of_comment(doc: str) -> Optional[str]:
    """What is wrong with a doc comment."""
    doc = TARGET.sub("", doc).strip()
    if not doc:
        return "has no doc comment"
    for beginning in BEGINNINGS:
        if doc.startswith(beginning):
            return f"has a doc comment that begins with `{beginning}`"
    return None if doc.endswith((".", "```", "|")) else "has a doc comment that does not end with a period"


def check_comments(crate: Crate) -> Iterator[str]:
    """What is wrong with the doc comments of a crate."""
    for title, doc in documented(crate):
        fault = fault_of_comment(doc)
        if fault:
            yield f"{title} {fault}"


# The program


def check_crate(top: Path, crate: Crate) -> Iterator[str]:
    """What is wrong with a crate."""
    path = top / "crates" / crate.name / "README.md"
    if path.is_file():
        yield from check_readme(top, crate, path.read_text(encoding="utf-8"))
    else:
        yield "there is no README.md"
    yield from check_comments(crate)


def main() -> int:
    parser = argparse.ArgumentParser(description="Checks the README.md and the doc comments of each crate.")
    parser.add_argument("--top", type=Path, default=Path(__file__).resolve().parent.parent, help="the repository")
    top = parser.parse_args().top.resolve()
    crates = read_crates(top)
    faults = [f"{crate.name}: {fault}" for crate in crates for fault in check_crate(top, crate)]
    if faults:
        print("\n".join(faults))
        return 1
    print(f"{len(crates)} crates, {sum(1 for crate in crates for _ in documented(crate))} doc comments: no fault")
    return 0


if __name__ == "__main__":
    sys.exit(main())

"""The page of laws, that of wrong bodies, and the table of crates."""

from typing import Dict, List

from .calls import clauses_block
from .comments import Comments
from .crates import DEFINITIONS, Crate
from .definitions import Links
from .markdown import code, fenced, link, page, table
from .rattle import Item


def laws_of(crate: Crate) -> List[Item]:
    """The laws of a crate. The examples of a crate of definitions are none."""
    return [] if crate.kind == DEFINITIONS else crate.laws


def page_of_laws(crates: List[Crate], links: Links, comments: Comments) -> str:
    """The page of laws: a part for each crate."""
    lines = ["# Laws", "", "A law is a public function that does nothing: its clauses hold, and the prover has checked them."]
    having = [crate for crate in crates if laws_of(crate)]
    rows = [
        [link(code(it.name), f"#{it.name}"), str(len(laws_of(it))), comments.sentence(it.doc, it.name, False)] for it in having
    ]
    lines += ["", *table(["Crate", "Laws", "Purpose"], rows)]
    for crate in having:
        lines += ["", f"## {crate.name}"]
        for item in laws_of(crate):
            lines += ["", f"### {code(item.name)}", "", *comments.lines(item.doc, crate.name, False), *clauses_block(item, links, "")]
    return page(lines)


def page_of_edits(crates: List[Crate]) -> str:
    """The page of the wrong bodies that the prover has to refuse."""
    lines = ["# Wrong bodies that the prover must refuse", ""]
    lines.append("`rt ci` makes each of these edits, one at a time, and fails where the prover accepts the result.")
    for crate in [crate for crate in crates if crate.edits]:
        lines += ["", f"## {crate.name}"]
        for path in crate.edits:
            lines += ["", f"### {path.stem}", "", *edit_lines(path.read_text(encoding="utf-8"), crate.name)]
    return page(lines)


def edit_lines(text: str, crate: str) -> List[str]:
    """An edit as a block with the lines that go and those that come."""
    file, block, sign = "", [], " "
    for line in text.rstrip("\n").split("\n"):
        head, colon, rest = line.partition(":")
        if colon and head in ("file", "old", "new") and not line.startswith(" "):
            sign = {"old": "-", "new": "+"}.get(head, " ")
            file = rest.strip() if head == "file" else file
            if head == "file" or not rest.strip():
                continue
            line = rest[1:] if rest.startswith(" ") else rest
        block.append(f"{sign} {line}".rstrip())
    path = f"crates/{crate}/{file}"
    return [link(code(path), f"../../{path}") + ":", "", *fenced("diff", block)]


def nearest_below(crate: Crate, crates: List[Crate]) -> List[str]:
    """The crates that a crate depends on, without those that it depends on through another one."""
    further = {name for other in crates if other.name in crate.below for name in other.below}
    return [name for name in crate.below if name not in further]


def crate_row(crate: Crate, crates: List[Crate], comments: Comments) -> List[str]:
    """The row of a crate."""
    below = ", ".join(code(name) for name in nearest_below(crate, crates))
    purpose = comments.sentence(crate.doc, crate.name, False)
    counts = {"calls/{}.md": len(crate.calls), "laws.md#{}": len(laws_of(crate)), "edits.md#{}": len(crate.edits)}
    links = [link(str(count), to.format(crate.name)) if count else "" for to, count in counts.items()]
    return [link(code(crate.name), f"calls/{crate.name}.md"), purpose, below, *links]


KINDS: Dict[str, str] = {
    "definitions": "Definitions",
    "laws": "Laws",
    "code": "Code",
    "tests": "Tests",
    "interface": "Interface for C",
    "program": "Program",
    "example": "Example",
}


def page_of_crates(crates: List[Crate], comments: Comments) -> str:
    """The table of crates, a part for each kind."""
    lines = ["# Crates", "", "The crates of `crates.txt`, by kind. A crate also depends on the crates below those that its row names."]
    for kind, title in KINDS.items():
        rows = [crate_row(crate, crates, comments) for crate in crates if crate.kind == kind]
        if rows:
            lines += ["", f"## {title}", "", *table(["Crate", "Purpose", "Depends on", "Calls", "Laws", "Edits"], rows)]
    return page(lines)

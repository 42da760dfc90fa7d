"""The pages of the calls of each crate."""

from pathlib import Path
from typing import Dict, Iterable, Iterator, List

from .comments import Comments, parts_of
from .crates import DEFINITIONS, LAWS, PROGRAM, TESTS, Crate, Implementation
from .definitions import Links
from .markdown import code, fenced, link, page, table
from .rattle import Clause, Item

def clause_lines(clauses: List[Clause]) -> Iterator[str]:
    """The lines of clauses, as in the source."""
    for clause in clauses:
        if clause.comment:
            yield f"// {clause.comment}"
        name = f"{clause.kind} {clause.name}".rstrip()
        yield from f"{name} {clause.text}".split("\n")


def definitions_line(file: Path, text: str, links: Links, up: str) -> List[str]:
    """Links to the definitions that a text of a source names."""
    named = [link(code(name), links.link(crate, origin, up)) for name, (crate, origin) in links.named(file, text)]
    return ["", "Definitions: " + ", ".join(named) + "."] if named else []


def clauses_block(item: Item, links: Links, up: str) -> List[str]:
    """The clauses of a function, and links to the definitions that they name."""
    if not item.clauses:
        return []
    lines = ["", *fenced("rust", clause_lines(item.clauses))]
    return lines + definitions_line(item.file, "\n".join(clause.text for clause in item.clauses), links, up)


def type_lines(item: Item) -> Iterator[str]:
    """A type as in the source, without the fields that callers do not reach."""
    yield from item.attributes
    hidden, doc = False, []
    for line in item.lines:
        text = line.strip()
        if text.startswith(("///", "#[")):
            doc.append(line)
        elif item.kind == "struct" and line.startswith("    ") and not line.startswith(("     ", "    pub ", "    ghost ")):
            hidden, doc = True, []
        elif not (text.startswith("//") or hidden and line.startswith("     ")):
            if line == "}" and hidden:
                yield "    // private fields"
            yield from [*doc, line]
            doc = []


def trait_lines(item: Item) -> Iterator[str]:
    """A trait as in the source, without its functions, which have parts of their own."""
    yield item.lines[0]
    for member in item.members:
        if member.kind in ("ghost", "type", "const"):
            yield from (f"    /// {line}".rstrip() for line in member.doc.split("\n") if member.doc)
            yield from member.lines
    yield "}"


def implementation_lines(implementation: Implementation) -> Iterator[str]:
    """An implementation as in the source: its ghost members, and the clauses of its functions."""
    if not implementation.ghosts and not implementation.functions:
        yield f"{implementation.head} {{}}"
        return
    yield f"{implementation.head} {{"
    for ghost in implementation.ghosts:
        yield from indented(ghost.text.split("\n"), 4)
    for item in implementation.functions:
        yield from indented(item.signature.split("\n"), 4)
        yield from indented(clause_lines(item.clauses), 8)
    yield "}"


def indented(lines: Iterable[str], blanks: int) -> Iterator[str]:
    """Lines with blanks at their left."""
    return (" " * blanks + line for line in lines)


class CallsPage:
    """The page of the calls of a crate, as it is put together."""

    def __init__(self, crate: Crate, links: Links, comments: Comments) -> None:
        self.crate, self.links, self.comments = crate, links, comments
        self.lines: List[str] = []

    def index(self) -> List[str]:
        """The table of all items, each with the first sentence of its comment."""
        name, rows = self.crate.name, []
        for items in parts_of(self.crate).values():
            for it in [it for item in items for it in (item, *self.crate.methods_of(item))]:
                to = self.comments.target(it.title, name, True)
                rows.append([link(code(it.title), to), self.comments.sentence(it.doc, name)])
        return ["", *table(["Item", "Summary"], rows)]

    def doc(self, item: Item) -> List[str]:
        """The doc comment of an item, and its module where callers name that."""
        module = ["", f"It is in the module {code(item.file.stem)}."] if item in self.crate.in_modules else []
        return self.comments.lines(item.doc, self.crate.name) + module

    def add_call(self, item: Item, marks: str) -> None:
        """Adds the part of a function or a method."""
        self.lines += ["", f"{marks} {code(item.title)}", "", *fenced("rust", item.signature.split("\n"))]
        self.lines += ["", *self.doc(item), *clauses_block(item, self.links, "../")]

    def add_type(self, item: Item) -> None:
        """Adds the part of a type, a trait or a constant, with its methods."""
        lines = list(trait_lines(item) if item.kind == "trait" else type_lines(item))
        self.lines += ["", f"### {code(item.name)}", "", *fenced("rust", lines), "", *self.doc(item)]
        implementations = self.crate.implementations.get(item.name, [])
        if implementations:
            shown = [line for it in implementations for line in implementation_lines(it)]
            self.lines += ["", *fenced("rust", shown)]
            self.lines += definitions_line(implementations[0].file, "\n".join(shown), self.links, "../")
        for method in self.crate.methods_of(item):
            self.add_call(method, "####")

    def add_links(self) -> None:
        """Adds links to what else there is of the crate."""
        name = self.crate.name
        to = [link("README", f"../../../crates/{name}/README.md")]
        if self.crate.laws and self.crate.kind != DEFINITIONS:
            to.append(link("laws", f"../laws.md#{name}"))
        if self.links.has_page(name):
            to.append(link("definitions", self.links.crate_link(name, "../")))
        if self.crate.edits:
            to.append(link("edits", f"../edits.md#{name}"))
        self.lines += ["", "See also: " + ", ".join(to) + "."]

    def add_examples(self) -> None:
        """Adds the examples of a crate of definitions."""
        if self.crate.kind == DEFINITIONS:
            self.lines += ["", "## Examples", "", "The prover checks each of these clauses."]
            for item in self.crate.laws:
                self.lines += ["", f"### {code(item.name)}", "", *self.doc(item), *clauses_block(item, self.links, "../")]

    def add_reexports(self) -> None:
        """Adds the names that the crate exports from others."""
        if self.crate.reexports:
            rows = [[code(name), link(code(origin), f"{origin}.md")] for name, origin in self.crate.reexports]
            self.lines += ["", "## Names of other crates", "", *table(["Name", "Crate"], rows)]

    def text(self) -> str:
        """The page."""
        self.lines = [f"# {self.crate.name}", "", *self.comments.lines(self.crate.doc, self.crate.name)]
        self.add_links()
        self.lines += self.index() if self.crate.items else ["", nothing_public(self.crate)]
        for title, items in parts_of(self.crate).items():
            self.lines += ["", f"## {title}"]
            for item in items:
                if item.kind == "fn":
                    self.add_call(item, "###")
                else:
                    self.add_type(item)
        self.add_reexports()
        self.add_examples()
        return page(self.lines)


def nothing_public(crate: Crate) -> str:
    """Why a crate has no calls."""
    return {
        TESTS: "The crate has no public calls. It contains tests.",
        PROGRAM: "The crate has no public calls. It is a program.",
        LAWS: "The crate has no public calls. It contains definitions and laws.",
        DEFINITIONS: "The crate has no public calls. It contains definitions and examples.",
    }.get(crate.kind, "The crate has no public calls.")


def pages_of_calls(crates: List[Crate], links: Links, comments: Comments) -> Dict[str, str]:
    """A page for each crate."""
    return {f"calls/{crate.name}.md": CallsPage(crate, links, comments).text() for crate in crates}

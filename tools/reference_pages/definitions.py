"""Reads the public definitions of crates, and makes their pages."""

import re
from dataclasses import dataclass
from pathlib import Path
from typing import Dict, Iterator, List, Set, Tuple

from .comments import Comments
from .crates import DEFINITIONS, Crate
from .markdown import code, escaped, link, page, table

PART = re.compile(r"  (?:pub )?([\w-]+) : ")
PUBLIC = re.compile(r"(?:abbrev |unfoldable )?pub (?:record |data )?(?!mod |use )(\S+)(.*)")
USE = re.compile(r"use Rattle\.(\w+)\.specs\.(\w+)(?:\.\{([^}]*)\}| as (\w+))")
WORD = re.compile(r"[^\s(){}\[\].,;:λ]+(?:\.[^\s(){}\[\].,;:λ]+)?")
PAGE, INDEX = "definitions.md", "definition_index.md"


@dataclass(frozen=True)
class Definition:
    """A public definition: its name, its type as it is declared, the comment above it, and the constructors of a data type
    or the fields of a record, each with its comment."""

    name: str
    type: str
    comment: str
    parts: List[Tuple[str, str]]


@dataclass(frozen=True)
class File:
    """A file of definitions: its crate, its name without the suffix, the comment at its head, its definitions, and the
    files from which it hands on names."""

    crate: str
    name: str
    comment: str
    definitions: List[Definition]
    handed_on: Dict[str, Tuple[str, str]]


def comment_above(lines: List[str], at: int) -> str:
    """The comment right above a line, at the same indentation."""
    first, mark = at, " " * (len(lines[at]) - len(lines[at].lstrip())) + "--" if at < len(lines) else "--"
    while first > 0 and lines[first - 1].startswith(mark):
        first -= 1
    return "\n".join(line.strip().lstrip("-").strip() for line in lines[first:at])


def parts_at(lines: List[str], at: int) -> Iterator[Tuple[str, str]]:
    """The constructors or the fields of the type that is declared at a line, each with the comment above it."""
    if lines[at].startswith(("pub data ", "pub record ")):
        for place in range(at + 1, len(lines)):
            part = PART.match(lines[place])
            if part:
                yield part[1], comment_above(lines, place)
            elif not lines[place].startswith("  "):
                return


def declared_type(lines: List[str], at: int, rest: str) -> str:
    """The type of a definition: the text behind its name, up to its fields or its equations."""
    parts = [rest.strip()]
    while lines[at + 1 : at + 2] and lines[at + 1].startswith("    ") and not parts[-1].endswith("where"):
        at += 1
        parts.append(lines[at].strip())
    return re.sub(r" where$", "", " ".join(parts)).strip()


def read_file(path: Path) -> File:
    """Reads a file of definitions."""
    lines = path.read_text(encoding="utf-8").split("\n")
    found = []
    for at, line in enumerate(lines):
        match = PUBLIC.match(line)
        if match:
            parts = list(parts_at(lines, at))
            found.append(Definition(match[1], declared_type(lines, at, match[2]), comment_above(lines, at), parts))
    head = comment_above(lines, next((at for at, line in enumerate(lines) if not line.startswith("--")), 0))
    handed_on = {
        name.strip(): (crate, file)
        for crate, file, listed, _ in USE.findall("\n".join(line for line in lines if line.startswith("pub use ")))
        for name in listed.split(",")
        if name.strip()
    }
    return File(path.parent.parent.name, path.stem, head, found, handed_on)


def read_files(top: Path, crates: List[Crate]) -> Dict[str, List[File]]:
    """The files of each crate that have public definitions."""
    found = {}
    for crate in crates:
        files = [read_file(path) for path in sorted((top / "crates" / crate.name / "specs").glob("*.antt"))]
        found[crate.name] = [file for file in files if file.definitions or file.handed_on]
    return found


def names_of(file: File) -> Set[str]:
    """The names that a file defines: its definitions, and the constructors of its data types."""
    constructors = {name for it in file.definitions for name, _ in it.parts if name[0].isupper()}
    return constructors | {it.name for it in file.definitions}


def meaning_of(it: Definition) -> str:
    """The comment of a definition, with its constructors or its fields."""
    if not it.parts:
        return escaped(it.comment)
    title = "Fields" if it.parts[0][0][0].islower() else "Constructors"
    listed = ", ".join(code(name) + (f" ({escaped(comment)})" if comment else "") for name, comment in it.parts)
    return f"{escaped(it.comment)}{'' if it.comment.endswith('.') or not it.comment else '.'} {title}: {listed}.".strip()


class Links:
    """The places of definitions on the pages."""

    def __init__(self, crates: List[Crate], files: Dict[str, List[File]]) -> None:
        self.files = files
        self.models = [crate.name for crate in crates if crate.kind == DEFINITIONS]
        self.names = {(crate, file.name): names_of(file) for crate, some in files.items() for file in some}
        self.handed_on = {(crate, file.name): file.handed_on for crate, some in files.items() for file in some}
        self.uses: Dict[Path, Dict[str, Tuple[str, str]]] = {}
        self.aliases: Dict[Path, Dict[str, Tuple[str, str]]] = {}

    def has_page(self, crate: str) -> bool:
        """Whether a crate has public definitions."""
        return bool(self.files.get(crate))

    def page_of(self, crate: str) -> str:
        """The page with the definitions of a crate."""
        return PAGE if crate in self.models else f"definitions/{crate}.md"

    def crate_link(self, crate: str, up: str = "") -> str:
        """The link to the definitions of a crate."""
        return up + self.page_of(crate) + (f"#{crate}" if crate in self.models else "")

    def link(self, crate: str, file: str, up: str = "") -> str:
        """The link to the definitions of a file."""
        return up + self.page_of(crate) + "#" + heading_of(crate, file, crate in self.models).replace(" ", "-").lower()

    def read_uses(self, path: Path) -> None:
        """Reads which names a source takes from which files of definitions."""
        names: Dict[str, Tuple[str, str]] = {}
        aliases: Dict[str, Tuple[str, str]] = {}
        for crate, file, listed, alias in USE.findall(path.read_text(encoding="utf-8")):
            if alias:
                aliases[alias] = (crate, file)
            for name in listed.split(","):
                names[name.strip()] = (crate, file)
        self.uses[path], self.aliases[path] = names, aliases

    def named(self, path: Path, text: str) -> List[Tuple[str, Tuple[str, str]]]:
        """The definitions that a clause of a source names, each with its crate and file, in the order of the text."""
        if path not in self.uses:
            self.read_uses(path)
        found: Dict[str, Tuple[str, str]] = {}
        for word in WORD.findall(text):
            first, _, rest = word.partition(".")
            origin, name = (self.aliases[path][first], rest) if first in self.aliases[path] else (self.uses[path].get(first), first)
            origin = self.handed_on.get(origin, {}).get(name, origin) if origin else origin
            if origin and name in self.names.get(origin, ()):
                found.setdefault(name, origin)
        return list(found.items())


def heading_of(crate: str, file: str, is_model: bool) -> str:
    """The heading of a file of definitions."""
    return f"{crate} {file}" if is_model else file


def file_lines(links: Links, file: File, marks: str, up: str) -> Iterator[str]:
    """The part of a file."""
    is_model = file.crate in links.models
    yield from ["", f"{marks} {heading_of(file.crate, file.name, is_model)}", ""]
    path = f"crates/{file.crate}/specs/{file.name}.antt"
    yield f"{link(code(path), f'{up}../../{path}')}: {escaped(' '.join(file.comment.split()))}"
    if file.definitions:
        rows = [[code(f"{it.name} {it.type}".strip()), meaning_of(it)] for it in file.definitions]
        yield from ["", *table(["Definition", "Meaning"], rows)]
    if file.handed_on:
        names = ", ".join(link(code(name), links.link(*origin, up)) for name, origin in file.handed_on.items())
        yield from ["", f"The file also exports {names}."]


def page_of_models(crates: List[Crate], links: Links, comments: Comments) -> str:
    """The page with the definitions of the models, and a table of the crates that have others."""
    lines = ["# Definitions", "", "The public definitions of the crates, by crate and file, each with its type and the comment above it."]
    lines += ["", f"{link('All names', INDEX)}, in the order of the alphabet."]
    for name in links.models:
        doc = next(crate.doc for crate in crates if crate.name == name)
        lines += ["", f"## {name}", "", *comments.lines(doc, name, False)]
        for file in links.files[name]:
            lines += file_lines(links, file, "###", "")
    rows = []
    for crate in crates:
        if links.has_page(crate.name) and crate.name not in links.models:
            count = sum(len(file.definitions) for file in links.files[crate.name])
            rows.append([link(code(crate.name), links.page_of(crate.name)), str(count), comments.sentence(crate.doc, crate.name, False)])
    return page([*lines, "", "## Other crates", "", *table(["Crate", "Definitions", "Purpose"], rows)])


def page_of_crate(crate: Crate, links: Links, comments: Comments) -> str:
    """The page with the definitions of a crate."""
    lines = [f"# Definitions of {crate.name}", "", comments.sentence(crate.doc, crate.name, False).replace("](calls/", "](../calls/")]
    for file in links.files[crate.name]:
        lines += file_lines(links, file, "##", "../")
    return page(lines)


def page_of_names(links: Links) -> str:
    """The page with all names in the order of the alphabet."""
    found: Dict[str, List[str]] = {}
    for crate, files in links.files.items():
        for file in files:
            for name in names_of(file):
                found.setdefault(name, []).append(link(f"{crate}/{file.name}", links.link(crate, file.name)))
    lines = ["# Index of definitions", ""]
    lines.append(f"Each public definition with its crate and file. {link('The definitions', PAGE)} give their meaning.")
    letter = ""
    for name in sorted(found, key=lambda name: (name.lower(), name)):
        if name[0].lower() != letter:
            letter = name[0].lower()
            lines += ["", f"## {letter.upper()}", ""]
        lines.append(f"- {code(name)}: {', '.join(found[name])}")
    return page(lines)


def pages_of_definitions(crates: List[Crate], links: Links, comments: Comments) -> Dict[str, str]:
    """The pages of definitions."""
    pages = {PAGE: page_of_models(crates, links, comments), INDEX: page_of_names(links)}
    for crate in crates:
        if links.has_page(crate.name) and crate.name not in links.models:
            pages[links.page_of(crate.name)] = page_of_crate(crate, links, comments)
    return pages

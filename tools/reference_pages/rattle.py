"""Reads the sources of crates: items of Rattle with their comments and clauses, and what callers of a crate reach.

The sources have the form that `rt fmt` gives them: items begin at the left edge, members of types four blanks further in.
"""

import re
from dataclasses import dataclass, field
from pathlib import Path
from typing import Iterator, List, Optional, Sequence, Tuple

EXPORTED = 'pub extern "C" '
HEAD = re.compile(
    rf"(?P<visibility>{EXPORTED}|pub\([a-z]+\) |pub )?(?:const |unsafe )?"
    r"(?P<kind>fn|struct|enum|trait|type|const|static|impl|mod|use|macro_rules(?=!)|ghost use|ghost)\b!? *(?P<name>\w*)"
)
CLAUSE = re.compile(r" *(requires|ensures)(?: (\w+))? \{")
STRING = re.compile(r'"(?:[^"\\]|\\.)*"')


@dataclass(frozen=True)
class Clause:
    """A clause of a function: requires or ensures, its name (empty where it has none), its text with braces, the comment above it."""

    kind: str
    name: str
    text: str
    comment: str = ""


@dataclass(frozen=True)
class Ghost:
    """A ghost member of a type or a trait: its name, its text as in the source, and its doc comment."""

    name: str
    text: str
    doc: str


@dataclass
class Item:
    """An item of a source, with the items within it where it is an implementation or a trait."""

    kind: str
    name: str
    visibility: str
    doc: str
    attributes: List[str]
    lines: List[str]
    file: Path
    line: int
    trait: Optional[str] = None
    owner: Optional[str] = None
    members: List["Item"] = field(default_factory=list)

    @property
    def title(self) -> str:
        """The name after the type or trait that it belongs to."""
        return f"{self.owner}::{self.name}" if self.owner else self.name

    @property
    def signature(self) -> str:
        """The head of a function before its clauses and its body; of another item the first line."""
        return "\n".join(head_of(self.lines))

    @property
    def clauses(self) -> List[Clause]:
        """The clauses of a function, in their order."""
        return list(clauses_of(self.lines)) if self.kind == "fn" else []

    @property
    def is_law(self) -> bool:
        """Whether a function takes nothing, does nothing and has clauses."""
        return self.kind == "fn" and self.lines[0].endswith("()") and self.lines[-1] == "{}" and bool(self.clauses)


# Lines of an item


def indentation(line: str) -> int:
    """The number of blanks at the left of a line."""
    return len(line) - len(line.lstrip(" "))


def end_of(lines: Sequence[str], start: int, indent: int, kind: str) -> int:
    """The last line of the item that begins at a line."""
    in_body, depth = False, 0
    for at in range(start, len(lines)):
        text = lines[at].strip()
        at_edge = indentation(lines[at]) == indent
        if in_body and at_edge and text.startswith("}"):
            return at
        plain = STRING.sub("", text)
        depth += plain.count("{") - plain.count("}")
        if not in_body and depth == 0 and (at_edge and text.endswith("}") or text.endswith(";")):
            return at
        in_body = in_body or (at_edge and text.endswith("{"))
    return len(lines) - 1


def balanced(text: str) -> str:
    """The text from its first brace to the one that closes it. Braces in strings do not count."""
    depth, quoted = 0, False
    for at, letter in enumerate(text):
        if letter == '"' and text[at - 1 : at] not in ("\\", "'"):
            quoted = not quoted
        elif not quoted and letter in "{}":
            depth += 1 if letter == "{" else -1
            if depth == 0:
                return text[: at + 1]
    return text


def head_of(lines: Sequence[str]) -> List[str]:
    """The lines of an item up to its clauses and its body, without the brace or the semicolon that ends them."""
    head: List[str] = []
    indent = indentation(lines[0])
    for line in lines:
        if head and (CLAUSE.match(line) or line.strip() in ("{", "{}") or line.strip().startswith("//")):
            break
        head.append(line[indent:].rstrip())
        if indentation(line) == indent and head[-1].endswith(("{", "{}", ";")):
            break
    head[-1] = re.sub(r" ?(?:\{\}?|;)$", "", head[-1])
    return head


def clauses_of(lines: Sequence[str]) -> Iterator[Clause]:
    """The clauses of a function, each with the comment above it."""
    indent = indentation(lines[0])
    comment: List[str] = []
    for at, line in enumerate(lines):
        match = CLAUSE.match(line)
        if at and indentation(line) == indent and line.strip().startswith("{"):
            return
        if match and indentation(line) == indent + 4:
            text = balanced("\n".join(lines[at:])[match.end() - 1 :])
            yield Clause(match[1], match[2] or "", dedented(text, indent + 4), " ".join(comment))
        comment = [*comment, line.strip().lstrip("/ ")] if line.strip().startswith("//") else []


def dedented(text: str, indent: int) -> str:
    """The text with fewer blanks at the left of its further lines."""
    first, *rest = text.split("\n")
    return "\n".join([first, *(line[min(indent, indentation(line)) :] for line in rest)])


def doc_of(comments: Sequence[str], mark: str = "///") -> str:
    """The text of the lines of a doc comment."""
    texts = (line.strip()[len(mark) :] for line in comments)
    return "\n".join(text[1:] if text.startswith(" ") else text for text in texts).strip("\n")


# Items


def items_of(lines: Sequence[str], file: Path, indent: int = 0, first: int = 1) -> Iterator[Item]:
    """The items at an indentation, in their order."""
    doc: List[str] = []
    attributes: List[str] = []
    at = 0
    while at < len(lines):
        line = lines[at]
        head = HEAD.match(line[indent:]) if indentation(line) == indent else None
        if head:
            end = end_of(lines, at, indent, head["kind"])
            visibility, body = (head["visibility"] or "").strip(), list(lines[at : end + 1])
            yield Item(head["kind"], head["name"], visibility, doc_of(doc), attributes, body, file, first + at)
            doc, attributes, at = [], [], end + 1
            continue
        text = line.strip()
        if text.startswith("///"):
            doc.append(line)
        elif text.startswith("#["):
            attributes.append(text)
        elif not text:
            doc, attributes = [], []
        at += 1


def without_arguments(text: str) -> str:
    """A head of a type without its arguments in angle brackets."""
    plain = text.replace("->", "")
    while "<" in plain:
        shorter = re.sub(r"<[^<>]*>", "", plain)
        if shorter == plain:
            break
        plain = shorter
    return plain


def owners_of(item: Item) -> Tuple[Optional[str], Optional[str]]:
    """The trait that is implemented or declared, if any, and the type or trait that the members belong to."""
    plain = without_arguments(" ".join(line.strip() for line in item.lines[:3]))
    implemented = re.match(r"impl (?:([\w:]+) for )?&?(?:'\w+ )?(?:mut )?(\w+)", plain)
    if implemented:
        return implemented[1], implemented[2]
    return (item.name, item.name) if item.kind == "trait" else (None, None)


def with_members(item: Item) -> Item:
    """The item with the functions, types and constants within it, where it is an implementation or a trait."""
    if item.kind in ("impl", "trait"):
        trait, owner = owners_of(item)
        item.trait, item.owner = trait, owner if item.kind == "impl" else None
        for member in items_of(item.lines[1:-1], item.file, 4, item.line + 1):
            member.trait, member.owner = trait, owner
            item.members.append(member)
    return item


def ghosts_of(item: Item) -> List[Ghost]:
    """The ghost members of an implementation or a trait."""
    found = []
    for member in item.members:
        if member.kind == "ghost":
            text = dedented("\n".join(member.lines).strip(), 4)
            found.append(Ghost(member.name, text, member.doc))
    return found

"""The parts of Markdown that the pages are made of."""

import re
from typing import Dict, Iterable, Iterator, List, Sequence, Tuple

FENCE = re.compile(r" *(```+|~~~+)")
SPAN = re.compile(r"(`+)(?!`).*?(?<!`)\1(?!`)", re.DOTALL)
HEADING = re.compile(r"^(#{1,6}) +(.*?) *#*$")
LINK = re.compile(r"!?\[((?:[^\[\]]|\[[^\]]*\])*)\]\([^()\s]*(?:\([^()]*\))?[^()\s]*\)")
NO_SLUG = re.compile(r"[^\w\- ]")


def code(text: str) -> str:
    """A code span."""
    fence = "``" if "`" in text else "`"
    blank = " " if text.startswith("`") or text.endswith("`") else ""
    return f"{fence}{blank}{text}{blank}{fence}"


def link(text: str, to: str) -> str:
    """A link."""
    return f"[{text}]({to})"


def outside_spans(text: str, change: "re.Pattern[str]", to: str) -> str:
    """The text with a change outside of code spans."""
    parts, at = [], 0
    for span in SPAN.finditer(text):
        parts += [change.sub(to, text[at : span.start()]), span[0]]
        at = span.end()
    return "".join([*parts, change.sub(to, text[at:])])


def escaped(text: str) -> str:
    """A plain comment as Markdown: its signs mean nothing, but code spans stay."""
    return outside_spans(text, re.compile(r"([\\*<\[\]]|(?<!\w)_|_(?!\w))"), r"\\\1")


def escaped_angles(text: str) -> str:
    """Markdown in which an angle bracket begins no tag."""
    return outside_spans(text, re.compile(r"<(?=[A-Za-z/!?])"), r"\\<")


def cell(text: str) -> str:
    """A text as a cell of a table."""
    return re.sub(r"(?<!\\)\|", r"\\|", " ".join(text.split()))


def table(heads: Sequence[str], rows: Iterable[Sequence[str]]) -> List[str]:
    """The lines of a table."""
    lines = [list(heads), ["---"] * len(heads), *map(list, rows)]
    return ["|" + "|".join(f" {cell(text)} " if text else " " for text in line) + "|" for line in lines]


def fenced(kind: str, lines: Iterable[str]) -> List[str]:
    """The lines of a block of code."""
    return [f"```{kind}", *lines, "```"]


def plain_heading(text: str) -> str:
    """What a reader sees of a heading."""
    text = LINK.sub(lambda match: match[1], text)
    return text.replace("`", "").replace("\\", "")


def slug(heading: str) -> str:
    """The anchor that a heading gets where no other one of the page has the same."""
    return NO_SLUG.sub("", plain_heading(heading).strip().lower()).replace(" ", "-")


class Anchors:
    """The anchors of the headings of a page: a second one of the same name gets a number."""

    def __init__(self) -> None:
        self.seen: Dict[str, int] = {}

    def add(self, heading: str) -> str:
        """The anchor of the next heading."""
        name = slug(heading)
        count = self.seen.get(name, 0)
        self.seen[name] = count + 1
        return f"{name}-{count}" if count else name


def lines_outside_blocks(text: str) -> Iterator[Tuple[int, str]]:
    """The lines of a page outside of fenced blocks, each with its number, counted from 1."""
    fence = ""
    for number, line in enumerate(text.split("\n"), start=1):
        mark = FENCE.match(line)
        if mark and (not fence or mark[1].startswith(fence)):
            fence = "" if fence else mark[1]
        elif not fence:
            yield number, line


def anchors_of(text: str) -> List[str]:
    """The anchors of a page, in the order of its headings; and those that it sets by themselves."""
    anchors, found = Anchors(), []
    for _, line in lines_outside_blocks(text):
        heading = HEADING.match(line)
        found += [anchors.add(heading[2])] if heading else re.findall(r'<a (?:id|name)="([^"]+)"', line)
    return found


def page(lines: Iterable[str]) -> str:
    """The text of a page: no blanks at the end of lines, no two empty lines, and a line end."""
    text = "\n".join(line.rstrip() for line in lines)
    return re.sub(r"\n{3,}", "\n\n", text).strip("\n") + "\n"

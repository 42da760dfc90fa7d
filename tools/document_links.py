"""The links of documents: those that lead to no file, and those whose anchor is no heading."""

import re
from pathlib import Path, PurePosixPath
from posixpath import normpath
from typing import Dict, Iterable, Iterator, List, NamedTuple, Set

from reference_pages.markdown import SPAN, anchors_of, lines_outside_blocks

TARGET = re.compile(r"\]\(\s*<?([^)\s>]+)>?(?:\s+\"[^\"]*\")?\s*\)|^ {0,3}\[[^\]]+\]:\s*(\S+)|\b(?:href|src)=\"([^\"]+)\"")
ELSEWHERE = re.compile(r"[a-z][a-z0-9+.-]*:|//")


class Link(NamedTuple):
    """A link of a document: the number of its line, the path that it names, and its anchor. Both may be empty."""

    line: int
    path: str
    anchor: str


def links_of(text: str) -> Iterator[Link]:
    """The links of a document that do not leave the repository, outside of code."""
    for number, line in lines_outside_blocks(text):
        for groups in TARGET.findall(SPAN.sub("", line)) if "](" in line or "]:" in line or '="' in line else []:
            target = next(group for group in groups if group)
            if not ELSEWHERE.match(target):
                path, _, anchor = target.partition("#")
                yield Link(number, path, anchor)


class Documents:
    """The documents of a repository, and the files and folders that links may lead to."""

    def __init__(self, top: Path, files: Iterable[str]) -> None:
        self.top = top
        self.files = set(files)
        self.folders = {str(folder) for name in self.files for folder in PurePosixPath(name).parents}
        self.anchors: Dict[str, Set[str]] = {}

    def text(self, name: str) -> str:
        """The text of a document."""
        return (self.top / name).read_text(encoding="utf-8")

    def anchors_in(self, name: str) -> Set[str]:
        """The anchors of a document."""
        if name not in self.anchors:
            self.anchors[name] = set(anchors_of(self.text(name)))
        return self.anchors[name]

    def fault_of(self, name: str, link: Link) -> str:
        """What is wrong with a link of a document; empty where nothing is."""
        to = normpath(f"{PurePosixPath(name).parent}/{link.path}") if link.path else name
        if to not in self.files and to not in self.folders:
            return f"`{link.path}` leads to no file"
        if link.anchor and (not to.endswith(".md") or link.anchor not in self.anchors_in(to)):
            return f"`{link.path}#{link.anchor}` leads to no heading"
        return ""

    def faults(self, names: Iterable[str]) -> List[str]:
        """A line for each link of some documents that leads nowhere."""
        found = []
        for name in names:
            for link in links_of(self.text(name)):
                fault = self.fault_of(name, link)
                if fault:
                    found.append(f"{name}:{link.line}: {fault}")
        return found

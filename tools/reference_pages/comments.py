"""Doc comments as Markdown, with links to the items that they name in brackets."""

import re
from typing import Dict, List

from .crates import Crate, first_sentence
from .markdown import Anchors, escaped_angles, link
from .rattle import Item

PARTS = {
    "Functions": ("fn",),
    "Types": ("struct", "enum", "type"),
    "Traits": ("trait",),
    "Constants": ("const", "static"),
}
TARGET = re.compile(r"\n*^\[(`[^`\]]+`)\]: ([\w:]+)$", re.MULTILINE)
HEADING = re.compile(r"^#+ +(.*)$", re.MULTILINE)
NAMED = re.compile(r"\[(`[^`\]]+`)\](?:\(([\w:]+)\))?(?![(\[])")


def parts_of(crate: Crate) -> Dict[str, List[Item]]:
    """The public items of a crate by the parts of its page."""
    parts = {title: [item for item in crate.items if item.kind in kinds] for title, kinds in PARTS.items()}
    return {title: items for title, items in parts.items() if items}


def anchors_of_items(crate: Crate) -> Dict[str, str]:
    """The anchors of the items on the page of a crate, in the order of its headings."""
    anchors, found = Anchors(), {}
    anchors.add(crate.name)
    for title, items in parts_of(crate).items():
        anchors.add(title)
        for item in items:
            found[item.title] = anchors.add(item.name)
            for method in crate.methods_of(item):
                found[method.title] = anchors.add(method.title)
    return found


class Comments:
    """Makes Markdown of doc comments. It knows the place of each public item on the pages."""

    def __init__(self, crates: List[Crate]) -> None:
        self.anchors = {crate.name: anchors_of_items(crate) for crate in crates}
        self.origins = {crate.name: dict(crate.reexports) for crate in crates}

    def target(self, name: str, crate: str, is_page_of_calls: bool) -> str:
        """The link to an item that a comment of a crate names; empty where there is no such item."""
        first, _, rest = name.partition("::")
        home, title = (first, rest) if first in self.anchors and rest else (crate, name)
        home = self.origins[home].get(title.split("::")[0], home)
        if title not in self.anchors[home]:
            return ""
        page = f"{home}.md" if is_page_of_calls else f"calls/{home}.md"
        return ("" if is_page_of_calls and home == crate else page) + f"#{self.anchors[home][title]}"

    def lines(self, doc: str, crate: str, is_page_of_calls: bool = True) -> List[str]:
        """The lines of a doc comment of a crate, on the page of its calls or on another one."""
        targets = {name: to[len("crate::") :] if to.startswith("crate::") else to for name, to in TARGET.findall(doc)}

        def linked(match: "re.Match[str]") -> str:
            """The name of an item with a link to its place."""
            to = self.target(match[2] or targets.get(match[1]) or match[1].strip("`"), crate, is_page_of_calls)
            return link(match[1], to) if to else match[1]

        return [NAMED.sub(linked, line) for line in self.plain(doc).split("\n")]

    @staticmethod
    def plain(doc: str) -> str:
        """A doc comment without headings, which the page has for items, and without the targets of links."""
        return escaped_angles(HEADING.sub(r"**\1**", TARGET.sub("", doc)))

    def sentence(self, doc: str, crate: str, is_page_of_calls: bool = True) -> str:
        """The first sentence of a doc comment."""
        return "".join(self.lines(first_sentence(doc), crate, is_page_of_calls))

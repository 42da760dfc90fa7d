"""All pages of docs/reference."""

from pathlib import Path
from typing import Dict

from .calls import pages_of_calls
from .comments import Comments
from .crates import read_crates
from .definitions import Links, pages_of_definitions, read_files
from .laws import page_of_crates, page_of_edits, page_of_laws
from .markdown import link, page, table
from .options import page_of_options
from .refusals import page_of_refusals

WHAT = {
    "crates.md": "The crates: the purpose of each, the crates it depends on, and the number of its calls, laws and edits.",
    "calls/": "A page for each crate: its public calls and types, with their clauses.",
    "laws.md": "The laws: what is proved beyond the clauses of calls.",
    "definitions.md": "The definitions of the models, which clauses and laws use.",
    "definitions/": "A page for each other crate: the definitions that its own clauses use.",
    "definition_index.md": "The names of all definitions, in the order of the alphabet.",
    "edits.md": "The wrong bodies that the prover must refuse.",
    "options.md": "The commands and options of `far` and `drillolive`.",
    "refusals.md": "The lines and statuses with which `far` refuses, and what to do about each.",
}


def page_of_pages() -> str:
    """The first page."""
    lines = ["# Reference", ""]
    lines.append("`tools/make_reference.py` makes these pages from the sources. Do not edit them: change the sources, and run it again.")
    lists = {"calls/": "crates.md", "definitions/": "definitions.md#other-crates"}
    rows = [[link(f"`{name}`", lists.get(name, name)), text] for name, text in WHAT.items()]
    return page([*lines, "", *table(["Page", "Contents"], rows)])


def all_pages(top: Path) -> Dict[str, str]:
    """The text of each page, by its path below docs/reference."""
    crates = read_crates(top)
    links = Links(crates, read_files(top, crates))
    comments = Comments(crates)
    return {
        "README.md": page_of_pages(),
        "crates.md": page_of_crates(crates, comments),
        "laws.md": page_of_laws(crates, links, comments),
        "edits.md": page_of_edits(crates),
        "options.md": page_of_options(top),
        "refusals.md": page_of_refusals(top, crates),
        **pages_of_calls(crates, links, comments),
        **pages_of_definitions(crates, links, comments),
    }

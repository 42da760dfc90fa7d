"""The crates of crates.txt: the purpose of each, the crates that it depends on, and the items that its callers reach."""

import re
from dataclasses import dataclass, field
from pathlib import Path
from typing import Dict, Iterator, List, Optional, Set, Tuple

from .rattle import EXPORTED, Ghost, Item, doc_of, ghosts_of, items_of, with_members

EXPORT = re.compile(r"^pub use ((?:\w+::)*)(\{[^}]*\}|\w+);", re.MULTILINE)
MODULE = re.compile(r"^(?:pub )?mod (\w+);", re.MULTILINE)
OPEN_MODULE = re.compile(r"^pub mod (\w+);", re.MULTILINE)
DEFINITIONS, LAWS, CODE, TESTS, PROGRAM, INTERFACE = "definitions", "laws", "code", "tests", "program", "interface"
EXAMPLE = "example"
CRATES_OF_LAWS = "sparse_values", "theorems"
CRATES_OF_EXAMPLES = ("refined_point",)
TYPES = "struct", "enum", "trait", "type"


@dataclass
class Implementation:
    """A trait of a type: the first line, the ghost members that it gives, and its functions that have clauses of their own."""

    head: str
    ghosts: List[Ghost]
    functions: List[Item]
    file: Path


@dataclass
class Crate:
    """A crate: its line of crates.txt, the comment of its lib.rt, and its public items in the order of its modules."""

    name: str
    kind: str
    below: List[str]
    doc: str = ""
    items: List[Item] = field(default_factory=list)
    in_modules: List[Item] = field(default_factory=list)
    methods: Dict[str, List[Item]] = field(default_factory=dict)
    implementations: Dict[str, List[Implementation]] = field(default_factory=dict)
    reexports: List[Tuple[str, str]] = field(default_factory=list)
    laws: List[Item] = field(default_factory=list)
    edits: List[Path] = field(default_factory=list)
    files: List[Path] = field(default_factory=list)

    def methods_of(self, item: Item) -> List[Item]:
        """The functions of a type or a trait that callers reach."""
        if item.kind == "trait":
            return [member for member in item.members if member.kind == "fn"]
        return self.methods.get(item.name, []) if item.kind in TYPES else []

    @property
    def calls(self) -> List[Item]:
        """All functions and methods that callers reach, in the order of the items."""
        found: List[Item] = []
        for item in self.items:
            found += [item] if item.kind == "fn" else self.methods_of(item)
        return found


def crate_lines(top: Path) -> Iterator[Tuple[str, List[str], List[str]]]:
    """Of each line of crates.txt the name, the words before the colon, and the crates after it."""
    for line in (top / "crates.txt").read_text(encoding="utf-8").split("\n"):
        head, colon, below = line.split("#")[0].partition(":")
        if colon:
            name, *words = head.split()
            yield name, words, below.split()


def kind_of(top: Path, name: str, words: List[str]) -> str:
    """The kind of a crate, by its name and its line."""
    if (top / "crates" / name / "src" / "main.rt").is_file():
        return PROGRAM
    if "staticlib" in words:
        return INTERFACE
    if name.endswith("_model"):
        return DEFINITIONS
    if name.endswith("_laws") or name in CRATES_OF_LAWS:
        return LAWS
    if name in CRATES_OF_EXAMPLES:
        return EXAMPLE
    return TESTS if name.endswith("_tests") else CODE


def exports_of(library: str) -> Dict[str, Set[str]]:
    """The names that lib.rt exports from each of its modules, and from other crates."""
    found: Dict[str, Set[str]] = {}
    for path, listed in EXPORT.findall(library):
        found.setdefault(path.strip(":").split("::")[-1], set()).update(re.findall(r"\w+", listed))
    return found


def module_files(folder: Path, library: str) -> List[Path]:
    """lib.rt or main.rt and the files of its modules, in the order in which it names them."""
    roots = [path for path in (folder / "lib.rt", folder / "main.rt") if path.is_file()]
    named = [folder / f"{name}.rt" for name in MODULE.findall(library)]
    return roots + [path for path in named if path.is_file()]


def is_reached(item: Item, is_open: bool, exported: Set[str]) -> bool:
    """Whether a caller outside of the crate reaches an item at the left edge of a file."""
    if item.visibility == EXPORTED.strip():
        return True
    return item.visibility == "pub" and item.kind in ("fn", "const", "static", *TYPES) and (is_open or item.name in exported)


def add_implementation(crate: Crate, item: Item, traits: Set[str], types: Set[str]) -> None:
    """Adds the functions and the ghost members that an implementation gives to a type that callers reach."""
    owner = item.owner or ""
    if owner not in types:
        return
    functions = [member for member in item.members if member.kind == "fn"]
    if item.trait is None:
        crate.methods.setdefault(owner, []).extend(member for member in functions if member.visibility == "pub")
        return
    own = [member for member in functions if item.trait in traits and member.clauses]
    ghosts = ghosts_of(item)
    if ghosts or own or item.trait in traits:
        crate.implementations.setdefault(owner, []).append(Implementation(item.signature, ghosts, own, item.file))


def add_items(crate: Crate, files: List[Path], library: str) -> None:
    """Adds the public items of the files of a crate."""
    exports = exports_of(library)
    open_modules = {"lib", *OPEN_MODULE.findall(library)}
    found: List[Item] = []
    for path in files:
        items = [with_members(item) for item in items_of(path.read_text(encoding="utf-8").split("\n"), path)]
        found += items
        exported = exports.get(path.stem, set())
        for item in items:
            if item.kind != "impl" and is_reached(item, path.stem in open_modules, exported):
                (crate.laws if item.is_law else crate.items).append(item)
                if not item.is_law and path.stem in open_modules - {"lib"} and item.name not in exported:
                    crate.in_modules.append(item)
    traits = {item.name for item in found if item.kind == "trait"}
    types = {item.name for item in crate.items if item.kind in TYPES}
    for item in found:
        if item.kind == "impl":
            add_implementation(crate, item, traits, types)


def add_reexports(crate: Crate, library: str, names: Set[str]) -> None:
    """Adds the names that lib.rt exports from other crates."""
    for path, listed in EXPORT.findall(library):
        origin = path.split("::")[0]
        if origin in names:
            crate.reexports += [(name, origin) for name in re.findall(r"\w+", listed)]


def read_crate(top: Path, name: str, words: List[str], below: List[str], names: Set[str]) -> Crate:
    """Reads the sources of a crate."""
    folder = top / "crates" / name
    crate = Crate(name, kind_of(top, name, words), below)
    roots = [path for path in (folder / "src/lib.rt", folder / "src/main.rt") if path.is_file()]
    library = roots[0].read_text(encoding="utf-8") if roots else ""
    crate.doc = doc_of([line for line in library.split("\n") if line.startswith("//!")], "//!")
    crate.files = module_files(folder / "src", library)
    crate.edits = sorted(folder.glob("must-fail/*.edit"))
    add_reexports(crate, library, names)
    if crate.kind not in (TESTS, PROGRAM):
        add_items(crate, crate.files, library)
    return crate


def read_crates(top: Path) -> List[Crate]:
    """Reads all crates, in the order of crates.txt."""
    lines = list(crate_lines(top))
    names = {name for name, _, _ in lines}
    return [read_crate(top, name, words, below, names) for name, words, below in lines]


def first_sentence(text: str) -> str:
    """The first sentence of a comment, in one line."""
    paragraph = " ".join(text.split("\n\n")[0].split())
    end = re.search(r"(?<!e\.g)(?<!i\.e)[.!?](?= |$)", paragraph)
    return paragraph[: end.end()] if end else paragraph


def crate_named(crates: List[Crate], name: str) -> Optional[Crate]:
    """The crate of a name, if there is one."""
    return next((crate for crate in crates if crate.name == name), None)

#!/usr/bin/env python3
"""Checks that each name in the documents is one of the sources.

The documents are README.md, CONTRIBUTING.md, CHANGELOG.md, docs/**/*.md, crates/*/README.md and cases/README.md, without the
pages of docs/reference, which are made from the sources. A name is an identifier in backquotes (`mask_of`), also qualified
(`far_engine::program`), with arguments (`gcd(a, b)`) or with hyphens (an edit of must-fail, a case, or a lemma); an option
(`by=level`, `far refine depth=1`), by what is before the `=`; a part of a name that begins or ends with `_`; or a file
(`Answer.antt`, `crates/far_cli`). Other text in backquotes is passed over, and so are fenced blocks.

    tools/check_names.py
    tools/check_names.py --top ../copy

Each fault is a line: `docs/x.md:12: `name` is not defined`, with ` in `FILE`` where the document says "`name` of `FILE`" and
it is declared elsewhere. It ends with status 1 where there is a fault, and else with 0 and the counts.
"""

import argparse
import os
import re
import sys
from collections import defaultdict
from pathlib import Path
from typing import Dict, Iterable, Iterator, List, Optional, Set, Tuple

from reference_pages.markdown import lines_outside_blocks

# What the sources do not say of themselves: words of Rust and of Rattle, what `rt` prints, files of a case, and words that
# the examples of a refusal have.
RUST = set(
    """
    as break const continue crate dyn else enum extern false fn for if impl in let loop match mod move mut pub ref return self
    static struct super trait true type unsafe use where while
    bool char f32 f64 i8 i16 i32 i64 i128 isize str u8 u16 u32 u64 u128 usize
    Display Vec get split_once
    """.split()
)
RATTLE = set("abbrev data ensures ghost grind invariant new old record requires result rt rw search std subst unfoldable".split())
TOOLCHAIN = {"proved"}
CASE_FILES = {"stdin", "stdout", "stderr"}
REFUSED = {"V", "nan", "sin"}

# Tags of the shapes of OpenSubdiv that are refused.
TAGS = {"smoothtriangles", "vertexedit", "edgeedit", "faceedit"}

# Which files are what.
DOCUMENTS = r"(?:README|CONTRIBUTING|CHANGELOG)\.md|docs/(?!reference/).*\.md|crates/\w+/README\.md|cases/README\.md"
DEFINITIONS = r"crates/(\w+)/(?:specs|proofs)/.*\.antt"
CODE = r"crates/(\w+)/src/.*\.rt"
MODEL = r"crates/(?:subdiv_model|far_model)/specs/\w+\.antt"

# Code in backquotes; what is a name in it.
SPAN = re.compile(r"`([^`]+)`")
NAME = r"[A-Za-z_]\w*"
PLAIN = re.compile(rf"({NAME}(?:::{NAME})*)(?:\(.*\))?")
HYPHENED = re.compile(r"[A-Za-z_]\w*(?:-\w+)+")
KIT = re.compile(r"rattle-kit-\w+|[0-9a-f]{16}")
PART = re.compile(r"_\w*[A-Za-z]\w*|\w*[A-Za-z]\w*_")
OPTION = re.compile(rf"(?:^| )({NAME})=(?=\S|$)")
FILE = re.compile(r"[\w.*/-]+\.(?:antt|rt|py|c|edit|md|obj|svg|txt)|(?:crates|cases|docs|examples|tools|\.ci)/[\w.*/-]*")
WITHIN = re.compile(rf"`({NAME})` (?:of|in) (`[\w./]+`(?:(?:, | and )`[\w./]+`)*)")

# What declares a name in a source.
ANTT_NAMES = [
    re.compile(r"^ *(?:(?:abbrev|unfoldable|pub) )*([^\s:(){}]+) :\s", re.M),
    re.compile(r"^ *(?:pub )?(?:record|data|mod) ([\w-]+)", re.M),
]
RT_NAMES = [
    re.compile(r"\b(?:fn|struct|enum|trait|type|const|static|mod|macro_rules!|ghost) +(\w+)"),
    re.compile(r"\b(?:requires|ensures) +(\w+) *\{"),
    re.compile(r"\b(\w+): "),
]
RT_TYPE = re.compile(r"^(?:pub(?:\([^)]*\))? )?(struct|enum|trait|impl)\b([^{;]*)\{(?!\})(.*?)^\}", re.M | re.S)
RT_MEMBER = re.compile(r"\bfn (\w+)|^ +(?:pub(?:\([^)]*\))? )?ghost (\w+)|^ +(?:pub(?:\([^)]*\))? )?(\w+):|^ {4}([A-Z]\w*)", re.M)
IMPORT = re.compile(r"\buse ([\w.:]+)(?:\.|::)(?:\{([^}]*)\}|(\w+))")
CODES = re.compile(r'codes "([^"]*)"')
PYTHON_NAMES = re.compile(r"^ *(?:def|class) (\w+)|^([A-Z_]+)\b.*? = ", re.M)


# Files


class Tree:
    """The files of a repository by their paths, without those that git keeps and those that are built."""

    def __init__(self, top: Path) -> None:
        self.top = top
        self.files: List[str] = []
        self.folders: Set[str] = set()
        for folder, folders, names in os.walk(top):
            folders[:] = sorted(name for name in folders if name not in (".git", "out", "__pycache__"))
            place = Path(folder).relative_to(top)
            self.folders.add(place.as_posix())
            self.files += [(place / name).as_posix() for name in sorted(names)]
        self.texts: Dict[str, str] = {}
        self.words: Dict[str, Optional[Set[str]]] = {}
        self.names = {path.rsplit("/", 1)[-1] for path in self.files}

    def matching(self, pattern: str) -> List[str]:
        """The files whose paths fit a pattern."""
        return [path for path in self.files if re.fullmatch(pattern, path)]

    def text(self, path: str) -> str:
        """The text of a file."""
        if path not in self.texts:
            self.texts[path] = (self.top / path).read_text(encoding="utf-8")
        return self.texts[path]

    def has(self, place: str) -> bool:
        """Whether there is such a file or folder: by its path, from the top, from crates/ or in a crate, or by its bare name."""
        if "/" not in place:
            return place in self.names
        end = re.compile("(?:crates/(?:[^/]*/)?)?" + re.escape(place.rstrip("/")).replace(r"\*", "[^/]*"))
        return any(end.fullmatch(path) for path in [*self.files, *self.folders])

    def words_at(self, place: str) -> Optional[Set[str]]:
        """The words of what a document names as a file, by its path or its bare name, or as a crate; None where it is neither."""
        if place not in self.words:
            is_file = place.endswith((".antt", ".rt", ".py"))
            paths = self.matching(rf"(?:.*/)?{re.escape(place)}" if is_file else rf"crates/{re.escape(place)}/(?:specs|proofs|src)/.*")
            words = {word for path in paths for word in re.findall(r"\w+", self.text(path) + " " + path)}
            self.words[place] = words if paths else None
        return self.words[place]


# Names that are known


class Names:
    """The names that the sources declare: all of them, those of each crate, and those of each type."""

    def __init__(self) -> None:
        self.all: Set[str] = RUST | RATTLE | TOOLCHAIN | CASE_FILES | REFUSED | TAGS
        self.crates: Dict[str, Set[str]] = defaultdict(set)
        self.types: Dict[str, Set[str]] = defaultdict(set)

    def add(self, names: Iterable[str], crate: Optional[str] = None) -> None:
        """Adds names that the sources declare, also as those of a crate."""
        added = set(names)
        self.all |= added
        if crate:
            self.crates[crate] |= added


def found(patterns: "List[re.Pattern[str]]", text: str) -> Set[str]:
    """The names that some patterns find in a text."""
    return {name for pattern in patterns for name in pattern.findall(text)}


def imported(text: str, crates: Set[str]) -> Iterator[str]:
    """The names that a source takes from elsewhere than the crates of the repository."""
    for origin, several, one in IMPORT.findall(text):
        steps = re.split(r"\.|::", origin)
        if not crates & set(steps) and steps[0] not in ("crate", "super", "self"):
            yield from re.findall(r"[\w-]+", several or one)


def members(text: str) -> Iterator[Tuple[str, Set[str]]]:
    """Each type of a Rust source with what it declares: its calls, fields and variants."""
    for kind, head, body in RT_TYPE.findall(text):
        head = re.sub(r"<[^<>]*>", "", re.sub(r"<[^<>]*>", "", head.replace("->", "")))
        names = {name for groups in RT_MEMBER.findall(body) for name in groups if name}
        of = head.split(" for ")[-1].split(":")[0].split()
        for name in of[:1] + (head.split()[:1] if kind == "impl" else []):
            yield name, names


def add_sources(names: Names, tree: Tree, pattern: str, comment: str, declared: "List[re.Pattern[str]]") -> None:
    """The names of the sources of a kind, which declare them in such ways, and the names that they take from elsewhere."""
    crates = {path.split("/")[1] for path in tree.files if path.startswith("crates/")}
    for path in tree.matching(pattern):
        text = re.sub(comment + ".*", "", tree.text(path))
        crate = path.split("/")[1]
        names.add(found(declared, text) | {Path(path).stem}, crate)
        names.add(imported(text, crates))
        for name, own in members(text) if path.endswith(".rt") else []:
            names.add(own, crate)
            names.types[name] |= own


def add_words(names: Names, tree: Tree) -> None:
    """The words of texts and command lines, as the definitions write them; tools, what C calls, cases, edits, crates and files."""
    for path in tree.matching(MODEL):
        for text in CODES.findall(tree.text(path)):
            names.add(re.findall(r"[\w-]+", text.replace("\\n", " ")))
    for path in tree.matching(r"(?:tools|tests|bench|bindings/python)/.*\.py"):
        names.add(name for pair in PYTHON_NAMES.findall(tree.text(path)) for name in pair if name)
    for path in tree.matching(r"[^/]*|tools/.*|tests/.*|bench/.*|crates/\w+/must-fail/.*|crates/\w+/[^/]*"):
        names.add([Path(path).stem, Path(path).name])
    for path in tree.matching(r"(?:include|bindings)/.*\.(?:h|hpp|c)"):
        names.add(re.findall(r"\b(?:drillolive|DRILLOLIVE|far)_\w+", tree.text(path)))
    names.add(name for folder in tree.folders for name in folder.split("/"))
    names.add(re.findall(r"\w+", re.sub("#.*", "", tree.text("crates.txt"))))


def names_of(tree: Tree) -> Names:
    """All names that the sources of a repository declare."""
    names = Names()
    add_sources(names, tree, DEFINITIONS, "--", ANTT_NAMES)
    add_sources(names, tree, CODE, "//", RT_NAMES)
    add_words(names, tree)
    return names


def is_known(name: str, names: Names) -> bool:
    """Whether a plain or qualified name is declared; the part after a crate or a type is one of its own."""
    parts = name.split("::")
    for part, after in zip(parts, parts[1:]):
        own = names.crates.get(part) or names.types.get(part)
        if own is not None and after not in own:
            return False
    return all(part in names.all for part in parts)


def is_defined(span: str, names: Names, tree: Tree) -> bool:
    """Whether a text in backquotes is defined, or is no name."""
    if FILE.fullmatch(span):
        return tree.has(span)
    if KIT.fullmatch(span):
        return True
    if HYPHENED.fullmatch(span):
        return span in names.all
    if PART.fullmatch(span) and any(span in name for name in names.all):
        return True
    plain = PLAIN.fullmatch(span)
    return all(is_known(name, names) for name in ([plain[1]] if plain else OPTION.findall(span)))


# Documents


def faults_of_line(line: str, names: Names, tree: Tree) -> Iterator[str]:
    """What is wrong with the names in a line of a document."""
    for span in SPAN.findall(line):
        if not is_defined(span, names, tree):
            yield f"`{span}` is not defined"
    for name, places in WITHIN.findall(line):
        words = [tree.words_at(place) for place in SPAN.findall(places)]
        if None not in words and name not in set().union(*words):
            yield f"`{name}` is not defined in {places}"


def wrong_names(tree: Tree, names: Names) -> Tuple[List[str], int]:
    """A line for each name in a document that is not defined, and how many pieces of code there are."""
    faults: List[str] = []
    count = 0
    for path in tree.matching(DOCUMENTS):
        for number, line in lines_outside_blocks(tree.text(path)):
            count += len(SPAN.findall(line))
            faults += [f"{path}:{number}: {fault}" for fault in faults_of_line(line, names, tree)]
    return faults, count


def main() -> int:
    parser = argparse.ArgumentParser(description="Checks the names in the documents against the sources.")
    parser.add_argument("--top", type=Path, default=Path(__file__).resolve().parent.parent, help="the repository")
    tree = Tree(parser.parse_args().top.resolve())
    faults, spans = wrong_names(tree, names_of(tree))
    if faults:
        print("\n".join(faults))
        return 1
    print(f"all {spans} pieces of code in the documents are known")
    return 0


if __name__ == "__main__":
    sys.exit(main())

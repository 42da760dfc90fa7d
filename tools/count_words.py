#!/usr/bin/env python3
"""Counts the words of the documents, and compares them with the limit of each.

    tools/count_words.py
    tools/count_words.py --top ../copy

The words of a document are those outside of fenced blocks; for the README.md of a crate, all words of the file. The pages of
docs/reference do not count. In README.md, docs/guide and docs/help.txt no sentence may have more than 30 words. A line gives the
words of each document and its limit; other lines name what passes a limit, and then the exit status is 1.
"""

import argparse
import re
import sys
from fnmatch import fnmatchcase
from pathlib import Path
from typing import Dict, Iterator, List, NamedTuple, Tuple

from check_names import Tree
from reference_pages.markdown import SPAN, lines_outside_blocks

TOTAL_LIMIT = 25000
SENTENCE_LIMIT = 30
NOT_COUNTED = "docs/reference/*"

# The limit of each document, or of all documents of a pattern together. The first that fits counts.
LIMITS: Dict[str, int] = {
    "README.md": 900,
    "CHANGELOG.md": 500,
    "CONTRIBUTING.md": 1500,
    "docs/guide/*.md": 5000,
    "docs/architecture.md": 2200,
    "docs/proofs.md": 1800,
    "docs/rules/*.md": 4500,
    "docs/performance.md": 1200,
    "docs/DECISIONS.md": 2200,
    "docs/maintainers.md": 1200,
}

# The limit of each single document of a pattern.
LIMITS_OF_EACH: Dict[str, int] = {
    "crates/*/README.md": 150,
    "*/README.md": 250,
}
COUNTED_WHOLE = "crates/*/README.md"
PLAIN_SENTENCES = "README.md", "docs/guide/*.md", "docs/help.txt"

LINK = re.compile(r"!?\[([^\[\]]*)\]\([^()]*\)")
SENTENCE_END = re.compile(r"(?<=[.?!])[\"')\]*_]*\s+")
ITEM = re.compile(r"\s*(?:[-*+]|\d+[.)])\s")
OPTION_LINE = re.compile(r" +[\w-]+ {2,}(?=\S)")
COMMAND_LINE = re.compile(r" *(?:\./far|Example:)(?: \S+)*(?: {2,}|$)")


class Document(NamedTuple):
    """A document with the number of its words that its limit is about, and of those outside of fenced blocks."""

    path: str
    words: int
    outside: int


# Words


def counted(path: str, text: str) -> Document:
    """A document with its words."""
    outside = sum(len(line.split()) for _, line in lines_outside_blocks(text))
    return Document(path, len(text.split()) if fits(path, COUNTED_WHOLE) else outside, outside)


# Sentences


def markdown_pieces(text: str) -> Iterator[Tuple[int, str]]:
    """The paragraphs, list items, headings and cells of a document, each with the number of its first line."""
    first, held = 0, []  # type: int, List[str]
    for number, line in [*lines_outside_blocks(text), (0, "")]:
        if held and (not line.strip() or line.startswith(("#", "|")) or ITEM.match(line)):
            yield first, " ".join(held)
            held = []
        if line.startswith("|"):
            yield from ((number, cell) for cell in re.split(r"(?<!\\)\|", line))
        elif line.startswith("#"):
            yield number, line
        elif line.strip():
            first, held = first if held else number, [*held, line.strip()]


def help_pieces(text: str) -> Iterator[Tuple[int, str]]:
    """The pieces of the help: paragraphs, command lines, and texts of options, each with the number of its first line."""
    first, held = 0, []  # type: int, List[str]
    for number, line in enumerate([*text.split("\n"), ""], start=1):
        column = COMMAND_LINE.match(line) or OPTION_LINE.match(line)
        if held and (not line.strip() or column):
            yield first, " ".join(held)
            held = []
        rest = line[column.end() :].strip() if column else line.strip()
        if rest:
            first, held = first if held else number, [*held, rest]


def pieces_of(path: str, text: str) -> Iterator[Tuple[int, str]]:
    """The pieces of a document in which sentences end, each with the number of its first line."""
    return help_pieces(text) if path.endswith(".txt") else markdown_pieces(text)


def sentences_of(piece: str) -> List[str]:
    """The sentences of a piece, in which a code span is one word and a link its text."""
    plain = SPAN.sub("code", LINK.sub(lambda match: match[1], piece))
    return [sentence for sentence in SENTENCE_END.split(plain) if sentence]


def words_of_sentence(sentence: str) -> List[str]:
    """The words of a sentence: what has a letter or a digit."""
    return [word for word in sentence.split() if re.search(r"\w", word)]


def long_sentences(path: str, text: str) -> Iterator[str]:
    """A line for each sentence that is too long."""
    for number, piece in pieces_of(path, text):
        for sentence in sentences_of(piece):
            words = words_of_sentence(sentence)
            if len(words) > SENTENCE_LIMIT:
                yield f"{path}:{number}: a sentence of {len(words)} words, at most {SENTENCE_LIMIT}: {' '.join(words[:8])} .."


# Limits


def limit_of(path: str, limits: Dict[str, int]) -> Tuple[str, int]:
    """The pattern that a path fits, and its limit; an empty pattern where there is none."""
    return next(((pattern, limit) for pattern, limit in limits.items() if fits(path, pattern)), ("", 0))


def fits(path: str, pattern: str) -> bool:
    """Whether a path fits a pattern. A leading `*/` stands for any folders."""
    if pattern.startswith("*/"):
        return fnmatchcase(path, pattern)
    return fnmatchcase(path, pattern) and path.count("/") == pattern.count("/")


def passed_limits(documents: List[Document]) -> Iterator[str]:
    """A line for each limit that is passed."""
    together: Dict[str, int] = {}
    for path, words, _ in documents:
        pattern, _ = limit_of(path, LIMITS)
        if pattern:
            together[pattern] = together.get(pattern, 0) + words
            continue
        pattern, limit = limit_of(path, LIMITS_OF_EACH)
        if not pattern:
            yield f"{path}: no limit is set for this document"
        elif words > limit:
            yield f"{path}: {words} words, at most {limit}"
    for pattern, words in together.items():
        if words > LIMITS[pattern]:
            yield f"{pattern}: {words} words, at most {LIMITS[pattern]}"
    total = sum(document.outside for document in documents)
    if total > TOTAL_LIMIT:
        yield f"all documents: {total} words, at most {TOTAL_LIMIT}"


def documents_of(top: Path) -> List[str]:
    """The paths of the documents, without those below folders that are built."""
    paths = sorted(Tree(top).matching(r"(?!build/|\.far/).*\.md"))
    return [path for path in paths if not fnmatchcase(path, NOT_COUNTED)]


def main() -> int:
    parser = argparse.ArgumentParser(description="Counts the words of the documents.")
    parser.add_argument("--top", type=Path, default=Path(__file__).resolve().parent.parent, help="the repository")
    top = parser.parse_args().top.resolve()
    texts = {path: (top / path).read_text(encoding="utf-8") for path in documents_of(top)}
    documents = [counted(path, text) for path, text in texts.items()]
    for path, words, _ in documents:
        pattern, limit = limit_of(path, LIMITS)
        pattern, limit = (pattern, limit) if pattern else limit_of(path, LIMITS_OF_EACH)
        print(f"{words:6} of {limit:5}  {path}" + (f" (together: {pattern})" if "*" in pattern and pattern in LIMITS else ""))
    print(f"{sum(it.outside for it in documents):6} of {TOTAL_LIMIT}  all")
    faults = list(passed_limits(documents))
    helps = {path: (top / path).read_text(encoding="utf-8") for path in ["docs/help.txt"] if (top / path).is_file()}
    for path, text in {**texts, **helps}.items():
        if any(fits(path, pattern) for pattern in PLAIN_SENTENCES):
            faults += long_sentences(path, text)
    print("\n".join(faults) if faults else "no limit is passed")
    return 1 if faults else 0


if __name__ == "__main__":
    sys.exit(main())

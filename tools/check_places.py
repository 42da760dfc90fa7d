#!/usr/bin/env python3
"""Checks that each command and each crate is in every place that needs it.

The commands are those of `command_table` in the definitions. The crates are those of crates.txt, and the folders of
crates/ that have sources. COMMAND_PLACES and CRATE_PLACES list the places. CONTRIBUTING.md says them in words, and must
name each of their files. Pages that tools/make_reference.py makes are no places.

    tools/check_places.py
    tools/check_places.py --list command
    tools/check_places.py --command refine
    tools/check_places.py --command NAME --kind make

Each place that lacks a command or a crate is a line, `command NAME: missing in FILE: WHAT`, in the order of the list. A
name that is in no table yet lacks all places that are left to do. The kind of a command is that of its constructor
in the definitions, or else what `--kind` says. The last line is `N places, M missing`, and the exit status 1 where
something is missing, else 0.
"""

import argparse
import re
import sys
from pathlib import Path
from typing import Dict, Iterator, List, NamedTuple, Optional, Set, Tuple

from reference_pages.crates import CODE, DEFINITIONS, EXAMPLE, INTERFACE, LAWS, PROGRAM, TESTS, crate_lines, kind_of

COMMAND_TABLE = "crates/far_model/specs/Words.antt"
COMMANDS = "crates/far_model/specs/Command.antt"
ANSWERS = "crates/far_model/specs/Answer.antt"
TYPE_OF_REPLIES = "crates/far_text/src/reply.rt"
REPLIES = "crates/mesh_answers/src/*.rt"
STORED_REPLIES = "crates/table_answers/src/*.rt"
STEPS = "crates/mesh_answers/specs/StepCounts.antt"
STORED_STEPS = "crates/table_answers/specs/Answers.antt"
CRATES = "crates.txt"
GUIDE = "CONTRIBUTING.md"

# The constructor of a command in the definitions, and the call that finds the reply of a command.
CONSTRUCTOR = r"^pub data <Kind>Command .*\n(?:  .*\n)*?  <variant> :"
FINDS_REPLY = r"\bIs(?:AnswerTo|StoredAnswer|MadeAnswer) \(?<variant>\b"

# A run of a command, in a table of the tests.
ROW_OF_RUN = r'(?:    \(|        )(?:"<name>(?: [^"]*)?"|<constant>),'

NUMBERS = "no one two three four five six seven eight nine ten".split()

# The kinds of commands.
READ, STORED, MAKE, STREAM = "read", "stored", "make", "stream"

# Of each kind of command the constructor of `Command` in the definitions, and what the help says that such a command does.
KINDS = {
    READ: ("Reads", "reads? a mesh on"),
    STORED: ("Stored", "(?:reads?|takes?) a stored table"),
    MAKE: ("Makes", "makes? its"),
    STREAM: ("Streams", "(?:streams?|reads? a mesh and)"),
}


class Place(NamedTuple):
    """A place that needs a command or a crate: in a file, or in one of the files of a pattern. `crates/*/` is the
    folder of the crate itself."""

    file: str
    # What is there, in words. `<name>`, here and in the text, is the name; `command` and `crate` have the other words.
    what: str
    # A regular expression that the text of the file has. An empty one asks that there is such a file, and None nothing,
    # since another tool checks the place.
    text: Optional[str] = ""
    # The kinds of commands or crates that the place needs; none: all.
    kinds: Tuple[str, ...] = ()
    # The files of the pattern that do not count.
    without: str = ""


class Subject(NamedTuple):
    """A command or a crate: its title, its kind, and the words by which places name it."""

    title: str
    kind: str
    words: Dict[str, str]


class Missing(NamedTuple):
    """A place that lacks something."""

    title: str
    file: str
    what: str

    def __str__(self) -> str:
        return f"{self.title}: missing in {self.file}: {self.what}"


DEFINITION_PLACES = [
    Place(COMMAND_TABLE, "a row of `command_table`", r'record \{ name = codes "<name>"; options '),
    Place(COMMANDS, "a constructor of `<Kind>Command`", CONSTRUCTOR),
    Place(COMMANDS, "an arm of `command_named`", r"(?:then|else) <constructor> \(?<variant>\b"),
    Place(COMMANDS, "its range, an arm of `Is<Kind>InRange`", r"^Is<Kind>InRange \(?<variant>\b"),
    Place(ANSWERS, "an arm of `command_faults`", r"^command_faults \(?<variant>\b", (READ,)),
    Place(ANSWERS, "an arm of `command_text`", r"^command_text \(?<variant>\b", (READ,)),
    Place(ANSWERS, "an arm of `answer_of_stored_text`", r"^answer_of_stored_text \(?<variant>\b", (STORED,)),
    Place(ANSWERS, "an arm of `IsAcceptedBeforeTable`", r"^IsAcceptedBeforeTable \(?<variant>\b", (STORED,)),
    Place(ANSWERS, "an arm of `made_mesh`", r"^made_mesh \(?<variant>\b", (MAKE,)),
    Place(ANSWERS, "an arm of `made_faults`", r"^made_faults \(?<variant>\b", (MAKE,)),
    Place(ANSWERS, "an arm of `made_text`", r"^made_text \(?<variant>\b", (MAKE,)),
    Place(ANSWERS, "an arm of `rule_of`", r"^rule_of \(?<variant>\b", (STREAM,)),
    Place(
        "crates/far_model/src/answers.rt",
        "an example of its answer",
        r'\banswer \(codes "<name>" ∷',
        (READ, MAKE, STREAM),
    ),
    Place("crates/far_model/src/stored.rt", "an example of its answer", r'\banswer \(codes "<name>" ∷', (STORED,)),
]

WORDS_PLACES = [
    Place("crates/far_words/src/table.rt", "a row of `COMMANDS`", r'\bname: "<name>",\s+options:'),
    Place(
        "crates/far_words/src/command.rt",
        "a variant of `<Kind>Command`",
        r"^pub enum <Kind>Command \{\n(?:    .*\n)*?    <variant>\b",
    ),
    Place("crates/far_words/src/command.rt", "its range, an arm of `is_in_range`", r"\b<Kind>Command::<variant>\b[^=;]*=>"),
    Place("crates/far_words/src/read.rt", "an arm of `command_named`", r"\bCommand::<Kind>\(\s*<Kind>Command::<variant>\b"),
    Place("crates/far_words/specs/View.antt", "an arm of `<kind>_of_code`", r"^<kind>_of_code \(?<variant>\b"),
    Place("crates/far_words/proofs/WordsLemmas.antt", "a case of `says-in-range`", r'\bcodes "<name>"'),
]

ANSWER_PLACES = [
    Place(
        TYPE_OF_REPLIES,
        "a variant of `Reply`, where the text is a new one",
        r"^pub enum Reply \{\n(?:    .*\n)*?    <reply>\b",
        (READ, STORED, MAKE),
    ),
    Place(
        "crates/far_text/specs/Reply.antt",
        "the text of this variant, an arm of `reply_text`",
        r"^reply_text \(?<reply>\b",
        (READ, STORED, MAKE),
    ),
    Place(STEPS, "an arm of `least_steps`", r"^least_steps \(?<variant>\b", (READ,)),
    Place(STEPS, "an arm of `step_limit`", r"^step_limit \(?<variant>\b", (READ,)),
    Place(STORED_STEPS, "an arm of `stored_least`", r"^stored_least \(?<variant>\b", (STORED,)),
    Place(STORED_STEPS, "an arm of `stored_limit`", r"^stored_limit \(?<variant>\b", (STORED,)),
    Place(STEPS, "an arm of `made_least`", r"^made_least \(?<variant>\b", (MAKE,)),
    Place(STEPS, "an arm of `made_limit`", r"^made_limit \(?<variant>\b", (MAKE,)),
    Place(REPLIES, "the call that finds the reply", FINDS_REPLY, (READ, MAKE)),
    Place(STORED_REPLIES, "the call that finds the reply", FINDS_REPLY, (STORED,)),
    Place("crates/far_engine/specs/StepCounts.antt", "an arm of `stream_least`", r"^stream_least \(?<variant>\b", (STREAM,)),
    Place("crates/far_engine/specs/StepCounts.antt", "an arm of `stream_limit`", r"^stream_limit \(?<variant>\b", (STREAM,)),
    Place(
        "crates/far_engine/src/command.rt",
        "an arm of `run_command`",
        r"\b<Kind>Command::<variant>\b[^=;]*=>",
        (READ, MAKE, STREAM),
    ),
    Place("crates/far_engine/src/command.rt", "an arm of `find_stored`", r"\b<Kind>Command::<variant>\b[^=;]*=>", (STORED,)),
    Place(
        "crates/far_engine/proofs/command/run_command/Answers.antt",
        "the answers of this arm",
        r"\bin-(Make-|Stream-)?<variant>\b",
        (READ, MAKE, STREAM),
    ),
    Place(
        "crates/far_engine/proofs/command/find_stored/Answers.antt",
        "the answers of this arm",
        r"^(?!use ).*\b<variant>\b",
        (STORED,),
    ),
    Place(
        "crates/far_engine/proofs/ManifoldLemmas.antt",
        "a case of `accepted-manifolds`",
        r"^accepted-manifolds \(<constructor> \(?<variant>\b",
        (STORED, MAKE, STREAM),
    ),
    Place("crates/far_engine/src/engine.rt", "what it answers, in the comment of `run`", r"^/// - `<name>` "),
]

REFERENCE_PLACES = [
    Place("tests/reference/run.py", "its options, an entry of `OPTIONS`", r'^    b"<name>": '),
    Place(
        "tests/reference/reference.py",
        "its text, an entry of `TEXTS_OF_MESH`",
        r'^TEXTS_OF_MESH = \{\n(?:    .*\n)*?    b"<name>": ',
        (READ,),
    ),
    Place(
        "tests/reference/reference.py",
        "its text, an entry of `TEXTS_OF_TABLE`",
        r'^TEXTS_OF_TABLE = \{\n(?:    .*\n)*?    b"<name>": ',
        (STORED,),
    ),
    Place(
        "tests/reference/reference.py",
        "its text, an entry of `TEXTS_OF_OPTIONS`",
        r'^TEXTS_OF_OPTIONS = \{\n(?:    .*\n)*?    b"<name>": ',
        (MAKE,),
    ),
    Place(
        "tests/reference/reference.py",
        "its texts, an entry of `TEXTS_OF_INPUT`",
        r'^TEXTS_OF_INPUT = \{\n(?:    .*\n)*?    b"<name>": ',
        (STREAM,),
    ),
    Place("tests/random/compare_random.py", "random words of it, in `Words`", r'\breturn \["<name>"[,\]]', (READ, MAKE, STREAM)),
    Place("tests/random/compare_random.py", "random inputs of it, in `kinds_of_runs`", r'^    yield .*\(\["<name>"[,\]]', (STORED,)),
    Place("tests/run/test_launcher.py", "a run of it, in `runs`", r'\byield \["<name>"[,\]]'),
    Place("tests/run/refuse_memory.py", "a run of it, in `runs`", r'\byield "<name>[ "]'),
]

DOCUMENT_PLACES = [
    Place("docs/help.txt", "the number of its kind, <of_kind>", r"(?i:^<of_kind> commands? <verb>\b)"),
    Place("docs/help.txt", "its options and an example", r"^  \./far <name>\b"),
    Place("docs/guide/formats.md", "the form of what it writes", r"`<name>`"),
    Place("docs/rules/answers.md", "a row of the table of what commands ask", r"^\|[^|\n]*`<name>`[^|\n]*\|"),
    Place("docs/rules/answers.md", "its name, beside its kind", r"^- `<Kind>Command` .*`<name>`"),
    Place("docs/proofs.md", "the number of commands, <commands>", r"(?i:\b<commands> commands\b)"),
    Place("docs/proofs.md", "what it writes, in the theorem on the program", r"^> .*`<name>`"),
]

TEST_PLACES = [
    Place("cases/*/*/words", "a case that runs it", r"\A<name>\n", without="cases/words/*/words"),
    Place("cases/words/*/words", "a case whose options are refused", r"\A<name>\n"),
    Place(
        "crates/far_tests/src/hostile.rt",
        "one whose sink fails, in `WRITES`",
        r"^const WRITES: .*\n(?:    .*\n)*?" + ROW_OF_RUN,
    ),
    Place("crates/far_tests/src/words.rt", "its words, in `WORDS`", r'"<name>(?: [^"]*)?",\s+(?!Err\()\S'),
]

COMMAND_PLACES = [
    *DEFINITION_PLACES,
    *WORDS_PLACES,
    *ANSWER_PLACES,
    *REFERENCE_PLACES,
    *DOCUMENT_PLACES,
    *TEST_PLACES,
]

CRATE_PLACES = [
    Place(CRATES, "its line, with the crates that it depends on", r"^<name>(?: staticlib)?:"),
    Place("crates/*/src/lib.rt", "a comment that says what the crate is", r"\A//! ", (CODE, DEFINITIONS, EXAMPLE, LAWS, TESTS, INTERFACE)),
    Place("crates/*/src/main.rt", "a comment that says what the program does", r"\A//! ", (PROGRAM,)),
    Place("crates/*/README.md", "what it is for, and an example, as tools/check_crates.py checks", None),
    Place("crates/*/must-fail/*.edit", "wrong bodies that the prover must refuse", "", (CODE, EXAMPLE, INTERFACE)),
    Place("docs/architecture.md", "its place in the picture", r"\b<name>\b", (CODE, DEFINITIONS, INTERFACE, LAWS, PROGRAM, TESTS)),
    Place("crates/*_tests/src/*.rt", "a test that calls it, or a crate above it", r"^use (?:<users>)::", (CODE,)),
    Place("bindings/c/*.h", "its exports, as C declares them", r"\b<name>\b", (INTERFACE,)),
]

LISTS = {"command": COMMAND_PLACES, "crate": CRATE_PLACES}


# Commands and crates


def read(path: Path) -> str:
    """The text of a file. The words of a case may be no UTF-8."""
    return path.read_text(encoding="utf-8", errors="surrogateescape")


def text_of(top: Path, file: str) -> str:
    """The text of a file, and an empty one where there is no such file."""
    path = top / file
    return read(path) if path.is_file() else ""


def command_names(top: Path) -> List[str]:
    """The commands of the table of the definitions, in its order."""
    table = re.search(r"^command_table =\n(.*?)^ *∷ \[\]$", text_of(top, COMMAND_TABLE), re.M | re.S)
    return re.findall(r'record \{ name = codes "([^"]+)"; options ', table[1]) if table else []


def crate_names(top: Path) -> List[str]:
    """The crates of crates.txt, and then the folders of crates/ that have sources and no line there."""
    folders = sorted(path.parent.name for path in top.glob("crates/*/src"))
    return list(dict.fromkeys([*(name for name, _, _ in crate_lines(top)), *folders]))


def in_words(count: int) -> str:
    """A number as documents write it."""
    return NUMBERS[count] if count < len(NUMBERS) else str(count)


def kind_of_command(top: Path, variant: str, otherwise: str) -> str:
    """The kind of command under which the definitions have a constructor of this name."""
    for kind in KINDS:
        constructor = filled(CONSTRUCTOR, {"Kind": kind.capitalize(), "variant": variant})
        if re.search(constructor, text_of(top, COMMANDS), re.M):
            return kind
    return otherwise


def variant_of(name: str) -> str:
    """The name of a command as a constructor has it."""
    return "".join(part.capitalize() for part in re.split("[-_]", name))


def reply_files(top: Path) -> List[Path]:
    """The files with the calls that find replies."""
    return sorted(path for pattern in (REPLIES, STORED_REPLIES) for path in top.glob(pattern))


def unmade_reply(top: Path) -> Optional[str]:
    """The first variant of `Reply` that no call makes."""
    variants = re.search(r"^pub enum Reply \{\n(.*?)^\}", text_of(top, TYPE_OF_REPLIES), re.M | re.S)
    made = {reply for path in reply_files(top) for reply in re.findall(r"\bReply::(\w+)", read(path))}
    return next((it for it in re.findall(r"^    (\w+)", variants[1] if variants else "", re.M) if it not in made), None)


def reply_of(top: Path, variant: str) -> str:
    """The variant of `Reply` that the call for a command makes. Where there is no such call yet, the variant that no call
    makes, or else one with the name of the command."""
    for path in reply_files(top):
        text = read(path)
        # A file may have private calls before the public one, one of which makes the reply.
        contract = re.search(filled(FINDS_REPLY, {"variant": variant}), text)
        after = text[contract.end() :] if contract else ""
        replies = re.findall(r"\bReply::(\w+)", after) or re.findall(r"\bReply::(\w+)", text)
        if contract and replies:
            return replies[0]
    return unmade_reply(top) or variant


def command(top: Path, name: str, otherwise: str) -> Subject:
    """A command, and how sources and documents name it and count it."""
    variant = variant_of(name)
    kinds = {it: kind_of_command(top, variant_of(it), otherwise) for it in [*command_names(top), name]}
    kind = kinds[name]
    words = {"name": re.escape(name), "variant": variant, "kind": kind, "Kind": kind.capitalize()}
    words.update(constant=re.sub("-", "_", name).upper(), reply=reply_of(top, variant))
    words.update(zip(("constructor", "verb"), KINDS[kind]))
    words.update(commands=in_words(len(kinds)), of_kind=in_words(list(kinds.values()).count(kind)))
    return Subject(f"command {name}", kind, words)


def kind_of_crate(top: Path, name: str) -> str:
    """The kind of a crate."""
    return kind_of(top, name, next((words for other, words, _ in crate_lines(top) if other == name), []))


def users_of(top: Path, name: str) -> Set[str]:
    """A crate with all crates that depend on it, directly or by others."""
    dependencies = {user: below for user, _, below in crate_lines(top)}
    users: Set[str] = set()
    found = {name}
    while found:
        users |= found
        found = {user for user, below in dependencies.items() if users & set(below)} - users
    return users


def crate(top: Path, name: str) -> Subject:
    """A crate, and the crates from which a test reaches it."""
    users = "|".join(sorted(users_of(top, name)))
    return Subject(f"crate {name}", kind_of_crate(top, name), {"name": name, "users": users})


# Places


def filled(template: str, words: Dict[str, str]) -> str:
    """A template with the words in the place of their names."""
    return re.sub(r"<(\w+)>", lambda name: words.get(name[1], name[0]), template)


def places_of(list_name: str, subject: Subject) -> List[Place]:
    """The places of a list that are checked for a command or a crate of this kind."""
    checked = [place for place in LISTS[list_name] if place.text is not None]
    return [place for place in checked if not place.kinds or subject.kind in place.kinds]


def file_of(place: Place, subject: Subject) -> str:
    """The file or the pattern of files of a place, with the crate's own folder."""
    return place.file.replace("crates/*/", f"crates/{subject.words['name']}/")


def is_there(top: Path, place: Place, subject: Subject) -> bool:
    """Whether one of the files of a place has a command or a crate."""
    wanted = re.compile(filled(place.text or "", subject.words), re.M)
    found = top.glob(file_of(place, subject))
    kept = [path for path in found if not (place.without and path.match(place.without))]
    return any(wanted.search(read(path)) for path in kept)


def missing_places(top: Path, list_name: str, subject: Subject) -> Iterator[Missing]:
    """The places of a list that lack a command or a crate."""
    for place in places_of(list_name, subject):
        if not is_there(top, place, subject):
            yield Missing(subject.title, file_of(place, subject), filled(place.what, subject.words))


def files_of(list_name: str) -> List[str]:
    """The files of a list, each once, in its order."""
    return list(dict.fromkeys(place.file for place in LISTS[list_name]))


def missing_in_guide(top: Path, list_name: str) -> Iterator[Missing]:
    """The files of a list that its part of CONTRIBUTING.md does not name."""
    part = re.search(rf"^## A new {list_name}$(.*?)(?=^## |\Z)", text_of(top, GUIDE), re.M | re.S)
    named = set(re.findall(r"`([^`]+)`", part[1])) if part else set()
    for file in files_of(list_name):
        if file not in named:
            yield Missing(f"list {list_name}", GUIDE, f"`{file}`")


# The program


def print_list(list_name: str) -> None:
    """Prints the places of a list in their order, each with the kinds that it needs, where it does not need all."""
    for number, place in enumerate(LISTS[list_name], start=1):
        kinds = f" ({', '.join(place.kinds)})" if place.kinds else ""
        print(f"{number}. {place.file}: {place.what}{kinds}")


def check(top: Path, subjects: List[Tuple[str, Subject]], guide: List[str]) -> int:
    """Checks some commands and crates, and the parts of CONTRIBUTING.md on some lists. Prints what is missing, and
    returns the exit status."""
    missing = [it for list_name, subject in subjects for it in missing_places(top, list_name, subject)]
    missing += [it for list_name in guide for it in missing_in_guide(top, list_name)]
    count = sum(len(places_of(*subject)) for subject in subjects) + sum(len(files_of(name)) for name in guide)
    print("".join(f"{it}\n" for it in missing) + f"{count} places, {len(missing)} missing")
    return 1 if missing else 0


def arguments() -> argparse.Namespace:
    """The options of the command line."""
    parser = argparse.ArgumentParser(description="Checks that each command and each crate is in every place that needs it.")
    parser.add_argument("--list", choices=sorted(LISTS), help="print the places of a command or of a crate, and check nothing")
    parser.add_argument("--command", metavar="NAME", help="check only this command")
    parser.add_argument("--crate", metavar="NAME", help="check only this crate")
    parser.add_argument("--kind", choices=tuple(KINDS), default=READ, help="the kind of a command that has no constructor yet")
    parser.add_argument("--top", type=Path, default=Path(__file__).resolve().parent.parent, help="the repository")
    return parser.parse_args()


def main() -> int:
    options = arguments()
    top = options.top.resolve()
    if options.list:
        print_list(options.list)
        return 0
    is_whole = not (options.command or options.crate)
    commands = command_names(top) if is_whole else [name for name in [options.command] if name]
    crates = crate_names(top) if is_whole else [name for name in [options.crate] if name]
    if is_whole and not commands:
        print(f"{COMMAND_TABLE} has no `command_table` that can be read")
        return 1
    subjects = [("command", command(top, name, options.kind)) for name in commands]
    subjects += [("crate", crate(top, name)) for name in crates]
    return check(top, subjects, sorted(LISTS) if is_whole else [])


if __name__ == "__main__":
    sys.exit(main())

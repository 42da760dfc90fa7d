"""The page of refusals: each line that `far` can end with, its status, and what to do about it.

The lines and the statuses are those of the definitions, which are read as equations. What a fault means is in the comments of
the types of the code, and the advice is that of the library for C.
"""

import re
from dataclasses import dataclass
from pathlib import Path
from typing import Dict, Iterator, List, NamedTuple, Optional, Tuple

from .crates import Crate, first_sentence
from .markdown import code, escaped, escaped_angles, page, table
from .rattle import doc_of

FAULTS, RECORDS = "crates/subdiv_model/specs/Fault.antt", "crates/array_answers/specs/RecordTable.antt"
OTHER_RECORDS = "crates/array_answers/specs/ArrayRecords.antt"
ADVICE, HEADER = "bindings/c/advice.c", "include/drillolive.h"
SIGNATURE = re.compile(r"^abbrev pub (\w+) : (\w+) →")
EQUATION = re.compile(r"^(\w+) (\w+|\([^)]*\)) =(.*)$")
PART = re.compile(r'codes "((?:[^"\\]|\\.)*)"|number_text ([\w.]+)|(\w+) (\w+)')
ADVICE_ROW = re.compile(r'^\s*\{(\d+), (\d+), "((?:[^"\\]|\\.)*)"\}', re.MULTILINE)
OTHER_ROW = re.compile(r"^record_of_bad_\w+ .*?(\w+)(?: place\))? = row (\d+) (\d+) ", re.MULTILINE)
STATUS_ROW = re.compile(r"^ *(DRILLOLIVE_\w+) = (\d+),? *(?:/\* (.*?) \*/)?", re.MULTILINE)
VARIANT = re.compile(r" {4}([A-Z]\w*)")


class Equation(NamedTuple):
    """An equation of a function on a fault: the constructor that it is about, the names of its fields, and the right side."""

    constructor: str
    fields: List[str]
    right: str


@dataclass(frozen=True)
class Functions:
    """The functions of a file of definitions: the equations of each, and the type of what it takes."""

    equations: Dict[str, List[Equation]]
    types: Dict[str, str]

    def equation(self, function: str, constructors: List[str]) -> Optional[Equation]:
        """The equation of a function for the one of some constructors that it is about."""
        return next((it for it in self.equations[function] if it.constructor in constructors), None)


class Refusal(NamedTuple):
    """A line of the program: its text, and the constructors of the fault, from the outermost, each after its type."""

    text: str
    constructors: List[Tuple[str, str]]


def read_functions(*paths: Path) -> Functions:
    """Reads the equations of files. An equation may go on in lines that are indented."""
    equations: Dict[str, List[Equation]] = {}
    types: Dict[str, str] = {}
    for path in paths:
        for line in re.sub(r"\n {4}", " ", path.read_text(encoding="utf-8")).split("\n"):
            signature, equation = SIGNATURE.match(line), EQUATION.match(line)
            if signature:
                types[signature[1]] = signature[2]
            elif equation:
                constructor, *fields = equation[2].strip("()").split()
                equations.setdefault(equation[1], []).append(Equation(constructor, fields, equation[3].strip()))
    return Functions(equations, types)


def texts_of(functions: Functions, right: str) -> Iterator[Refusal]:
    """The texts that a right side has: one for each choice of the constructors of its fields."""
    made = [Refusal("", [])]
    for words, number, function, _ in PART.findall(right):
        if function and functions.equations.get(function):
            further = list(refusals_of(functions, function))
        else:
            further = [Refusal(words or number.split(".")[-1].upper(), [])]
        made = [Refusal(it.text + more.text, it.constructors + more.constructors) for it in made for more in further]
    yield from made


def refusals_of(functions: Functions, function: str) -> Iterator[Refusal]:
    """The texts of a function with those of the functions that it calls."""
    for equation in functions.equations[function]:
        mine = [] if equation.constructor == equation.constructor.lower() else [(functions.types[function], equation.constructor)]
        for made in texts_of(functions, equation.right):
            yield Refusal(made.text, mine + made.constructors)


def kind_of(functions: Functions, refusal: Refusal) -> int:
    """The kind of a fault among those of its status, from the definition of its record."""
    constructors = [constructor for _, constructor in refusal.constructors]
    right = next(it.right for it in functions.equations["record_of"] if it.constructor == constructors[0])
    while not right.startswith("row "):
        equation = functions.equation(right.split()[0], constructors)
        assert equation, f"{right} has no equation for {constructors}"
        right = equation.right

    def value(call: "re.Match[str]") -> str:
        """The right side that a call has for one of the constructors."""
        equation = functions.equation(call[1], constructors)
        assert equation, f"{call[0]} has no equation for {constructors}"
        return equation.right

    kind = re.match(r"row \d+ (\d+|\(.*?\)) ", right)
    assert kind, f"{right} has no kind"
    terms = re.sub(r"([a-z]\w+) [\w.]+", value, kind[1].strip("()")).split("+")
    return sum(product_of(term) for term in terms)


def product_of(term: str) -> int:
    """The product of the numbers of a term."""
    product = 1
    for factor in term.split("*"):
        product *= int(factor)
    return product


def variants_of(crates: List[Crate]) -> Dict[Tuple[str, str], str]:
    """The comment of each variant of each public type of the code."""
    found: Dict[Tuple[str, str], str] = {}
    for item in [item for crate in crates for item in crate.items if item.kind == "enum"]:
        doc: List[str] = []
        for line in item.lines[1:]:
            match = VARIANT.match(line)
            if match:
                found[item.name, match[1]] = doc_of(doc)
            doc = [*doc, line] if line.strip().startswith("///") else []
    return found


def meaning_of(refusal: Refusal, variants: Dict[Tuple[str, str], str]) -> str:
    """What a refusal means: the comment of the innermost type that has one."""
    for type_name, constructor in reversed(refusal.constructors):
        for held in ("FarFault" if type_name == "Fault" else type_name, type_name):
            doc = variants.get((held, constructor)) or variants.get((held, constructor.replace("Overflow", "")))
            if doc:
                return doc
    return ""


def advice_of(top: Path) -> Dict[Tuple[int, int], str]:
    """The advice on each status and kind."""
    rows = ADVICE_ROW.findall((top / ADVICE).read_text(encoding="utf-8"))
    return {(int(status), int(kind)): sentence.replace('\\"', '"') for status, kind, sentence in rows}


def far_rows(top: Path, crates: List[Crate]) -> Iterator[List[str]]:
    """A row for each line of the program, by status and kind."""
    functions = read_functions(top / FAULTS, top / RECORDS)
    variants, advice = variants_of(crates), advice_of(top)
    statuses = {it.constructor: int(it.right) for it in functions.equations["fault_status"]}
    rows = []
    for refusal in refusals_of(functions, "fault_text"):
        status, kind = statuses[refusal.constructors[0][1]], kind_of(functions, refusal)
        sentence = advice.get((status, kind)) or advice.get((status, 0), "")
        meaning = escaped_angles(" ".join(meaning_of(refusal, variants).split()))
        rows.append((status, kind, [str(status), str(kind), code("far: " + refusal.text), meaning, escaped(sentence)]))
    return iter([row for _, _, row in sorted(rows, key=lambda row: row[:2])])


def enum_of_header(top: Path, name: str) -> Dict[int, Tuple[str, str]]:
    """The name and the comment of each value of an enumeration in the header for C."""
    text = (top / HEADER).read_text(encoding="utf-8").partition(f"enum {name} {{")[2].partition("};")[0]
    return {int(value): (constant, comment) for constant, value, comment in STATUS_ROW.findall(text)}


def other_meanings(top: Path, crates: List[Crate]) -> Dict[Tuple[int, int], str]:
    """What the faults mean that the program does not have: the comments of the types of arrays and numbers, and of the header."""
    variants = variants_of(crates)
    found = {(22, kind): escaped(comment) for kind, (_, comment) in enum_of_header(top, "drillolive_range").items()}
    path = top / OTHER_RECORDS
    for constructor, status, kind in OTHER_ROW.findall(path.read_text(encoding="utf-8")) if path.is_file() else []:
        docs = [variants[name, constructor] for name in ("BadPart", "FloatFault") if (name, constructor) in variants]
        found[int(status), int(kind)] = escaped_angles(" ".join("".join(docs[:1]).split()))
    return found


def library_rows(top: Path, crates: List[Crate]) -> Iterator[List[str]]:
    """A row for each status and kind that only calls of the library for C have."""
    statuses = {int(it.right) for it in read_functions(top / FAULTS).equations["fault_status"]}
    names, meanings = enum_of_header(top, "drillolive_status"), other_meanings(top, crates)
    for (status, kind), sentence in sorted(advice_of(top).items()):
        if status not in statuses:
            name, comment = names[status]
            meaning = meanings.get((status, kind)) or escaped(first_sentence(comment))
            yield [str(status), str(kind), code(name), meaning, escaped(sentence)]


def page_of_refusals(top: Path, crates: List[Crate]) -> str:
    """The page of refusals."""
    lines = ["# Refusals", "", "## far", ""]
    lines.append(
        "`far` ends with status 0, or with one line on standard error and the status of the line. A word in capitals is a number. "
        "The kind is the field `kind` of a fault in C. Lines and levels are counted from 1, and everything else from 0. "
        "The launcher `./far` ends with status 1 if it can run no program."
    )
    lines += ["", *table(["Status", "Kind", "Line", "Meaning", "Advice"], far_rows(top, crates))]
    lines += ["", "## The library for C", "", "Only calls of the library return these statuses."]
    lines += ["", *table(["Status", "Kind", "Name", "Meaning", "Advice"], library_rows(top, crates))]
    return page(lines)

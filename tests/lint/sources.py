"""Sources of the crates: short clauses, and rows that have their tests."""

import re
from pathlib import Path
from typing import Iterator, List, Tuple

from tree import CRATES, files, name_of, text_of

LONGEST = 200  # characters of a clause
SHARE = 200  # one clause in so many may be longer
BEGINNING = re.compile(r"^[ \t]*((?:requires|ensures)\*?\s*(?:\w+\s*)?\{)", re.MULTILINE)
ROWS = CRATES / "rows.tsv"
HEAD = ["row", "call", "test", "text"]
GIVEN = re.compile(r"^pub use ([\w:]+)::(?:\{([^}]*)\}|(\w+));$", re.MULTILINE)


def given_by(crate: Path) -> Iterator[Tuple[str, str]]:
    """The public items and modules of the crate in a folder, each after the crate that has it."""
    text = text_of(crate / "src" / "lib.rt")
    for module in re.findall(r"^pub mod (\w+);$", text, re.MULTILINE):
        yield crate.name, module
    for source, several, one in GIVEN.findall(text):
        first = source.split("::")[0]
        is_own = (crate / "src" / f"{first}.rt").exists() or not (crate.parent / first).exists()
        for item in (several or one).split(","):
            if item.strip():
                yield crate.name if is_own else first, item.split(" as ")[-1].strip()


def after_brace(text: str, place: int) -> int:
    """The place after the brace that closes the one before a place."""
    depth = 1
    for brace in re.compile("[{}]").finditer(text, place):
        depth += 1 if brace[0] == "{" else -1
        if not depth:
            return brace.end()
    raise LookupError(f"a brace is not closed: {text[place - 20:place]}")


def clauses_in(text: str) -> Iterator[Tuple[int, str]]:
    """The clauses of a source, each with the number of its first line: from `requires` or `ensures`
    to the closing brace, with one space for each run of white space."""
    for beginning in BEGINNING.finditer(text):
        clause = text[beginning.start(1):after_brace(text, beginning.end())]
        yield text.count("\n", 0, beginning.start(1)) + 1, " ".join(clause.split())


def long_clauses() -> Tuple[List[str], int]:
    """The clauses that are long, and how many clauses there are."""
    found = [(f"{name_of(file)}:{line} has a clause of {len(clause)} characters", len(clause))
             for file in files("crates/*/src/**/*.r[st]")
             for line, clause in clauses_in(text_of(file))]
    return [place for place, length in found if length > LONGEST], len(found)


def clauses() -> Iterator[str]:
    """At most one clause in 200 has more than 200 characters: such a clause needs a named
    definition, or is two clauses."""
    long, count = long_clauses()
    if len(long) * SHARE > count:
        yield from [*long, f"{len(long)} of {count} clauses are too many"]


def source_of(test: str) -> str:
    """The text of a test's file, or an edit's new lines; empty if there is no such test or edit."""
    if re.fullmatch(r"\w+/must-fail/\w+\.edit", test):
        return "\n".join(re.findall(r"^new:.*", text_of(CRATES / test), re.MULTILINE))
    *place, name = test.split("::")
    source = text_of(CRATES.joinpath(*place[:1], "src", *place[1:]).with_suffix(".rt"))
    found = re.search(rf"^ *#\[test\]\n *fn {re.escape(name)}\(", source, re.MULTILINE)
    return source if found else ""


def fault_of(parts: List[str], earlier: List[List[str]]) -> str:
    """What is wrong with the parts of a row below these rows; empty if nothing is."""
    if len(parts) != len(HEAD) or not all(part.strip() for part in parts):
        return f"it has not {len(HEAD)} parts"
    test, text = parts[2:]
    source = source_of(test)
    if not source:
        return f"there is no {test}"
    if " ".join(source.split()).count(" ".join(text.split())) != 1:
        return f"its text does not stand exactly once in {test}"
    return "its text stands twice" if parts[2:] in [row[2:] for row in earlier] else ""


def rows() -> Iterator[str]:
    """Each row of crates/rows.tsv says in words what must be shown, the call or command that shows
    it, the test, as CRATE::FILE::FUNCTION, and a text that its case alone has there. For a wrong
    body it says which call must not have it, and the edit, as CRATE/must-fail/NAME.edit. The text
    stands exactly once in the test's file, or in the edit's new lines, where line ends and spaces
    count as one space."""
    head, *lines = [line.split("\t") for line in text_of(ROWS).splitlines()]
    if head != HEAD:
        yield f"{name_of(ROWS)}: the first line is not {' '.join(HEAD)}"
    for place, parts in enumerate(lines):
        fault = fault_of(parts, lines[:place])
        if fault:
            yield f"{name_of(ROWS)}:{place + 2}: {fault}"

"""Documents: what they name and link to exists, and their lines are short."""

import re
from pathlib import Path
from typing import Iterator, Set

from tree import CRATES, TOP, files, name_of, text_of

FOLDERS = ("crates/", "docs/", "examples/", "bench/", "python/", "tests/")
MADE = ("crates/tacd/out", "python/geesefuton/bin/")  # made, and in no clone
WIDTH = 100


def missing_paths(text: str) -> Iterator[str]:
    """The paths in backquotes that are not there. One that ends in capitals, as `docs/NAME`, is
    none."""
    for quoted in sorted(set(re.findall(r"`([^`\s]+)", text))):
        if (quoted.startswith(FOLDERS) and not quoted.startswith(MADE) and ".." not in quoted
                and not re.search(r"/[A-Z]+$", quoted) and not is_there(quoted.rstrip(".,:;"))):
            yield f"there is no {quoted.rstrip('.,:;')}"


def is_there(path: str) -> bool:
    """Whether there is a path, where `*` and `{..}` stand for several."""
    choices = re.match(r"(.*)\{(.*)\}(.*)$", path)
    if choices:
        return all(is_there(choices[1] + each + choices[3]) for each in choices[2].split(","))
    return any(TOP.glob(path))


def missing_calls(text: str) -> Iterator[str]:
    """What a text calls `NAME` (`PATH`) and that is not there."""
    for name, path in re.findall(r"`([\w:]+)`\s+\(`([\w/.]+\.(?:rt|antt|py))`\)", text):
        found = text_of(TOP / path) + text_of(CRATES / path)
        if not re.search(rf"\b{re.escape(name.split('::')[-1])}\b", found):
            yield f"{path} has no {name}" if found else f"there is no file {path}"


def anchors(page: Path) -> Set[str]:
    """How links name the headings of a page."""
    heads = re.findall(r"(?m)^#+ (.*)$", text_of(page))
    return {re.sub(r"[^\w -]", "", head.lower()).replace(" ", "-") for head in heads}


def broken_links(file: Path) -> Iterator[str]:
    """The links of a page to a file or a heading that is not there."""
    for path, anchor in set(re.findall(r"\]\(([\w./-]*)(?:#([\w-]+))?\)", text_of(file))):
        target = file.parent / path if path else file
        if not target.exists() or (target.suffix == ".md" and anchor not in {"", *anchors(target)}):
            yield f"it links to {path}#{anchor}, which is not there"


def wide_lines(file: Path, is_prose: bool) -> Iterator[str]:
    """A fault for each line that is too wide; in prose tables, code and links may be."""
    fenced = False
    for number, line in enumerate(text_of(file).splitlines(), 1):
        fenced ^= line.startswith("```")
        may_be = is_prose and (fenced or line.lstrip().startswith(("|", "!["))
                               or line.startswith("    ") or "](" in line)
        if len(line) > WIDTH and not may_be:
            yield f"{name_of(file)}:{number}: wider than {WIDTH} columns"


def places() -> Iterator[str]:
    """The files, folders and calls that the documents name exist: a path in backquotes that begins
    with a folder of the repository, and `NAME` (`PATH`), a call, a type or a definition of that
    file, where PATH may leave out `crates/`; and so do what they link to. No line of prose or of a
    script has more than 100 columns."""
    for file in files("*.md", "docs/*.md", "examples/**/*.md", "python/*.md"):
        text = text_of(file)
        for fault in (*missing_paths(text), *missing_calls(text), *broken_links(file)):
            yield f"{name_of(file)}: {fault}"
        yield from wide_lines(file, is_prose=True)
    for file in files("**/*.py", "**/*.js", "**/*.mjs", "**/*.css", "tests/run", "tests/soak/run"):
        yield from wide_lines(file, is_prose=False)

"""The files of the repository, each read once, and the definitions among them."""

import os
import sys
from functools import lru_cache
from pathlib import Path
from typing import Iterator, List

TOP = Path(__file__).resolve().parents[2]
CRATES = TOP / "crates"
sys.path[:0] = [str(TOP / "docs"), str(TOP / "python")]

from definitions import Definitions, Module  # noqa: E402

NAMES_OF_CRATES = frozenset(each.name for each in CRATES.iterdir())


def cache_of(tree: Path) -> Path:
    """Where mypy keeps what it knows of a tree, so that two trees may be checked at once."""
    caches = os.environ.get("XDG_CACHE_HOME") or Path.home() / ".cache"
    return Path(caches, "geesefuton-mypy", *tree.parts[1:])


def files(*patterns: str) -> List[Path]:
    """The files that have one of these patterns, in order."""
    return sorted({file for pattern in patterns for file in TOP.glob(pattern)})


@lru_cache(maxsize=None)
def text_of(file: Path) -> str:
    """The text of a file; empty if there is none."""
    return file.read_text(encoding="utf-8") if file.exists() else ""


def name_of(file: Path) -> str:
    """Where a file stands in the repository."""
    return str(file.relative_to(TOP))


@lru_cache(maxsize=None)
def definitions() -> Definitions:
    """All definitions of specs/."""
    return Definitions()


def proofs() -> Iterator[Module]:
    """The modules of proofs/."""
    for file in files("crates/*/proofs/**/*.antt"):
        if file.name != "Lib.antt":
            yield Module(file)

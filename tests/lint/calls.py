"""Public calls: what users of the crates rely on keeps its type."""

import re
from collections import defaultdict
from functools import lru_cache
from pathlib import Path
from typing import Dict, Iterator, List, Set, Tuple

from sources import after_brace, given_by
from tree import CRATES, text_of

HEAD = ["crate", "item", "type"]
# What is no part of a type: comments, letters, strings and attributes; imports of definitions; and
# contracts, ghost parameters and ghost fields, each of them up to its brace.
ASIDE = re.compile(r"//.*|'(?:\\[^']+|[^'\\])'|\"(?:\\[\s\S]|[^\"\\])*\"|#!?\[[^\]]*\]")
IMPORT = re.compile(r"^ *(?:pub )?ghost use [^;]*;", re.M)
GHOST = re.compile(r"^ *(?:(?:requires|ensures)\*?\s*(?:\w+\s*)?"
                   r"|(?:pub(?:\(\w+\))? )?ghost \w+\s*[:=]\s*)\{", re.M)
# Items begin at the margin, and methods and fields four columns from it.
UP_TO_BODY = r"((?:[^{;]|;(?!\n))*)"
VALUE = re.compile(rf"^pub (const|fn) (\w+){UP_TO_BODY}", re.M)
METHOD = re.compile(rf"^    (pub )?fn (\w+){UP_TO_BODY}", re.M)
TYPE = re.compile(rf"^pub (struct|enum|trait) (\w+){UP_TO_BODY}(?:;|{{}}|{{(.*?)^}})", re.M | re.S)
IMPL = re.compile(rf"^impl\b{UP_TO_BODY}(?:{{}}|{{(.*?)^}})", re.M | re.S)
FIELD = re.compile(r"^    (pub )?(?:pub\(\w+\) )?(\w+:(?:.|\n(?!    \w))*)", re.M)
INNER_TYPE = re.compile(r"^    (type [^;]*);", re.M)
ARGUMENTS = re.compile(r"<(?:[^<>]|<[^<>]*>)*>")


def plain(text: str) -> str:
    """A source without what is no part of a type."""
    text, kept, end = IMPORT.sub("", ASIDE.sub("", text)), "", 0
    for beginning in GHOST.finditer(text):
        if beginning.start() >= end:
            kept += text[end:beginning.start()]
            end = after_brace(text, beginning.end())
            end += text[end] == ","
    return kept + text[end:]


def on_a_line(text: str) -> str:
    """A text with one space for each run of white space, and neither spaces nor a last comma
    inside brackets; and without the `mut` of a parameter's name."""
    text = re.sub(r"(?<=[(\[<]) |,? (?=[)\]>])|,(?= }|$)", "", " ".join(text.split()))
    return re.sub(r"(\(|, )mut ", r"\1", text)


def parts_of(kind: str, body: str) -> str:
    """In braces, the public fields of a struct, with `..` if there are others; the variants of an
    enum; or the types in a trait or an impl. It is empty if there are none."""
    parts: List[str] = [body] if kind == "enum" else INNER_TYPE.findall(body)
    if kind == "struct":
        fields = FIELD.findall(body)
        parts = [field for public, field in fields if public]
        parts += [".."] * (len(parts) < len(fields))
    return f" {{ {', '.join(map(on_a_line, parts))} }}" if parts else ""


def items_in(text: str, module: str) -> Iterator[Tuple[str, str]]:
    """The public items of a module, each with its type: constants; functions; structs, enums and
    traits; impls of traits, as `TRAIT for TYPE`; and methods, each with its impl's head if that is
    generic."""
    text = plain(text)
    for kind, name, rest in VALUE.findall(text):
        yield f"{module}::{name}" if kind == "const" else name, kind + on_a_line(rest)
    for kind, name, rest, body in TYPE.findall(text):
        yield name, kind + on_a_line(rest) + parts_of(kind, body)
        if kind == "trait":
            for _, method, rest in METHOD.findall(body):
                yield f"{name}::{method}", f"fn{on_a_line(rest)}"
    for rest, body in IMPL.findall(text):
        head = on_a_line(f"impl{rest}")
        name = ARGUMENTS.sub("", head[len("impl"):]).strip()
        if " for " in name:
            yield name, (head if "<" in head else "impl") + parts_of("impl", body)
        start = f"{head}: " if "<" in head else ""
        for public, method, rest in METHOD.findall(body):
            if public or " for " in name:
                yield f"{name.split(' for ')[-1]}::{method}", f"{start}fn{on_a_line(rest)}"


@lru_cache(maxsize=None)
def types_of(crate: Path) -> Dict[str, str]:
    """What the crate in a folder gives to others, or all that is public in a program: each item
    with its type, or with several types if several items have one name."""
    texts: Dict[str, Set[str]] = defaultdict(set)
    for file in (crate / "src").glob("**/*.rt"):
        for item, text in items_in(text_of(file), file.stem):
            texts[item].add(text)
    own = {item: " or ".join(sorted(found)) for item, found in texts.items()}
    if not (crate / "src" / "lib.rt").exists():
        return own
    types: Dict[str, str] = {}
    for origin, name in given_by(crate):
        found = own if origin == crate.name else types_of(crate.parent / origin)
        types.update((item, text) for item, text in found.items()
                     if name in item.split("::")[0].split(" for "))
    return types


def calls(crates: Path = CRATES) -> Iterator[str]:
    """Each row of crates/calls.tsv has, with tabs between them, a crate, a public item of it, and
    the item's type, which agrees with the sources: the parameters and the result of a call, the
    fields of a struct, the variants of an enum, or the types of a trait or of its impl."""
    head, *rows = [re.split("\t+", line, 2) for line in text_of(crates / "calls.tsv").splitlines()]
    if head != HEAD:
        yield f"crates/calls.tsv: the first line is not {' '.join(HEAD)}"
    for place, parts in enumerate(rows, 2):
        crate, item, due = (parts + ["", ""])[:len(HEAD)]
        stands = types_of(crates / crate).get(item, "missing, or not public")
        if stands != due:
            yield f"crates/calls.tsv:{place}: {item} of {crate} is {stands}; due is {due}"

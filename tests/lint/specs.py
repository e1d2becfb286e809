"""Definitions: one name for one thing, few arguments, and no way from what judges a log to the
search for a best allocation."""

import collections
import re
from pathlib import Path
from typing import Callable, Dict, Iterable, Iterator, List, Set, Tuple

from sources import given_by
from tree import CRATES, NAMES_OF_CRATES, TOP, definitions, name_of, proofs, text_of

from definitions import Definition, clauses_of

MOST = 6  # arguments
OPENING, CLOSING = "({[", ")}]"
BINDER = re.compile(r"([({])\s*([^\s:(){}→×]+(?:\s+[^\s:(){}→×]+)*)\s+:\s")
SOUND = "log_text.specs.SoundLog"
JUDGES = ["log_text", "log_reader", "reading_laws", "log_audit", "tourney", "link_audit"]
SEARCH = {"relaxation", "dual_bound", "allocator", "score_sheet"}


# Names.


def of_several(pairs: Iterable[Tuple[str, str]]) -> Iterator[Tuple[str, List[str]]]:
    """The names that are paired with several places, each with these."""
    places: Dict[str, Set[str]] = collections.defaultdict(set)
    for place, name in pairs:
        places[name].add(place.replace(".specs.", "."))
    yield from ((name, sorted(at)) for name, at in sorted(places.items()) if len(at) > 1)


def names_of_several() -> Iterator[str]:
    """The names that several modules of specs/ define."""
    everywhere = [(path, name) for path, module in definitions().modules.items()
                  for name in module.definitions]
    for name, keys in of_several(everywhere):
        yield f"{name}: {', '.join(keys)}"


def public_items() -> Iterator[Tuple[str, str]]:
    """The crates and their public items, without what a crate gives again from another one."""
    for crate in sorted(NAMES_OF_CRATES):
        yield from [(crate, item) for origin, item in given_by(CRATES / crate) if origin == crate]


def names() -> Iterator[str]:
    """The clauses of `tac` reach no two definitions of one name, no two crates make public items of
    one name, and no module of specs/ imports a name that it does not use."""
    clauses = clauses_of(CRATES / "tacd" / "src" / "top.rt", "tac")
    reached = definitions().reached([name for _, names in clauses.values() for name in names])
    # An operator is one word at several types, as `>>=` of a result and of an optional value.
    believed = [(path, name) for path, name in reached
                if path in definitions().modules and "◌" not in name]
    for name, keys in of_several(believed):
        yield f"the clauses of `tac` reach `{name}` in {' and in '.join(keys)}"
    for name, owners in of_several(public_items()):
        yield f"`{name}` is a public item of {' and of '.join(owners)}"
    for module in definitions().modules.values():
        for name in module.unused_imports():
            yield f"{module.crate}/{module.name}.{name} is imported and not used"


# Arguments.


def top_parts(text: str, sign: str) -> List[str]:
    """The parts of a text between the signs that stand in no bracket."""
    parts, depth = [""], 0
    for letter in text:
        depth += (letter in OPENING) - (letter in CLOSING)
        if letter == sign and depth == 0:
            parts.append("")
        else:
            parts[-1] += letter
    return parts


def groups(text: str) -> Tuple[List[str], str]:
    """The bracketed parts of a text, and the rest of it, without spaces."""
    found, rest, depth = [], "", 0
    for letter in text:
        if letter in OPENING:
            depth += 1
            if depth == 1:
                found.append("")
        if depth:
            found[-1] += letter
        elif not letter.isspace():
            rest += letter
        depth -= letter in CLOSING
    return found, rest


def bound(group: str) -> int:
    """How many arguments a bracketed part names: none if it is implicit, -1 if it binds nothing."""
    binder = BINDER.match(group)
    if binder is None:
        return -1
    return 0 if binder.group(1) == "{" else len(binder.group(2).split())


def count_in_type(text: str) -> int:
    """How many explicit arguments a type takes: those of each part before an arrow."""
    count = 0
    for part in top_parts(text, "→")[:-1]:
        found, rest = groups(part)
        counts = [bound(group) for group in found]
        count += sum(counts) if counts and not rest and -1 not in counts else 1
    return count


def count(definition: Definition) -> int:
    """How many explicit arguments a definition takes."""
    if re.match(r"\s*(?:pub )?(?:record|data) ", definition.lines[0]):
        parameters, *result = top_parts(" ".join(definition.lines).split(" where")[0], ":")
        named = sum(max(0, bound(group)) for group in groups(parameters)[0])
        return named + count_in_type(":".join(result))
    lines = [line.strip() for line in definition.lines]
    own = next((at for at, line in enumerate(lines)
                if at and line.split(" ")[0] == definition.name), len(lines))
    return count_in_type(" ".join(lines[:own]).partition(" : ")[2])


def is_lemma(definition: Definition) -> bool:
    """Whether a definition of proofs/ is a lemma. An abbreviation that ends in an equation is."""
    first = definition.lines[0].strip()
    if re.match(r"(?:pub )?(?:record|data) ", first):
        return False
    return not re.match(r"(?:abbrev|unfoldable) ", first) or " ≡ " in top_parts(first, "→")[-1]


def arguments() -> Iterator[str]:
    """A definition takes at most six explicit arguments, without those of the module around it;
    more are a record. Lemmas may take more."""
    for modules, private in (definitions().modules.values(), False), (proofs(), True):
        for module in modules:
            for one in module.definitions.values():
                if count(one) > MOST and not (private and is_lemma(one)):
                    yield f"{name_of(module.file)}:{one.line} `{one.name}` takes {count(one)}"


# Layers.


def crates_below() -> Dict[str, List[str]]:
    """Each crate with those that its line in crates.txt lists."""
    lines = [line.partition(":") for line in text_of(TOP / "crates.txt").splitlines()
             if not line.startswith("#")]
    return {head.split()[0]: below.split() for head, _, below in lines if head.split()}


def ways(start: str, next_of: Callable[[str], Iterable[str]]) -> Dict[str, List[str]]:
    """All that a start leads to, each with a way to it, the start first."""
    found, todo = {start: [start]}, [start]
    for place in todo:
        new = [other for other in dict.fromkeys(next_of(place)) if other not in found]
        found.update({other: found[place] + [other] for other in new})
        todo += new
    return found


def source_of(path: str) -> str:
    """The source of a type, given as CRATE.specs.declared.FILE.TYPE, where FILE may have dots."""
    crate, _, names = path.partition(".specs.declared.")
    parts = names.split(".")
    while parts:
        file = CRATES.joinpath(crate, "src", *parts[:-1], f"{parts[-1]}.rt")
        if file.exists():
            return str(file)
        parts.pop()
    raise FileNotFoundError(f"there is no source of {path}")


def imports_of_source(file: Path, crates: Iterable[str]) -> List[str]:
    """What a source imports: modules of definitions, crates, and other sources of its crate."""
    text, folder = text_of(file), CRATES / crate_of(str(file)) / "src"
    named = re.findall(r"^\s*(?:pub )?use (\w+)::(\w+)", text, re.M)
    own = [folder / f"{name}.rt" for first, name in named if first == "crate"]
    return (re.findall(r"^\s*ghost use Rattle\.([\w.]+?)(?:\.\{| as |;)", text, re.M)
            + [first for first, _ in named if first in crates]
            + [str(path) for path in own if path.exists()])


def behind_soundness(below: Dict[str, List[str]]) -> Dict[str, List[str]]:
    """All modules, sources and crates that the imports of the sound log's module lead to."""
    all_of_them = definitions()

    def next_of(place: str) -> Iterable[str]:
        place = all_of_them.given.get(place, place)
        module = all_of_them.modules.get(place)
        if module is not None:
            return [path for path, _ in module.imports.values()] + list(module.aliases.values())
        if place in below:
            return below[place]
        if place.endswith(".rt"):
            return imports_of_source(Path(place), below)
        if crate_of(place) not in below:
            return []  # of the toolchain's library
        if place.endswith(".specs"):
            return [path for path in all_of_them.modules if path.startswith(place + ".")]
        return [it[0] for (path, _), it in all_of_them.given_names.items()
                if path == place] or [source_of(place)]

    return ways(SOUND, next_of)


def crate_of(place: str) -> str:
    """The crate of a module, a source or a crate."""
    return (Path(place).relative_to(CRATES).parts[0] if place.endswith(".rt")
            else place.partition(".")[0])


def layers() -> Iterator[str]:
    """The imports of the module that says when a log is sound, and the lines in crates.txt of the
    crates that read, judge and count logs, do not lead to the crates that search."""
    below = crates_below()
    met = [way for place, way in behind_soundness(below).items() if crate_of(place) in SEARCH]
    for judge in JUDGES:
        met += [way for crate, way in ways(judge, lambda crate: below.get(crate, [])).items()
                if crate in SEARCH]
    for way in met:
        yield " > ".join(name_of(Path(place)) if "/" in place else place for place in way)

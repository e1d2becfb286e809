"""The definitions of `specs/`, read as text, and what a name in them leads to.

A module is a file of a crate's `specs/`. Its path is `CRATE.specs.NAME`, as imports write it. A
name is followed through imports, aliases and modules that are given again, to definitions, types of
the code (`declared`), limits and words of the toolchain's library. A call of the code is written as
NAME or TYPE::NAME.
"""

import re
from dataclasses import dataclass, field
from pathlib import Path
from typing import Dict, Iterable, List, Optional, Set, Tuple

CRATES = Path(__file__).absolute().parents[1] / "crates"
WORD = re.compile(r"[A-Za-z_][A-Za-z0-9_'?]*(?:\.[A-Za-z_][A-Za-z0-9_'?]*)*")
HEADS = r"(?:(?:pub|abbrev|unfoldable) )*"
USES = ("use ", "pub use ", "unfoldable pub use ")
USE_FORMS = (r"(?:unfoldable )?(?:pub )?use (?:Rattle\.)?([\w.]+)\.\{(.*)\}",
             r"use Rattle\.([\w.]+) as (\w+)", r"pub use Rattle\.([\w.]+)")
Target = Tuple[str, str]  # the path of a module, and a name in it


@dataclass
class Definition:
    """A definition: its name, the numbers of its first line, counted from 1, and of its last, and
    its lines without comments."""

    name: str
    line: int
    last: int = 0
    lines: List[str] = field(default_factory=list)


class Module:
    """A module of `specs/`: its imports and its definitions, without comments and blank lines."""

    def __init__(self, file: Path) -> None:
        parts = file.relative_to(CRATES).with_suffix("").parts
        self.crate, self.name, self.path, self.file = parts[0], parts[-1], ".".join(parts), file
        self.imports: Dict[str, Target] = {}
        self.aliases: Dict[str, str] = {}
        self.given_again: List[str] = []
        self.passed_on: Set[str] = set()
        self.definitions: Dict[str, Definition] = {}
        self.parameters: Dict[str, List[str]] = {}
        self._targets: Dict[str, List[Target]] = {}
        self.lines = file.read_text(encoding="utf-8").split("\n")
        self._read_imports()
        self._read_definitions()
        self.operators = {name.replace("◌", ""): name
                          for name in [*self.imports, *self.definitions]
                          if "◌" in name and not re.match(r"[\w◌]+$", name)}

    def _read_imports(self) -> None:
        for line in self.lines:
            several, whole, given = (re.match(form + "$", line) for form in USE_FORMS)
            if several:
                names = imported(several[1], several[2])
                self.imports.update(names)
                self.passed_on.update(names if "pub use " in line else [])
            elif whole:
                self.aliases[whole[2]] = whole[1]
            elif given:
                self.given_again.append(given[1])

    def _read_definitions(self) -> None:
        level, current, block = 0, None, None
        for number, line in enumerate(self.lines, 1):
            text, depth = line.strip(), len(line) - len(line.lstrip())
            if not text or text.startswith(("--", *USES, "pub mod ", "infix")):
                continue
            if depth == 0:
                level, block = 0, None
                if text.startswith("module "):
                    block, level, current = [line], 2, None
                    continue
            if text in ("mutual", "abbrev mutual"):
                level, current = depth + 2, None
                continue
            if depth == level:
                named = (re.match(HEADS + r"(?:record|data) ([^\s:({]+)", text)
                         or re.match(HEADS + r"([^\s(){}:]+) :", text))
                equation = re.match(r"[^\s(){}]+", text)
                if named:
                    current = named[1]
                    self.definitions.setdefault(current, Definition(current, number))
                elif equation and equation[0] in self.definitions:
                    current = equation[0]
                if block and current is not None:
                    self.parameters.setdefault(current, block)
            if current is not None:
                one = self.definitions.setdefault(current, Definition(current, number))
                one.lines.append(line)
                one.last = number
            elif block is not None:
                block.append(line)

    def target(self, word: str) -> Optional[Target]:
        """What a word stands for: an imported name, one behind an alias, or one of the module."""
        first, _, rest = word.partition(".")
        if first in self.imports:
            return self.imports[first]
        if first in self.aliases and rest:
            return self.aliases[first], rest.split(".")[0]
        return (self.path, first) if first in self.definitions else None

    def targets(self, name: str) -> List[Target]:
        """What the words and operators of a definition stand for, each once, in order."""
        if name not in self._targets:
            self._targets[name] = self._found_targets(name)
        return self._targets[name]

    def _found_targets(self, name: str) -> List[Target]:
        text = "\n".join(self.definitions[name].lines + self.parameters.get(name, []))
        spaced = text.replace("\n", " ")
        words = WORD.findall(text) + [sign for sign in self.operators if f" {sign} " in spaced]
        found = (self.target(self.operators.get(word, word)) for word in words)
        return list(dict.fromkeys(target for target in found if target))

    def unused_imports(self) -> List[str]:
        """The names that an import brings and no other line has, but those that are passed on."""
        lines = (line for line in self.lines if not line.lstrip().startswith(("--", *USES)))
        used = set(re.split(r"[\s(){},;.]+", "\n".join(lines)))
        if "do" in used:
            used.add(">>=")  # what a `do` block stands for
        return [name for name in [*self.imports, *self.aliases]
                if name not in used and name not in self.passed_on
                and not used.issuperset(part for part in name.split("◌") if part)]


def imported(path: str, items: str) -> Dict[str, Target]:
    """The names that an import of some items brings, and what each stands for."""
    pairs = [[name.strip() for name in item.split(" as ")] for item in items.split(",")]
    return {pair[-1]: (path, pair[0]) for pair in pairs}


class Definitions:
    """All modules of the repository."""

    def __init__(self) -> None:
        self.modules: Dict[str, Module] = {}
        self.given: Dict[str, str] = {}
        self.given_names: Dict[Target, Target] = {}
        for file in sorted(CRATES.glob("*/specs/*.antt")):
            module = Module(file)
            if module.name == "Lib":
                specs = f"{module.crate}.specs"
                self.given.update({f"{specs}.{path.split('.')[-1]}": path
                                   for path in module.given_again})
                self.given_names.update({(specs, name): it for name, it in module.imports.items()})
            elif module.definitions:
                self.modules[module.path] = module
            else:
                self.given_names.update({(module.path, name): it
                                         for name, it in module.imports.items()})
        for module in self.modules.values():
            module.imports = {name: self.owner(it) for name, it in module.imports.items()}

    def owner(self, target: Target) -> Target:
        """What a name stands for where a crate's `specs/` give it, or its module, again."""
        while target in self.given_names:
            target = self.given_names[target]
        path, name = target
        return self.given.get(path, path), name

    def reached(self, start: Iterable[Target], stop: Iterable[Target] = ()) -> Dict[Target, None]:
        """All that these names lead to, in the order in which it was met: definitions, types of the
        code, limits and words of the library. A field or a constructor stands for its type. What
        the names of `stop` say is not followed."""
        todo, met = list(start), set()
        found: Dict[Target, None] = {}
        while todo:
            path, name = todo.pop(0)
            path, name = self.owner((path, name))
            if (path, name) in met:
                continue
            met.add((path, name))
            module = self.modules.get(path)
            if module is None:
                found[path, name] = None
            elif name in module.definitions:
                found[path, name] = None
                todo += [] if (path, name) in stop else module.targets(name)
            else:
                row = re.compile(r"\s+(?:pub )?%s :" % re.escape(name))
                todo += [(path, owner.name) for owner in module.definitions.values()
                         if any(row.match(line) for line in owner.lines[1:])]
        return found


CALLS = re.compile(r"^(?:impl|(?:pub(?:\(\w+\))? )?trait)\b([^{]*)\{|^(\})"
                   r"|^[ \t]*(?:pub(?:\(\w+\))? )?(?:const )?fn (\w+)", re.M)
GHOST_USE = re.compile(r"ghost use Rattle\.([\w.]+?)(?:\.\{(.*?)\}| as (\w+));")


def head_of(text: str, call: str) -> Tuple[int, int]:
    """Where a call begins in the text of a source, and where its clauses end. Raises a LookupError
    if there is not exactly one such call."""
    parts, owner, found = list(CALLS.finditer(text)), "", []
    for part in parts:
        header, closing, name = part.groups()
        if header is not None:
            header = re.sub(r"^<.*?>(?= \w)", "", header)
            owner = re.findall(r"\w+", header.split(" for ")[-1])[0]
        owner = "" if closing else owner
        if name and call == (f"{owner}::{name}" if owner else name):
            found.append(part.start(3))
    if len(found) != 1:
        raise LookupError(f"there are {len(found)} calls {call}")
    bodies = [*re.finditer(r"^[ \t]*\{$", text, re.M), *parts]
    return found[0], min((b.start() for b in bodies if b.start() > found[0]), default=len(text))


def clauses_of(file: Path, call: str) -> Dict[str, Tuple[int, List[Target]]]:
    """The clauses of a call of the code by their names, each with its line and what the names of
    its text stand for. A clause without a name has an empty one, and what is required is named
    `requires NAME`. Raises a LookupError if there is not exactly one such call."""
    text = file.read_text(encoding="utf-8")
    names: Dict[str, Target] = {}
    modules: Dict[str, str] = {}
    for path, several, alias in GHOST_USE.findall(text):
        names.update(imported(path, several) if several else {})
        modules.update({alias: path} if alias else {})
    begin, end = head_of(text, call)
    found: Dict[str, Tuple[int, List[Target]]] = {}
    for clause in re.finditer(r"(?:ensures |(requires ))(?:(\w+) )?\{", text[begin:end]):
        last, depth = begin + clause.end(), 1
        while depth:
            depth += {"{": 1, "}": -1}.get(text[last], 0)
            last += 1
        line = text.count("\n", 0, begin + clause.start()) + 1
        targets = found.setdefault("".join(filter(None, clause.groups())), (line, []))[1]
        for word in WORD.findall(text, begin + clause.end(), last):
            first, _, rest = word.partition(".")
            if first in names:
                targets.append(names[first])
            elif first in modules and rest:
                targets.append((modules[first], rest.split(".")[0]))
    return found

#!/usr/bin/env python3
"""The definitions on which the headline depends, and the places of each rule of the game.

    docs/reading.py            checks the definitions and docs/READING.md
    docs/reading.py --print    prints the definitions, to be read beside docs/READING.md
    docs/reading.py --rows     prints them with their rows, and what each row states
    docs/reading.py --write    writes that page's "Rule by rule", from docs/rules.tsv

From the clause `headline` of `tac` it follows each name through `specs/`. A definition is printed
as it stands there, below those that it uses and below its rule, which is the comment above it. That
comment may end with lines such as `-- Row: NAME (worked_rows/proofs/FILE.antt)`, each for a lemma
that tries the definition; so do lemmas of a rule of docs/rules.tsv, below those of its definitions
to which they lead. docs/left_out.tsv has the definitions that are printed by their types alone.

A line of docs/rules.tsv is a rule of a heading of docs/GAME.md with its places, `; ` between them:
pages as DOCUMENT/HEADING; definitions, calls, clauses, lemmas and tests as CRATE/FILE:NAME, where a
method is TYPE::NAME and a clause CALL.CLAUSE; and must-fail edits as CRATE/NAME.

It fails if a definition has no rule or stands above one that it uses, if a row does not lead to its
definition, if the key of docs/READING.md leaves out a word of the library, if a place or a link is
wrong, if no clause of a rule leads to one of its definitions, or if neither a clause of the rule
nor the headline leads to another one.
"""

import argparse
import re
import signal
import sys
from itertools import takewhile
from pathlib import Path
from typing import Dict, Iterable, Iterator, List, Set, Tuple

DOCS = Path(__file__).absolute().parent
sys.path.insert(0, str(DOCS))  # also where this file is a link to another folder's

from definitions import Definitions, Module, Target, clauses_of, head_of  # noqa: E402

CRATES = DOCS.parent / "crates"
TOP, LIMITS = CRATES / "tacd/src/top.rt", CRATES / "tac_base/src/limits.rt"
PAGE = DOCS / "READING.md"
OF_LIMITS = "tac_base.specs.declared.limits.TheConstants"
ROW = re.compile(r" *-- Row: (\w+) \((\w+)/proofs/(\w+)\.antt\)$")
DEFINED = r"^ *(?:(?:pub|abbrev|unfoldable|record|data|fn|struct|enum|trait) )*%s[ :<(]"
UNRULED = "Where this differs from TAC Classic"  # a heading of GAME.md that repeats rules
MADE = "\n### "  # where the tables of rules begin in READING.md, which go on to its end
COLUMNS = ["rule", "in words", "definition", "code", "clause", "refused edit", "worked row or test"]


def text_of(file: Path) -> str:
    """The text of a file."""
    return file.read_text(encoding="utf-8")


def lines_of(table: str) -> List[List[str]]:
    """The lines of a table of docs/ below its head, each in its parts."""
    return [line.split("\t") for line in text_of(DOCS / table).splitlines()[1:]]


def key_lines() -> List[str]:
    """The key of READING.md."""
    return text_of(PAGE).partition("\n## Key\n")[2].partition("\n## ")[0].strip().split("\n")


def line_of(file: Path, name: str) -> int:
    """The line where a file defines a name. Raises a LookupError if it does not."""
    places = [place.start() for place in re.finditer(DEFINED % name, text_of(file), re.M)]
    return text_of(file).count("\n", 0, places[0]) + 1


def target_of(place: str) -> Target:
    """The definition at CRATE/FILE:NAME."""
    path, _, name = place.replace("/", ".specs.", 1).partition(":")
    return path, name


class Reading:
    """The definitions of the headline, and what is wrong with them."""

    def __init__(self, with_rows: bool = False) -> None:
        self.all = Definitions()
        self.with_rows = with_rows  # whether what each row states is printed
        self.left_out = {target_of(place): why for place, why in lines_of("left_out.tsv")}
        self.found = self.all.reached(clauses_of(TOP, "tac")["headline"][1], self.left_out)
        self.faults = [f"docs/left_out.tsv: the headline does not reach {name} of {path}"
                       for path, name in self.left_out.keys() - self.found]
        met = {path for path, _ in self.found}
        self.names = {path: [name for name in module.definitions if (path, name) in self.found]
                      for path, module in self.all.modules.items() if path in met}
        self.rows = [
            (target_of(place), re.sub(r"(\w+)/(\w+):(\w+)", r"-- Row: \3 (\1/proofs/\2.antt)", row))
            for *_, places, _, _, _, rows in lines_of("rules.tsv")
            for place in places.split("; ") for row in filter(None, rows.split("; "))]
        self.proofs: Dict[str, Module] = {}
        self.told: Set[Target] = set()  # what is printed once: types, rows, heads of blocks
        self.count = 0  # the lines of the definitions that were printed, without comments

    def used(self, path: str) -> List[str]:
        """The other modules that the definitions of a module use."""
        names = [name for name in self.names[path] if (path, name) not in self.left_out]
        targets = [target for name in names for target in self.all.modules[path].targets(name)]
        used = dict.fromkeys(self.all.owner(target)[0] for target in targets)
        return [other for other in used if other in self.names and other != path]

    def chapters(self) -> Dict[str, List[str]]:
        """The modules of each chapter, each below those that it uses."""
        heads = {at: head for head, places in lines_of("chapters.tsv") for at in places.split()}
        chapters: Dict[str, List[str]] = {head: [] for head in heads.values()}

        def place_of(path: str) -> str:
            crate, name = path.split(".")[0], path.replace(".specs.", "/")
            return name if name in heads else crate if crate in heads else list(heads)[-1]

        def put(path: str) -> None:
            chapter = chapters[heads[place_of(path)]]
            for used in self.used(path) if path not in chapter else ():
                if heads[place_of(used)] == heads[place_of(path)]:
                    put(used)
                elif used not in chapters[heads[place_of(used)]]:
                    self.faults.append(f"{path} uses {used}, which stands below it")
            chapter += [] if path in chapter else [path]

        for path in sorted(self.names, key=lambda path: list(heads).index(place_of(path))):
            put(path)
        return chapters

    def lemma(self, path: str, name: str) -> Tuple[List[str], Set[Target]]:
        """The statement of a lemma of `proofs/`, and all to which it leads."""
        statement: List[str] = []
        outside: List[Target] = []
        todo = [(path, name)]
        for path, word in todo:
            file = CRATES / (path.replace(".", "/") + ".antt")
            if path not in self.proofs and file.exists():
                self.proofs[path] = Module(file)
            if path in self.proofs and word in self.proofs[path].definitions:
                lines = self.proofs[path].definitions[word].lines
                statement = statement or [lines[0], *takewhile(re.compile(" ").match, lines[1:])]
                for target in self.proofs[path].targets(word):
                    inside = ".proofs." in target[0] and target not in todo
                    (todo if inside else outside).append(target)
        return statement, set(self.all.reached(outside))

    def once(self, place: str, name: str, lines: Iterable[str]) -> Iterable[str]:
        """These lines, or none if they were printed before."""
        is_new = (place, name) not in self.told
        self.told.add((place, name))
        return lines if is_new else ()

    def definition(self, path: str, name: str) -> Iterator[str]:
        """A definition with its rule and its rows."""
        module = self.all.modules[path]
        here, lines = module.definitions[name], module.lines
        above = [*takewhile(re.compile(" *--(?! ----)").match, lines[here.line - 2 :: -1])][::-1]
        rows = [line.strip() for line in above if ROW.match(line)]
        if len(rows) == len(above):
            self.faults.append(f"{name} of {path} has no rule above it")
        shown = lines[here.line - 1 : here.last]
        margin = re.sub(r"\S.*", "", shown[0])
        block = next(line for line in lines[here.line - 1 :: -1] if re.match("[^ -]", line))
        yield from self.once(path, block, [block] if margin else [])
        if (path, name) in self.left_out:
            deeper = takewhile(re.compile(margin + " ").match, shown[1:])
            shown = [shown[0], *(() if shown[0].endswith(" where") else deeper)]
            shown.append(f"{margin}-- Left out: {self.left_out[path, name]}")
        self.count += sum(bool(line) and not line.lstrip().startswith("--") for line in shown)
        yield from above[: len(above) - len(rows)] + shown
        for row in dict.fromkeys(rows + [row for one, row in self.rows if one == (path, name)]):
            lemma, crate, file = ROW.findall(row)[0]
            statement, leads_to = self.lemma(f"{crate}.proofs.{file}", lemma)
            if (path, name) in leads_to:
                if self.with_rows or (path, name) in self.left_out:
                    yield margin + row
                    yield from self.once(file, lemma, [f"{margin}    {line}" for line in statement])
            elif row in rows:
                self.faults.append(f"the row {lemma} does not lead to {name} of {path}")
        yield ""

    def types(self, path: str) -> Iterator[str]:
        """The types of the code that the definitions of a module are the first to name."""
        module = self.all.modules[path]
        for target, _ in (each for name in self.names[path] for each in module.targets(name)):
            crate, _, rest = target.partition(".specs.declared.")
            *parts, name = rest.replace(".TheVariants", "").split(".")
            file = CRATES / crate / "src" / f"{'/'.join(parts)}.rt"
            pattern = rf"(?:^(?:///|#\[)[^\n]*\n)*^pub (?:struct|enum) {name}\b.*?(?:^\}}|;$)"
            found = re.search(pattern, text_of(file), re.M | re.S) if file.exists() else None
            if found:
                shown = re.sub(r"^ *#\[.*\n", "", found[0], flags=re.M)
                yield from self.once(str(file), name, [shown, ""])

    def module(self, path: str) -> Iterator[str]:
        """A module: what it says first, where it renames what it uses, and its definitions."""
        module = self.all.modules[path]
        lines = module.lines
        said = str([module.definitions[name].lines for name in self.names[path]])
        yield f"---- {path.replace('.', '/')}.antt"
        yield from takewhile(re.compile("--").match, lines)
        for line in lines:
            renamed = re.findall(r" as (\w+)", line) if line.startswith("use ") else []
            yield from [line] if any(re.search(rf"\b{name}\b", said) for name in renamed) else []
        yield from ["", *self.types(path)]
        for name in self.names[path]:
            yield from self.definition(path, name)

    def printed(self) -> Iterator[str]:
        """The key, the limits, the clause of the headline, and the definitions by chapters."""
        yield from (f"-- {line}".rstrip() for line in key_lines() if line != "```")
        for name, value in re.findall(r"pub const (\w+): \w+ = (\w+)", text_of(LIMITS)):
            yield from [f"-- {name} = {value}"] if (OF_LIMITS, name) in self.found else []
        clauses = text_of(TOP)[slice(*head_of(text_of(TOP), "tac"))].rstrip()
        for part in re.split(r"\n(?= +(?:ensures|requires|//) )", f"\nfn {clauses}"):
            yield from [] if re.match(r" +(?:ensures (?!headline)|//)", part) else [part]
        for heading, modules in self.chapters().items():
            yield from ["", "=" * 100, heading, "=" * 100]
            for path in modules:
                yield from self.module(path)

    def wrong_on_page(self) -> Iterator[str]:
        """What is wrong with READING.md: words that its key leaves out, the picture, and links."""
        key = "\n".join(key_lines())
        for path, name in self.found:
            is_ours = (CRATES / path.split(".")[0]).exists() or f"`{name}`" in key
            yield from [] if is_ours or "◌" in name else [f"READING.md: the key lacks {name}"]
        drawn = re.findall(r"\b(?:[a-z]+_[a-z_]+|[A-Z]\w+[A-Z]\w+)", text_of(PAGE).split("```")[1])
        for name in set(drawn) - {name for _, name in self.found}:
            yield f"READING.md: the headline does not reach {name} of the picture"
        for name, link in re.findall(r"\[`(\S+)`\]\(([^)]*\.(?:antt|rt))\)", text_of(PAGE)):
            try:
                line_of(DOCS / link, name)
            except (LookupError, OSError):
                yield f"READING.md: {name} is not at {link}"


class Rules:
    """The tables of rules in READING.md, and what is wrong with them."""

    def __init__(self, definitions: Definitions) -> None:
        self.all, self.faults, self.lines = definitions, list[str](), list[str]()
        self.headline = set(definitions.reached(clauses_of(TOP, "tac")["headline"][1]))
        self.reached: Set[Target] = set()  # what the clauses of a rule lead to
        self.anchors: Dict[str, Dict[str, str]] = {}  # of the headings of each page
        for page in DOCS.glob("*.md"):
            heads = re.findall(r"^##+ (.*)$", text_of(page), re.M)
            anchors = [re.sub(r"[^\w -]", "", head.lower()).replace(" ", "-") for head in heads]
            self.anchors[page.stem] = dict(zip(heads, anchors))
        for heading, *rest in lines_of("rules.tsv"):
            if f"### {heading}" not in self.lines:
                self.lines += ["", f"### {heading}", "", f"| {' | '.join(COLUMNS)} |"]
                self.lines.append("|---" * len(COLUMNS) + "|")
            self.lines.append(f"| {' | '.join(self.row(heading, *rest))} |")
        for heading in self.anchors["GAME"]:
            if heading != UNRULED and f"### {heading}" not in self.lines:
                self.faults.append(f"docs/rules.tsv has no rule of the heading {heading}")

    def row(self, heading: str, rule: str, pages: str, *cells: str) -> Iterator[str]:
        """The cells of a rule."""
        yield rule
        self.reached = set()
        for kind, cell in zip(COLUMNS[1:], [f"GAME/{heading}; {pages}", *cells]):
            links = []
            for place in filter(None, cell.split("; ")):
                try:
                    links.append(self.link(kind, place))
                except (LookupError, OSError):
                    self.faults.append(f"docs/rules.tsv, {rule}: there is no {kind} {place}")
            yield " · ".join(links)
        due = set(map(target_of, cells[0].split("; ")))
        if not self.reached & due or due - self.reached - self.headline:
            self.faults.append(f"docs/rules.tsv, {rule}: no clause leads to its definition")

    def link(self, kind: str, place: str) -> str:
        """A link to a place. Raises an OSError or a LookupError if there is no such place."""
        crate, _, rest = place.partition("/")
        if kind == "in words":
            anchor = f"#{self.anchors[crate][rest]}" if rest else ""
            return f"[{', '.join(filter(None, [crate, rest]))}]({crate}.md{anchor})"
        path, _, name = rest.partition(":")
        file = CRATES / crate / "src" / f"{path}.rt"
        if kind == "clause":
            call, _, name_of_clause = name.partition(".")
            line, targets = clauses_of(file, call)[name_of_clause]
            self.reached.update(self.all.reached(targets))
        elif kind == "code":
            line = text_of(file).count("\n", 0, head_of(text_of(file), name)[0]) + 1
        elif kind == "refused edit":
            file, line, name = CRATES / crate / "must-fail" / f"{path}.edit", 1, place
            file.stat()
        else:
            folder = "specs" if kind == "definition" else "proofs"
            lemmas = CRATES / crate / folder / f"{path}.antt"
            file = lemmas if kind == "definition" or lemmas.exists() else file
            line = line_of(file, name)
        return f"[`{name}`](../{file.relative_to(DOCS.parent)}#L{line})"


def main() -> int:
    """Checks, prints or writes; 1 if something is wrong."""
    kept = argparse.RawDescriptionHelpFormatter
    parser = argparse.ArgumentParser(description=__doc__, formatter_class=kept)
    parser.add_argument("--print", action="store_true", help="print the definitions")
    parser.add_argument("--rows", action="store_true", help="print them with their rows")
    parser.add_argument("--write", action="store_true", help="write the tables of rules")
    options = parser.parse_args()
    reading = Reading(options.rows)
    printed = "\n".join(reading.printed())
    count = sum(map(len, reading.names.values()))
    size = f"{reading.count} lines in {count} definitions, {len(reading.left_out)} of them by type"
    if options.print or options.rows:
        signal.signal(signal.SIGPIPE, signal.SIG_DFL)  # the reader may have seen enough
        print(f"{printed}\n-- {size}")
        return 0
    rules = Rules(reading.all)
    page = "\n".join([text_of(PAGE).partition(MADE)[0].rstrip(), *rules.lines, ""])
    if options.write:
        PAGE.write_text(page, encoding="utf-8")
    faults = [*reading.faults, *reading.wrong_on_page(), *rules.faults]
    faults += [] if text_of(PAGE) == page else ["the tables of rules are old: run it with --write"]
    for fault in faults:
        print(f"reading.py: {fault}")
    print(f"reading.py: {len(faults) or 'no'} faults; {size}")
    return 1 if faults else 0


if __name__ == "__main__":
    sys.exit(main())

"""The rooms of the package: which module imports which, by the syntax alone."""

import ast
from pathlib import Path
from typing import Dict, Iterator, List, NamedTuple, Optional, Set, Tuple

PACKAGE = Path(__file__).resolve().parents[2] / "python" / "geesefuton"
# The lowest first; those of one line stand beside each other. A name is a room if it is a folder,
# and otherwise a module of the package's own folder.
ORDER = (("program", "processes", "arguments"),
         ("agent_arguments", "link_record", "network", "records"), ("link",), ("playing",),
         ("hosting", "learning"), ("experiments",), ("practice",), ("doctor", "quickstart"),
         ("front",), ("__main__",))
BASE = 0  # modules of one room, and those of the base, may import each other
MOST_LINES = 500
OF_TUPLES = {"_asdict", "_fields", "_make", "_replace"}  # what anybody may use of a named tuple


class Module(NamedTuple):
    """A module of the package.

    Attributes:
        name: Its name, such as `geesefuton.hosting.lobby`.
        file: Where it stands.
        lines: How many lines it has.
        tree: Its syntax.
    """

    name: str
    file: Path
    lines: int
    tree: ast.Module

    @property
    def room(self) -> str:
        """Its room; "" for the package itself."""
        parts = self.name.split(".")
        return parts[1] if len(parts) > 1 else ""


class Import(NamedTuple):
    """An import: where it stands, the module, and of what it takes its name; None for all of it."""

    line: int
    module: str
    taken: Optional[str]
    name: str


def read_modules(package: Path) -> Dict[str, Module]:
    """All modules of the package in a folder by their names."""
    modules = {}
    for file in sorted(package.rglob("*.py")):
        name = ".".join(file.relative_to(package.parent).with_suffix("").parts)
        name, text = name.replace(".__init__", ""), file.read_text(encoding="utf-8")
        modules[name] = Module(name, file, text.count("\n"), ast.parse(text, str(file)))
    return modules


def imports_of(module: Module, modules: Dict[str, Module]) -> Iterator[Import]:
    """What a module imports of the package. A text that names a module imports it as well."""
    for node in ast.walk(module.tree):
        if isinstance(node, ast.Constant) and isinstance(node.value, str):
            if node.value.partition(":")[0] in modules:
                yield Import(node.lineno, node.value.partition(":")[0], None, "")
        if isinstance(node, ast.Import):
            for alias in node.names:
                yield Import(node.lineno, alias.name, None, alias.asname or alias.name)
        elif isinstance(node, ast.ImportFrom):
            for alias in node.names:
                whole, name = f"{node.module}.{alias.name}", alias.asname or alias.name
                yield Import(node.lineno, *((whole, None) if whole in modules else
                                            (node.module or "", alias.name)), name)


def place_of(room: str) -> int:
    """How high a room stands; below 0 if it is not listed."""
    return next((place for place, rooms in enumerate(ORDER) if room in rooms), -1)


def bad_imports(module: Module, modules: Dict[str, Module]) -> Iterator[str]:
    """A fault for each import that does not go downwards, or takes a private name."""
    if module.room and place_of(module.room) < 0:
        yield f"{where(module, 1)}: the room {module.room} is not listed in tests/lint/rooms.py"
    for each in imports_of(module, modules):
        if each.module.split(".")[0] != "geesefuton":
            continue
        room = (each.module.split(".") + [""])[1]
        own, other = place_of(module.room), place_of(room)
        if room and room != module.room and not (other < own or other == own == BASE):
            yield (f"{where(module, each.line)}: {module.room or 'the package'} may not import "
                   f"{each.module}")
        if each.taken is not None and is_private(each.taken):
            yield f"{where(module, each.line)}: {each.taken} is private to {each.module}"


def is_private(name: str) -> bool:
    """Whether a name is private: it begins with one underscore."""
    return name.startswith("_") and not name.startswith("__") and name not in {"_", *OF_TUPLES}


def where(module: Module, line: int) -> str:
    return f"{module.file}:{line}"


def own_names(tree: ast.AST) -> Set[str]:
    """The private names that a piece of syntax defines: methods, fields and attributes."""
    names: Set[str] = set()
    for node in ast.walk(tree):
        if isinstance(node, (ast.FunctionDef, ast.AsyncFunctionDef, ast.ClassDef)):
            names.add(node.name)
        elif isinstance(getattr(node, "ctx", None), ast.Store):
            names.add(getattr(node, "id", getattr(node, "attr", "")))
    return {name for name in names if is_private(name)}


def inherited(module: Module, of: ast.ClassDef, modules: Dict[str, Module]) -> Set[str]:
    """The private names of the classes of other modules that a class extends."""
    origins = {each.name: each for each in imports_of(module, modules)}
    names: Set[str] = set()
    for base in of.bases:
        name, taken = class_of(base, origins)
        other = modules.get(name)
        for node in ast.walk(other.tree) if other else ():
            if isinstance(node, ast.ClassDef) and node.name == taken and other:
                names |= own_names(node) | inherited(other, node, modules)
    return names


def class_of(base: ast.expr, origins: Dict[str, Import]) -> Tuple[str, Optional[str]]:
    """The module and the name of an imported class; empty and None if it is no such class."""
    attribute = base.attr if isinstance(base, ast.Attribute) else None
    place = base.value if isinstance(base, ast.Attribute) else base
    origin = origins.get(place.id) if isinstance(place, ast.Name) else None
    if origin is None or (origin.taken is None) == (attribute is None):
        return "", None
    return origin.module, origin.taken or attribute


def bad_members(module: Module, modules: Dict[str, Module]) -> Iterator[str]:
    """A fault for each private member of another module that a module uses."""
    known = own_names(module.tree)
    for node in ast.walk(module.tree):
        if isinstance(node, ast.ClassDef):
            theirs = inherited(module, node, modules)
            for name in sorted(theirs & (own_names(node) | used_in(node))):
                yield f"{where(module, node.lineno)}: {node.name} uses {name} of what it extends"
        elif (isinstance(node, ast.Attribute) and is_private(node.attr) and node.attr not in known
              and not (isinstance(node.value, ast.Name) and node.value.id == "self")):
            yield f"{where(module, node.lineno)}: {node.attr} is private to another module"


def used_in(node: ast.AST) -> Set[str]:
    """The names of the attributes that a piece of syntax uses."""
    return {each.attr for each in ast.walk(node) if isinstance(each, ast.Attribute)}


def faults_of(modules: Dict[str, Module]) -> List[str]:
    faults: List[str] = []
    for module in modules.values():
        faults += [*bad_imports(module, modules), *bad_members(module, modules)]
        if module.lines >= MOST_LINES:
            faults.append(f"{where(module, module.lines)}: modules have fewer than {MOST_LINES} "
                          "lines")
    return faults


def not_in_map(modules: Dict[str, Module], text: str) -> List[str]:
    """A fault for each module that a map does not name."""
    return [f"{where(module, 1)}: python/README.md does not name it" for module in modules.values()
            if module.file.name != "__init__.py" and f"`{module.file.name}`" not in text]


def rooms() -> Iterator[str]:
    """A module of the package imports from lower rooms alone, and names none above or beside its
    own in a text; it uses no private member that another module defines, be it by a class that it
    extends; it has fewer than 500 lines; and the map in python/README.md names it."""
    modules = read_modules(PACKAGE)
    text = (PACKAGE.parent / "README.md").read_text(encoding="utf-8")
    for fault in faults_of(modules) + not_in_map(modules, text):
        yield fault.replace(f"{PACKAGE.parents[1]}/", "")

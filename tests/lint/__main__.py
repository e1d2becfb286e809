"""Checks the texts of the repository: definitions, sources, documents and the package.

    python3 tests/lint [--list]

`--list` prints what is not wrong and may be looked at: the names that several modules of specs/
define, and the clauses that are long. It ends with 1 if there is a fault. `mypy` runs where it is
installed, as python/pyproject.toml has it; otherwise a line says that it is left out.
"""

import shutil
import subprocess
import sys
from typing import Callable, Dict, Iterator

from calls import calls
from documents import places
from rooms import rooms
from sources import clauses, long_clauses, rows
from specs import arguments, layers, names, names_of_several
from tree import TOP, cache_of

from geesefuton.arguments import Parser
from geesefuton.processes import command

CHECKS: Dict[str, Callable[[], Iterator[str]]] = {
    each.__name__: each for each in (names, arguments, layers, clauses, rows, calls, places, rooms)}


def types() -> Iterator[str]:
    """What mypy says of the package."""
    done = subprocess.run(["mypy", "--no-error-summary", "--cache-dir", cache_of(TOP)], check=False,
                          cwd=TOP / "python", stdin=subprocess.DEVNULL, stdout=subprocess.PIPE,
                          stderr=subprocess.STDOUT, text=True)
    yield from [line for line in done.stdout.splitlines() if ": note: " not in line]
    if done.returncode and not done.stdout.strip():
        yield f"mypy ended with exit status {done.returncode}"


def main() -> int:
    parser = Parser("lint", __doc__ or "")
    parser.add_argument("--list", action="store_true", help="print what may be looked at")
    if parser.parse_args().list:
        print(*names_of_several(), *long_clauses()[0], sep="\n")
    checks = {**CHECKS, **({"types": types} if shutil.which("mypy") else {})}
    count = 0
    for name, check in checks.items():
        try:
            faults = list(check())
        except (LookupError, OSError) as fault:  # what it reads names what is not there
            faults = [str(fault)]
        count += len(faults)
        print(*(f"lint, {name}: {fault}\n" for fault in faults), sep="", end="", flush=True)
    if "types" not in checks:
        print("left out: types: mypy is not installed")
    print(f"lint: {count or 'no'} faults in {', '.join(checks)}")
    return 1 if count else 0


if __name__ == "__main__":
    sys.exit(command("lint", main))

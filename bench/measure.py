#!/usr/bin/env python3
"""Measures the processor time of `tac solve` on accounts, beside GLPK, CBC and HiGHS on the same
integer program, in one run.

    taskset -c 0 bench/measure.py --tac crates/tacd/out/tacd ACCOUNT ..

A solver that is not installed (Debian: glpk-utils, coinor-cbc, python3-scipy) is left out, which
the first line tells. The integer program has a variable for each client and each package whose
goods the account has, a row for each good and one for each client. Times are the least of --rounds
runs in milliseconds of user and system time, less the solver's own start on an empty problem;
HiGHS is called within this process. The totals are compared. A ratio is to the fastest other
solver, and is not counted if both are under a millisecond.
"""

import shutil
import statistics
import sys
import tempfile
import time
from pathlib import Path
from typing import Any, Callable, Dict, List, Optional, Tuple

from running import Parser, ProgramError, Word, command, file_of, read_account, run, whole
from worth_beside_glpk import PACKAGES, client_of, program

EMPTY = "Maximize\nx\nSubject To\nc: x <= 1\nBinary\nx\nEnd\n"
PEERS = ("glpsol", "cbc", "highs")
Found = Tuple[int, float]  # a total, and milliseconds
Solver = Tuple[Callable[[Any], Found], float]  # what solves, and the milliseconds of its start


def solve(tac: str, file: str) -> Tuple[int, float, int]:
    """The total, the milliseconds, and the lines of the certificate."""
    done = run([tac, "solve", file])
    counts = {line.split()[0]: int(line.split()[1]) for line in done.text.splitlines()
              if line.startswith(("total ", "cert "))}
    return counts["total"], 1000 * done.processor, counts["cert"]


def _solution(name: str, file: Word) -> List[str]:
    """The lines of a solution.

    Raises:
        ProgramError: There is none.
    """
    try:
        return Path(file).read_text().splitlines()
    except OSError:
        raise ProgramError(f"{name} wrote no solution") from None


def glpk(problem: str) -> Found:
    """The best total that glpsol finds."""
    solution = problem + ".glpk"
    spent = run(["glpsol", "--lp", problem, "--write", solution]).processor
    found = [line.split() for line in _solution("glpsol", solution) if line.startswith("s ")]
    return round(float(found[0][5])), 1000 * spent


def cbc(problem: str) -> Found:
    """The best total that CBC finds."""
    solution = problem + ".cbc"
    words = ["cbc", problem, "ratioGap", "0", "allowableGap", "0", "solve", "solution", solution]
    spent = run(words).processor
    return abs(round(float(_solution("cbc", solution)[0].split()[-1]))), 1000 * spent


def highs(account: Tuple[List[int], List[List[int]]]) -> Found:
    """The best total that HiGHS finds, in this process."""
    import numpy
    from scipy.optimize import Bounds, LinearConstraint, milp
    from scipy.sparse import coo_matrix

    holdings, clients = account
    there = [place for place, (_, needs) in enumerate(PACKAGES)
             if all(holdings[good] > 0 for good in needs)]
    pairs = [(number, place) for number in range(8) for place in there]
    cells = [(row, column) for column, (number, place) in enumerate(pairs)
             for row in (number, *(8 + good for good in PACKAGES[place][1]))]
    rows, columns = zip(*cells)
    shape = (36, len(pairs))
    matrix = coo_matrix((numpy.ones(len(cells)), (rows, columns)), shape=shape).tocsc()
    gains = numpy.array([-client_of(clients[number]).worth(PACKAGES[place][0])
                         for number, place in pairs])
    most = numpy.array([1] * 8 + [max(0, min(units, 8)) for units in holdings])
    start = time.process_time()
    rule = LinearConstraint(matrix, -numpy.inf, most)
    found = milp(gains, constraints=rule, integrality=numpy.ones(len(pairs)), bounds=Bounds(0, 1),
                 options={"mip_rel_gap": 0})
    return round(-found.fun), 1000 * (time.process_time() - start)


def peers(place: str) -> Dict[str, Solver]:
    """The installed solvers."""
    empty = f"{place}/empty.lp"
    Path(empty).write_text(EMPTY)
    found: Dict[str, Solver] = {}
    for name, call in (("glpsol", glpk), ("cbc", cbc)):
        if shutil.which(name):
            found[name] = (call, min(call(empty)[1] for _ in range(20)))
    try:
        import scipy.optimize  # noqa: F401
        found["highs"] = (highs, 0.0)
    except ImportError:
        pass
    return found


def time_of(solver: Solver, given: Any, rounds: int) -> Found:
    """The total, and the least time of all rounds."""
    call, start = solver
    results = [call(given) for _ in range(rounds)]
    return results[0][0], max(0.0, min(result[1] for result in results) - start)


def main() -> int:
    parser = Parser("measure", __doc__)
    parser.add_argument("accounts", nargs="+", help="account files")
    parser.add_argument("--tac", default="crates/tacd/out/tacd",
                        help="the program (default: %(default)s)")
    parser.add_argument("--rounds", type=whole(1), default=5,
                        help="how many runs of each (default: %(default)s)")
    words = parser.parse_args()
    tac = file_of(words.tac)
    accounts = {file: read_account(file) for file in words.accounts}
    with tempfile.TemporaryDirectory() as place:
        solvers = peers(place)
        absent = [name for name in PEERS if name not in solvers]
        print(f"beside {', '.join(solvers) or 'nothing'}"
              + (f"; not installed, and left out: {', '.join(absent)}" if absent else ""),
              flush=True)
        own = 1000 * min(run([tac], allowed=(1,)).processor for _ in range(40))
        problem = f"{place}/problem.lp"
        times: Dict[str, List[float]] = {"solve": []}
        slower = wrong = 0
        for file, account in accounts.items():
            text = program(*account)
            tries = [solve(tac, file) for _ in range(words.rounds)]
            total, lines = tries[0][0], tries[0][2]
            spent = max(0.0, min(each[1] for each in tries) - own)
            times["solve"].append(spent)
            shown = ""
            fastest: Optional[float] = None
            if text:
                Path(problem).write_text(text)
            for name, solver in solvers.items():
                given = account if name == "highs" else problem
                best, theirs = time_of(solver, given, words.rounds) if text else (0, 0.0)
                times.setdefault(name, []).append(theirs)
                wrong += best != total
                fastest = theirs if fastest is None else min(fastest, theirs)
                shown += f"  {name} {theirs:8.2f}{'' if best == total else ' TOTAL DIFFERS'}"
            is_slower = fastest is not None and spent > fastest and max(spent, fastest) > 1
            slower += is_slower
            print(f"{Path(file).stem:16} {total:6} {lines:6} lines  solve {spent:8.2f}{shown}"
                  f"{'  SLOWER' if is_slower else ''}", flush=True)
    for name, each in times.items():
        print(f"{name:7} median {statistics.median(each):8.2f}  worst {max(each):8.2f}")
    print(f"slower than the fastest peer on {slower} of {len(accounts)}; {wrong} totals differ; "
          f"the program starts in {own:.2f}")
    return 0


if __name__ == "__main__":
    sys.exit(command("measure", main))

#!/usr/bin/env python3
"""Measures the time of `tac worth` on accounts, beside 57 runs of GLPK's `glpsol` on each: the
account, and one unit more and less of each good.

    taskset -c 0 bench/worth_beside_glpk.py crates/tacd/out/tacd ACCOUNT ..

GLPK gets an integer program with a variable for each client and each package whose goods the
account has, a row for each good and one for each client. Times are processor time, user and
system, in milliseconds: for `tac worth` the least of three runs, start included; for the 57 runs of
glpsol the sum, less 57 times its own start. Each total is compared with GLPK's. The last lines have
the medians and the worst.
"""

import statistics
import sys
import tempfile
from pathlib import Path
from typing import Iterator, List, Optional, Sequence, Tuple

from running import Parser, ProgramError, command, file_of, need, read_account, run

from geesefuton.records.games import PACKAGES as TRIPS
from geesefuton.records.games import Client

LIMIT = 200_000  # the greatest holding of a good in an account, in absolute value


# Each trip with the goods that it uses.
PACKAGES = [(trip, trip.goods()) for trip in TRIPS]


def client_of(wants: Sequence[int]) -> Client:
    """The client of an account's line."""
    arrive, depart, premium, *values = wants
    return Client(arrive, depart, premium, (values[0], values[1], values[2]))


def changed(holdings: List[int]) -> Iterator[List[int]]:
    """The holdings, and those with one unit more and one unit less of each good."""
    yield holdings
    for good, units in enumerate(holdings):
        for other in (min(units + 1, LIMIT), max(units - 1, -LIMIT)):
            yield [*holdings[:good], other, *holdings[good + 1:]]


def program(holdings: List[int], clients: List[List[int]]) -> Optional[str]:
    """The integer program in the LP format of CPLEX; None if no trip can be made."""
    there = [place for place, (_, needs) in enumerate(PACKAGES)
             if all(holdings[good] > 0 for good in needs)]
    terms = [f"+ {client_of(wants).worth(PACKAGES[place][0])} x{number}_{place}"
             for number, wants in enumerate(clients) for place in there]
    if not terms:
        return None
    lines = ["Maximize", *terms, "Subject To"]
    for number in range(8):
        lines += [*(f"+ x{number}_{place}" for place in there), "<= 1"]
    for good in range(28):
        users = [place for place in there if good in PACKAGES[place][1]]
        if users:
            uses = (f"+ x{number}_{place}" for number in range(8) for place in users)
            lines += [*uses, f"<= {min(holdings[good], 8)}"]
    names = (f"x{number}_{place}" for number in range(8) for place in there)
    return "\n".join([*lines, "Binary", *names, "End", ""])


def glpk(text: str, place: str) -> Tuple[int, float]:
    """The best total that glpsol finds, and its milliseconds.

    Raises:
        ProgramError: It did not find an optimum.
    """
    problem, solution = Path(place, "problem.lp"), Path(place, "solution")
    problem.write_text(text)
    spent = run(["glpsol", "--lp", problem, "--write", solution]).processor
    # Lines of the solution: c .. for comments, and s mip ROWS COLUMNS o TOTAL if it is optimal.
    lines = [line.split() for line in solution.read_text().splitlines() if line.startswith("s ")]
    if not lines or lines[0][4] != "o":
        raise ProgramError("glpsol found no optimum")
    return round(float(lines[0][5])), 1000 * spent


def totals(text: str) -> List[int]:
    """The totals of the account, and of one more and one less of each good."""
    return [int(line.split()[1]) for line in text.splitlines() if line.startswith("total ")]


def main() -> int:
    parser = Parser("worth_beside_glpk", __doc__)
    parser.add_argument("tac", help="the program")
    parser.add_argument("accounts", nargs="+", help="files of accounts")
    given = parser.parse_args()
    tac = file_of(given.tac)
    need("glpsol")
    accounts = {file: read_account(file) for file in given.accounts}
    with tempfile.TemporaryDirectory() as place:
        empty = "Maximize\nx\nSubject To\nx <= 1\nBinary\nx\nEnd\n"
        start = min(glpk(empty, place)[1] for _ in range(40))
        ours: List[float] = []
        theirs: List[float] = []
        for file, (holdings, clients) in accounts.items():
            runs = [run([tac, "worth", file]) for _ in range(3)]
            best, spent = [], 0.0
            for other in changed(holdings):
                text = program(other, clients)
                total, time = glpk(text, place) if text else (0, start)
                best.append(total)
                spent += max(0.0, time - start)
            same = "" if best == totals(runs[0].text) else "  TOTALS DIFFER"
            ours.append(1000 * min(one.processor for one in runs))
            theirs.append(spent)
            print(f"{Path(file).stem:16} worth {ours[-1]:9.1f}  glpsol {spent:9.1f}{same}",
                  flush=True)
    for name, times in (("worth", ours), ("glpsol", theirs)):
        print(f"{name:7} median {statistics.median(times):8.1f}  worst {max(times):8.1f}")
    slower = sum(a > b for a, b in zip(ours, theirs))
    print(f"glpsol starts in {start:.1f}; worth is slower on {slower} of {len(accounts)}")
    return 0


if __name__ == "__main__":
    sys.exit(command("worth_beside_glpk", main))

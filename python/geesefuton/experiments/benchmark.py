"""Plays a benchmark: an agent and the reference agents, each alone among the same
pool of agents.

    geesefuton benchmark --out FOLDER classic mine.py

The deals of a list are known: compare agents that were not made for them.
Games are in turns, so they are the same on any machine with the same program,
package and minor version of Python. FOLDER keeps the games like a
tournament's, and benchmark.json, which tells nothing of the machine: the list
and its SHA-256, how the games were played, each agent's digest and mean, and
how much more the agent has than each reference agent, paired by deals, with 95
% intervals. The command prints these figures; its exit status is that of
`tournament`.
"""

import hashlib
import json
import shlex
from dataclasses import asdict, replace
from functools import partial
from pathlib import Path
from typing import List

from geesefuton import program
from geesefuton.arguments import Parser
from geesefuton.experiments.comparisons import Estimate
from geesefuton.experiments.forms import columns, count_text, number_text, printed
from geesefuton.experiments.plan import Plan, make_parser, read_plan
from geesefuton.experiments.results import Row
from geesefuton.experiments.summary import summarize
from geesefuton.experiments.tournament import play_in_folder
from geesefuton.processes import command, shown, write_whole

LISTS = ("classic", "scarce")
RESULT = "benchmark.json"


def _list(name: str) -> bytes:
    return (program.examples() / "benchmarks" / f"{name}.json").read_bytes()


def _words(name: str, agent: str) -> List[str]:
    """The words of the tournament that plays a list."""
    told, folder = json.loads(_list(name)), program.examples()
    others = [folder / file for file in told["references"]]
    own = Path(agent).resolve()
    if own in others:  # it is one of them
        others.remove(own)
        agent = shlex.quote(str(own))
    return [*told["settings"], "--seed", str(told["seed"]),
            "--games", str(told["deals"] * (1 + len(others))),
            *(f"--against={shlex.quote(str(folder / file))}" for file in told["pool"]),
            agent, *(shlex.quote(str(file)) for file in others)]


def _written(plan: Plan, name: str, rows: List[Row]) -> str:
    """Writes what the games came to into the plan's folder, and gives it as text."""
    agent, known = plan.entrants[0].name, plan.agents
    summary = summarize([row for row in rows if not row.agent.endswith(" (pool)")])
    pairs = {({pair.first, pair.second} - {agent}).pop(): pair for pair in summary.differences
             if agent in (pair.first, pair.second)}

    def rounded(value: Estimate) -> object:
        return {key: each and round(each, 2) for key, each in asdict(value).items()}

    agents, table = [], [["", "agent", "mean", f"{shown(agent)} less it", "p (Student)"]]
    for place, standing in enumerate(summary.standings, 1):
        pair = pairs.get(standing.agent)
        less = pair.score if pair else None
        if pair and less and pair.second == agent:
            less = replace(less, mean=-less.mean)
        agents.append({"agent": standing.agent, "digest": known[standing.agent].digest,
                       "score": rounded(standing.score), "less": less and rounded(less),
                       "student_p": pair and pair.student and round(pair.student, 6)})
        table.append([f"{place}.", shown(standing.agent), number_text(standing.score),
                      number_text(less), "-" if pair is None or pair.student is None
                      else f"{pair.student:.3f}"])
    told = {"benchmark": name, "sha256": hashlib.sha256(_list(name)).hexdigest(),
            "deals": summary.deals, "settings": plan.settings, "agents": agents}
    write_whole(plan.out / RESULT, (json.dumps(told, indent=1) + "\n").encode(), 0o666)
    return "\n".join([f"{name}, {count_text(summary.deals, 'deal')}; dollars with 95 % intervals "
                      "by deals (Student's t)", *columns(table)]) + "\n"


def _main() -> int:
    parser = Parser("benchmark", __doc__)
    parser.add_argument("list", choices=LISTS, help="the list of deals")
    parser.add_argument("agent", metavar="AGENT", help="as for `tournament`")
    parser.add_argument("--out", type=Path, required=True, metavar="FOLDER",
                        help="keep the games in this folder")
    parser.add_argument("--resume", action="store_true", help="play what FOLDER lacks")
    given = parser.parse_args()
    words = _words(given.list, given.agent)
    more = ["--resume"] if given.resume else []
    plan = read_plan(parser, make_parser(None).parse_args(
        [*words, *more, f"--out={given.out}"]))
    if any(entrant.name.replace(" (pool)", "") != Path(entrant.words[1]).stem
           for entrant in plan.entrants[1:]):
        parser.error(f"{given.agent}: a reference agent has this name: give it another one")
    status, rows, _ = play_in_folder(parser, plan)
    return status or printed("benchmark", _written(plan, given.list, rows))


main = partial(command, "benchmark", _main)

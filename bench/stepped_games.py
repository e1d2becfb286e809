#!/usr/bin/env python3
"""Measures games in steps on one processor: how many steps a second.

    bench/stepped_games.py crates/tacd/out/tacd --processor 3 --beside ../before/python

A game is `reset` with a seed of its own, 54 steps and `close`. There are four ways: nobody asks
anything, and the quotes of all goods are read; all eight agents read what they hold and their cash;
one agent bids in each step, and its score in hindsight is told; and a seat in numbers without
rivals bids in every second game, which needs `numpy`. The ways take turns, round by round, each in
a process of its own that keeps to one processor with all that it starts. With `--beside` the
package in another folder, of another version, plays the same games in turn with this one, and has
to see the same. The output has for each way the steps in a second of a processor and of wall time,
in the median round.
"""

import os
import statistics
import sys
from typing import Dict, List, NamedTuple, Tuple

from running import Parser, command, file_of, run, whole

from geesefuton.program import ProgramError

HERE = os.path.join(os.path.dirname(os.path.dirname(os.path.abspath(__file__))), "python")
WAYS = ("nobody asks", "all read", "hindsight", "in numbers")
# Plays games, and prints the seconds, the seconds of a processor, and a sum over what was seen.
PLAYER = """
import os, resource, sys, time
folder, way, processor, first, count = sys.argv[1:]
sys.path.insert(0, folder)
from geesefuton.learning.environment import Environment
os.sched_setaffinity(0, {int(processor)})
def spent():
    both = map(resource.getrusage, (resource.RUSAGE_SELF, resource.RUSAGE_CHILDREN))
    return sum(each.ru_utime + each.ru_stime for each in both)
if way == "in numbers":
    from geesefuton.learning.numeric import Seat
    environment = Seat()
elif way == "hindsight":
    try:
        environment = Environment(hindsight=True)
    except TypeError:  # an older version
        environment = Environment(scores=True)
else:
    environment = Environment()
seen, wall, before = 0, time.perf_counter(), spent()
for seed in range(int(first), int(first) + int(count)):
    observations, _ = environment.reset(seed=seed)
    is_over = False
    while not is_over:
        if way == "in numbers":
            observations, _, is_over, *_ = environment.step([seed % 2] * 28)
            seen += float(observations.sum())
            continue
        agents = list(environment.agents)
        actions = {agents[0]: ["bid 27 ((1 1))"]} if way == "hindsight" else {}
        if way == "all read":
            seen += sum(sum(observations[agent]["holdings"]) + observations[agent]["cash"]
                        for agent in agents)
        observations, *_ = environment.step(actions)
        if way != "all read":
            seen += sum(ask for _, ask, _ in observations[agents[0]]["quotes"])
        is_over = not environment.agents
environment.close()
print(time.perf_counter() - wall, spent() - before, round(seen))
"""


class Round(NamedTuple):
    """The steps in a second of wall time and of a processor, and a sum over what was seen."""

    wall: float
    processor: float
    seen: int


def measured(folder: str, way: str, processor: int, first: int, count: int) -> Round:
    """Plays games with the package of a folder."""
    words = [sys.executable, "-c", PLAYER, folder, way, str(processor), str(first), str(count)]
    wall, spent, seen = run(words).text.split()
    return Round(54 * count / float(wall), 54 * count / float(spent), int(seen))


def main() -> int:
    parser = Parser("stepped_games", __doc__ or "")
    parser.add_argument("tac", help="the file of tac")
    parser.add_argument("--beside", metavar="FOLDER", help="the folder of the other package")
    parser.add_argument("--processor", type=whole(0), default=max(os.sched_getaffinity(0)),
                        help="the number of the processor (default: the last)")
    parser.add_argument("--rounds", type=whole(1), default=5,
                        help="rounds of each way (default: 5)")
    parser.add_argument("--games", type=whole(1), default=20, help="games of a round (default: 20)")
    given = parser.parse_args()
    os.environ["TAC"] = file_of(given.tac)
    if given.processor not in os.sched_getaffinity(0):
        parser.error(f"there is no processor {given.processor}")
    folders = [HERE, *([os.path.abspath(given.beside)] if given.beside else [])]
    rounds: Dict[Tuple[str, str], List[Round]] = {}
    for number in range(given.rounds):
        for way in WAYS:
            found = [measured(folder, way, given.processor, 1 + number * given.games, given.games)
                     for folder in folders]
            if len({each.seen for each in found}) != 1:
                raise ProgramError(f"{way}: the two packages saw different games")
            for folder, each in zip(folders, found):
                rounds.setdefault((way, folder), []).append(each)
    for (way, folder), each_round in rounds.items():
        print(f"{way:12} steps a second of a processor "
              f"{statistics.median(each.processor for each in each_round):6.0f}, of wall time "
              f"{statistics.median(each.wall for each in each_round):6.0f}  {folder}", flush=True)
    print(f"load {os.getloadavg()[0]:.1f}")
    return 0


if __name__ == "__main__":
    sys.exit(command("stepped_games", main))

#!/usr/bin/env python3
"""Measures what a request costs in a game in turns.

    bench/turns_cost.py [--turns R] [--agent FILE]

Eight agents play a game that is made from a seed, and are started with `--pause 0`. It writes how
many requests they made, the microseconds from one to the next, and the microseconds of a processor
that the lobby, the program and the agents spent for each, their starts included.
"""

import os
import resource
import subprocess
import sys
from pathlib import Path
from typing import List

TOP = Path(__file__).resolve().parent.parent
sys.path.insert(0, str(TOP / "python"))

from geesefuton import program  # noqa: E402
from geesefuton.hosting import events  # noqa: E402
from geesefuton.arguments import Parser, whole  # noqa: E402
from geesefuton.records.games import SEATS, TICKS  # noqa: E402
from geesefuton.hosting.lobby import Lobby  # noqa: E402
from geesefuton.hosting.settings import LobbySettings  # noqa: E402
from geesefuton.processes import Children, command  # noqa: E402
from geesefuton.experiments.turns import MOST_TURNS, TurnServer  # noqa: E402

PATIENCE = 60.0  # seconds
START = 60.0  # seconds until the game begins without agents that are missing


def spent(who: int) -> float:
    """The seconds of a processor of this process, or of the children that it has waited for."""
    usage = resource.getrusage(who)
    return usage.ru_utime + usage.ru_stime


def main() -> int:
    parser = Parser("turns_cost", __doc__)
    parser.add_argument("--turns", type=whole(1, MOST_TURNS), default=40, metavar="R",
                        help="how many turns each agent has between two ticks (default: 40)")
    parser.add_argument("--agent", type=Path, metavar="FILE",
                        default=TOP / "examples" / "agents" / "planner.py")
    given = parser.parse_args()
    times: List[float] = []
    lines: List[int] = []

    def note(event: events.Event) -> None:
        if isinstance(event, (events.Began, events.Ticked)):
            times.append(event.at)
        if isinstance(event, events.Ticked):
            lines.append(sum(event.lines))

    with Children() as children:
        game = children.folder() / "game"
        game.write_text(program.make(42))
        turns = TurnServer(given.turns, PATIENCE)
        lobby = Lobby(LobbySettings(game, 0, 1, Path(os.devnull), start=START), turns)
        agents = [children.start([sys.executable, given.agent, "localhost", str(lobby.port), word,
                                  "--pause", "0"], stdout=subprocess.DEVNULL)
                  for word in lobby.words]
        own, others = spent(resource.RUSAGE_SELF), spent(resource.RUSAGE_CHILDREN)
        status = lobby.run(note)
        own, served = spent(resource.RUSAGE_SELF) - own, spent(resource.RUSAGE_CHILDREN) - others
        for agent in agents:
            agent.wait()
        others = spent(resource.RUSAGE_CHILDREN) - others - served
    passed = [turner.passed for turner in turns.turners]
    if status != program.OK or len(times) != TICKS + 1 or any(passed):
        print(f"turns_cost: exit status {status}, turns passed over: {passed}")
        return 1
    count = lines[-1]
    print(f"{count} requests of {SEATS} agents, {given.turns} turns between two ticks")
    for what, seconds in (("from one to the next", times[-1] - times[0]), ("lobby", own),
                          ("program", served), ("agents", others)):
        print(f"{what}: {seconds / count * 1e6:.0f} us")
    return 0


if __name__ == "__main__":
    sys.exit(command("turns_cost", main))

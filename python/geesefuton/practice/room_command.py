"""Runs a practice room, which plays game after game at one port. House agents
take empty seats. Who comes late plays the next game if it asks again, as by
--again. Games are drawn from a secret, which is shown at the --end. After any
stop, the same command goes on. `help` on the terminal lists commands.
"""

from __future__ import annotations

import argparse
import contextlib
import os
import signal
import sys
from functools import partial
from pathlib import Path
from types import FrameType
from typing import Callable, List, Optional

from geesefuton import program
from geesefuton.arguments import Parser, seconds, whole
from geesefuton.experiments.entrants import Entrant, read_entrants
from geesefuton.hosting.lobby import listener_at
from geesefuton.hosting.settings import LobbySettings
from geesefuton.hosting.teller import Teller
from geesefuton.network.addresses import join_address, own_address
from geesefuton.practice.folder import Folder
from geesefuton.practice.page import Board
from geesefuton.practice.room import Room
from geesefuton.practice.teams import MOST, Team, read_teams, slips_of
from geesefuton.processes import Children, command, write_whole
from geesefuton.records.games import SEATS, TICKS

USUAL = "planner.py"  # of the examples


def _arguments() -> argparse.Namespace:
    parser = Parser("room", __doc__)
    add = parser.add_argument
    add("--port", type=whole(1, 65535), default=7000, help="the port for agents (default: 7000)")
    add("--page", type=whole(1, 65535), metavar="PORT", help="show a page, for a projector")
    add("--pace", type=whole(1, 60000), default=1000, metavar="MILLISECONDS",
        help="the time from tick to tick (default: 1000)")
    add("--wait", type=seconds, default=30.0, metavar="SECONDS",
        help="begin this long after the first guest (default: 30)")
    add("--after", type=seconds, default=10.0, metavar="SECONDS",
        help="close links this long after the end (default: 10)")
    add("--house", action="append", metavar="AGENT",
        help=f"for empty seats; '' for none (default: {USUAL})")
    add("--folder", type=Path, default=Path("room"), help="keep the games here (default: room)")
    add("--seed", type=whole(0), metavar="NUMBER", help="use this seed and the next, not a secret")
    add("--end", action="store_true", help="end the room without a game, and show its secret")
    add("--games", type=whole(1), metavar="NUMBER", help="end after this many games")
    add("--teams", type=Path, metavar="FILE", help="of teams: CSV, NAME or NAME,WORD a line")
    add("--tables", type=whole(1, 8), default=1, metavar="NUMBER",
        help="games at once, for up to 64 teams (default: 1)")
    add("--slips", type=Path, metavar="FILE", help="write a page to print, with the teams' words")
    add("--address", help="show this address of the host (default: this machine's)")
    add("--late", type=whole(0, TICKS), default=6, metavar="TICKS",
        help="delay of what agents cannot ask (default: 6)")
    given = parser.parse_args()
    for name in ("slips", "tables"):
        if getattr(given, name) not in (None, 1) and not given.teams:
            parser.error(f"--{name} needs --teams")
    if given.page == given.port:
        parser.error(f"port {given.page} is for the games: choose another for the page")
    return given


def _house(commands: Optional[List[str]]) -> List[Entrant]:
    """The house agents. A name of the examples may stand for its file."""
    try:
        agents = program.examples() / "agents"
    except program.ProgramError:
        agents, commands = Path(), commands or []
    return read_entrants([
        str(agents / name) if not os.path.exists(name) and (agents / name).is_file() else name
        for name in ([USUAL] if commands is None else commands) if name])


def _heed_signals(room: Room, say: Callable[[str], None]) -> List[int]:
    """Lets ctrl-C close the room after its game, and a second one, or another signal, at once.
    Gives the list of the signals that will have come."""
    numbers: List[int] = []

    def take(number: int, _: Optional[FrameType]) -> None:
        text = room.close(number != signal.SIGINT or bool(numbers))
        numbers.append(number)
        if text:
            say(f"ctrl-C: {text}")

    for number in program.STOPPING:
        if signal.getsignal(number) is not signal.SIG_IGN:
            signal.signal(number, take)
    return numbers


def _main() -> int:
    given = _arguments()
    program.find()
    house, teams = _house(given.house), list[Team]()
    with contextlib.closing(Teller(())) as teller, \
            contextlib.closing(Folder(given.folder, given.seed)) as folder, Children() as children:
        seeds = f"those of the seeds from {folder.rule.seed} on"
        if given.end:
            secret = folder.end()
            teller.say("the room is over; its " + (f"secret was {secret}" if secret else
                                                   f"games were {seeds}"))
            return 0
        if given.page is not None:
            listener_at(given.page).close()  # so that a port that is taken is told now
        address = given.address or own_address()
        if given.teams is not None:
            teams = read_teams(given.teams, folder.words(), SEATS if given.tables == 1 else MOST)
            folder.keep_words(teams)
        if given.slips:
            slips = slips_of(teams, address, given.port, given.page)
            write_whole(given.slips, slips.encode())
        board = Board(children, {"port": given.port, "page": given.page, "address": address,
                                 "pace": given.pace, "late": given.late}, teller.say)
        settings = LobbySettings(Path(), given.port, given.pace, None, wait=given.wait,
                                 linger=given.after, orders=sys.stdin, vouches=True)
        room = Room(settings, house, folder, board, teller.say, teams, given.games, given.tables)
        numbers = _heed_signals(room, teller.say)
        if given.page is not None:
            teller.say(f"the page is http://localhost:{given.page}; players join at "
                       f"{join_address(address, given.page)}")
        if not house:
            teller.say("no house agents: empty seats stay empty")
        teller.say("games are drawn from a secret, whose SHA-256 is " + folder.commitment
                   if folder.commitment else f"games can be guessed: they are {seeds}")
        room.run()
    return 128 + numbers[-1] if numbers else 0


main = partial(command, "room", _main)

"""Plays a first game of eight small agents, says who won, and writes a page
about it, quickstart.html.

The server is the program that the variable TAC names, or else the proved one,
if it is built, or else the toolchain's quick run, which proves nothing.
"""

import subprocess
import sys
import time
from pathlib import Path
from typing import List, Optional, Sequence

from geesefuton import program
from geesefuton.arguments import Parser
from geesefuton.processes import Children, Output, command, free_port, tell, wait_until
from geesefuton.records.drawing import made_game
from geesefuton.records.logs import LogError, Score, read_log, read_scores
from geesefuton.records.report_page import Heading, page
from geesefuton.records.secret_deals import deal_seed, new_secret
from geesefuton.records.ticks import all_events

PACE = 150  # milliseconds between the 54 ticks
AGENTS = ["planner"] * 4 + ["trader"] * 3 + ["watcher"]
PAGE = Path("quickstart.html")
BUILDING = "quickstart: building the server for a quick run, in about a minute"
PLAYING = "quickstart: playing a game, in about ten seconds"
QUICK = "This was a quick run, which proves nothing: `{}` builds the proved program."
MOST = 600  # seconds that the server may take; a quick run is built in the first of them


def start_server(children: Children, place: Path, port: int,
                 clone: Optional[Path]) -> "subprocess.Popen[bytes]":
    """Starts the server on the game in a folder, where its log and what it tells will stand; in a
    clone it is a quick run.

    Raises:
        ProgramError: There is neither a program nor the toolchain.
    """
    game = place / "my.game"
    words = program.served_words(game, port, PACE) if clone is None else \
        ["rt", "try", "--seconds", "300", "--", "serve", str(game), str(port), str(PACE)]
    with (place / "log").open("wb") as log, (place / "told").open("wb") as told:
        return children.start(words, stdout=log, stderr=told,
                              cwd=None if clone is None else clone / "crates" / "tacd")


def listens(port: int) -> bool:
    """Whether a program listens on a port, as far as the system's tables say."""
    tables = [Path(f"/proc/net/{name}") for name in ("tcp", "tcp6")]
    lines = [line.split() for table in tables if table.exists()
             for line in table.read_text().splitlines()]
    # A line has the local address with the port in base 16, the remote one, and the state, which
    # is 0A for a listening port.
    return not lines or any(words[3] == "0A" and words[1].endswith(f":{port:04X}")
                            for words in lines)


def play(children: Children, out: Output) -> int:
    """Plays the game, and gives the exit status."""
    port, place, seed = free_port(), children.folder("quickstart"), deal_seed(new_secret(), 1)
    clone = program.to_build()
    game = program.make(seed) if clone is None else made_game(seed).text()
    (place / "my.game").write_text(game)
    server = start_server(children, place, port, clone)
    processes, end = [server], time.monotonic() + MOST
    try:
        if clone is not None:
            wait_until(lambda: server.poll() is not None or listens(port), BUILDING)
        while server.poll() is None and not listens(port):
            time.sleep(0.05)
        processes += [start_agent(children, port, seat) for seat in range(len(AGENTS))]
        wait_until(lambda: server.poll() is not None or time.monotonic() > end, PLAYING)
        status = f"did not end within {MOST} seconds" if server.poll() is None else \
            f"ended with exit status {server.returncode}"
        return show(place, seed, clone, status, out)
    finally:
        for process in processes:
            children.end(process)


def start_agent(children: Children, port: int, seat: int) -> "subprocess.Popen[bytes]":
    """The agent of a seat."""
    file = program.examples() / "agents" / f"{AGENTS[seat]}.py"
    words = [sys.executable, str(file), "127.0.0.1", str(port), f"seat{seat}", "--pause", "0.1"]
    return children.start(words, stdout=subprocess.DEVNULL)


def standings(scores: Sequence[Score]) -> List[str]:
    """Who won and by how much, and the eight scores, the best first."""
    ranked = sorted(scores, key=lambda score: -score.score)
    names = [f"the {AGENTS[score.agent]} in seat {score.agent}" for score in ranked]
    best, second = ranked[0].score, ranked[1].score
    first = f"{names[0]} won with {best} dollars, {best - second} more than {names[1]}." \
        if best > second else f"{names[0]} and {names[1]} are ahead with {best} dollars each."
    return [first[0].upper() + first[1:],
            *(f"{score.score:>7}  {name}" for score, name in zip(ranked, names))]


def show(place: Path, seed: int, clone: Optional[Path], status: str, out: Output) -> int:
    """Shows who won and the scores, writes the page, and gives the exit status.

    Args:
        place: The folder of the game's file, its log, and what the server told.
        seed: The game's seed.
        clone: The clone of which it was a quick run; None if it was the program.
        status: How the server ended.
        out: Where all is shown.
    """
    text = (place / "log").read_bytes()
    try:
        scores = read_scores(text)
    except LogError:
        said = (text[:200] + (place / "told").read_bytes()).decode("utf-8", "replace").rstrip()
        tell(f"{said}\nquickstart: the server {status}, so there are no scores")
        return 1
    how = QUICK.format(program.typed("tac make 42")) if clone else \
        f"The server was the program {program.find()}."
    out.write("\n".join([*standings(scores), how, "The game is that of "
                         f"`{program.typed(f'tac make {seed}')}`.", ""]))
    game, log = made_game(seed), read_log(text)
    flaw = program.audit(place / "my.game", text) if clone is None else "not audited"
    heading = Heading(f"The game of the seed {seed}", time.strftime("%Y-%m-%d at %H:%M"),
                      "" if flaw == "sound" else f"Its log is {flaw}.")
    names = [f"{name} {seat}" for seat, name in enumerate(AGENTS)]
    written = Output(PAGE)
    written.write(page(game, log, all_events(game, log), heading, names))
    written.close()
    if written.fault is not None:
        tell(f"quickstart: {PAGE}: {written.fault}")
        return 1
    out.write(f"A page with all prices, trades and trips, for a browser:\n{PAGE.resolve()}\n")
    return 0


def main() -> int:
    """The command `quickstart`."""
    return command("quickstart", _main)


def _main() -> int:
    Parser("quickstart", __doc__).parse_args()
    out = Output(1)
    with Children() as children:
        status = play(children, out)
    if out.fault is not None:
        tell(f"quickstart: {out.name}: {out.fault}")
        return 1
    return status

"""A tournament that is killed by SIGKILL at random moments, and resumed each time.

    python3 -m tests.soak.killed_tournament SEED

No finished game may be lost or played twice, and a killed run must not leave a process. At the end
each game has to be there once, with a sound log whose scores are those of its rows. It takes about
a minute.
"""

import os
import random
import signal
import subprocess
import time
from pathlib import Path
from typing import Dict, Iterator, List, Tuple

from geesefuton import program
from geesefuton.experiments.runs import read_scores
from geesefuton.processes import Children
from geesefuton.records.logs import read_scores as read_log_scores
from tests.support import soaking
from tests.support.soaking import AGENTS
from tests.support.trying import COMMAND, Place

GAMES, KILLS = 24, 8
MOST = 600.0  # seconds that the last run may take, and a tenth of it a game
Games = Dict[str, Tuple[int, int]]  # by name: the number of the run, and when the log was written


class Killed:
    """A tournament that is killed and gone on with."""

    def __init__(self, folder: Path) -> None:
        self.out, self.place = folder / "run", Place(folder / "temporary")
        self.words = [*COMMAND, "tournament", "--turns", "4", "--games",
                      str(GAMES), "--at-once", "2", "--out", str(self.out), "--resume",
                      *(str(AGENTS / f"{name}.py") for name in ("planner", "watcher"))]
        self.variables = {**os.environ, **self.place.variables, "TAC": program.find()}
        self.faults: List[str] = []

    def start(self) -> "subprocess.Popen[bytes]":
        """Begins a run, or goes on with it."""
        return subprocess.Popen(self.words, env=self.variables, stdin=subprocess.DEVNULL,
                                stdout=subprocess.DEVNULL, stderr=subprocess.PIPE)

    def finished(self) -> Games:
        """The games that have all their rows."""
        rows = read_scores(self.out).rows if self.out.exists() else []
        found = {f"{row.number}.{row.rotation}": row.run for row in rows}
        return {name: (run, self.log(name).stat().st_mtime_ns) for name, run in found.items()}

    def compare(self, before: Games) -> Games:
        """The games that are finished now. One that was finished before has to be as it was."""
        now = self.finished()
        self.faults += [f"game {name} was lost or played again" for name, game in before.items()
                        if now.get(name) != game]
        return now

    def log(self, game: str) -> Path:
        return self.out / "games" / f"{game}.log"

    def kill(self, more: int, after: float) -> int:
        """Kills a run some seconds after it finished so many games more, and gives how many games
        there are then."""
        before, process = self.finished(), self.start()
        deadline = time.monotonic() + MOST / 10.0
        while (len(self.finished()) < len(before) + more and process.poll() is None
               and time.monotonic() < deadline):
            time.sleep(0.05)
        time.sleep(after)
        process.send_signal(signal.SIGKILL)
        told = process.communicate()[1].decode(errors="replace")
        self.faults += [f"a killed run: {left}" for left in self.place.left()]
        if process.returncode != -signal.SIGKILL:
            self.faults.append(f"a run ended by itself: {told[-300:]}")
        return len(self.compare(before))

    def end(self) -> None:
        """Plays what is missing, and looks at every game."""
        before, process = self.finished(), self.start()
        told = process.communicate(timeout=MOST)[1].decode(errors="replace")
        if process.returncode:
            self.faults.append(f"the last run ended with {process.returncode}: {told[-300:]}")
        found, now = read_scores(self.out), self.compare(before)
        due = {f"{deal}.{rotation}" for deal in range(1, GAMES // 2 + 1) for rotation in (0, 1)}
        if set(now) != due or len(found.rows) != 8 * GAMES or found.told:
            self.faults.append(f"{len(now)} of {GAMES} games, {len(found.rows)} rows: {found.told}")
        scores: Dict[str, List[int]] = {}
        for row in sorted(found.rows, key=lambda row: row.seat):
            scores.setdefault(f"{row.number}.{row.rotation}", []).append(row.score)
        for name, rows in scores.items():
            log = self.log(name)
            if program.audit(log.with_suffix(".game"), log) != "sound":
                self.faults.append(f"the log of game {name} is not sound")
            if [each.score for each in read_log_scores(log.read_bytes())] != rows:
                self.faults.append(f"the rows of game {name} are not its log's scores")


def soak(seed: int, folder: Path, _: Children) -> Iterator[str]:
    source, killed = random.Random(seed), Killed(folder)
    for number in range(KILLS):
        more, after = source.choice((0, 1, 1, 2)), source.uniform(0.0, 3.0)
        print(f"kill {number + 1}, {after:.1f} s after {more} games more: "
              f"{killed.kill(more, after)} games", flush=True)
    killed.end()
    yield from killed.faults


if __name__ == "__main__":
    soaking.main("killed_tournament", __doc__, soak)

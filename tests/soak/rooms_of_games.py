"""Many games in a practice room whose agents come, go, crash and hang. The room is killed in
between, and its standings are compared with what `tac table` and a plain script make of the logs.

    python3 -m tests.soak.rooms_of_games SEED

The room is killed by SIGKILL in games that are spread over the run, and started again by the same
command. `tac table` has the averages of seat words, and takes 64 games at most; the room's are of
who played, so a seat that the house played is compared by its seat word. All have to agree, and no
finished game may be lost. It takes some two minutes on a machine that does nothing else.
"""

import contextlib
import random
import subprocess
import time
from pathlib import Path
from typing import Dict, Iterator

from geesefuton.processes import Children
from tests.support import soaking
from tests.support.rooms import PlayedRoom
from tests.support.trying import Place

GAMES, KILLS = 16, 2
PACE = 20  # milliseconds from tick to tick
MOST = 600.0  # seconds that a game and the start of its room may take
AGENT = """import os, random, sys, time
from geesefuton.link import HOTELS, run
def play(link, pause):
    for round in range(6):
        link.bid(random.randrange(8), (1, 900))
        for good in HOTELS:
            if not link.quote(good).closed:
                link.bid(good, (1, 40 + 20 * round + link.agent))
        if sys.argv[0].endswith("crash.py") and random.random() < 0.2:
            os._exit(3)
        if sys.argv[0].endswith("hang.py") and round == 3:
            time.sleep(600)
        time.sleep(pause)
run(__doc__, play)
"""


class Trial:
    """A room and its agents.

    Args:
        folder: Where all is kept.
        variables: More variables of what is started.

    Attributes:
        kills: How often the room was killed.
    """

    def __init__(self, folder: Path, variables: Dict[str, str]) -> None:
        self.room, self.kills = PlayedRoom(folder, **variables), 0
        self._files = {kind: folder / f"{kind}.py" for kind in ("stay", "crash", "hang")}
        for file in self._files.values():
            file.write_text(AGENT)
        self._agents: Dict[int, "subprocess.Popen[bytes]"] = {}

    def start(self, games: int) -> "subprocess.Popen[bytes]":
        """Starts the room, which is to play so many games more."""
        return self.room.start("--pace", PACE, "--wait", 0.5, "--after", 1, "--house",
                               self._files["stay"], "--games", games)

    def stir(self, source: random.Random) -> None:
        """Lets an agent come or go. The one of seat 0 stays."""
        for seat, agent in list(self._agents.items()):
            if agent.poll() is not None:
                del self._agents[seat]
        seat = source.randrange(1, 6) if 0 in self._agents else 0
        if seat in self._agents:
            kill(self._agents.pop(seat))
            return
        kind = "stay" if not seat else source.choice(list(self._files))
        self._agents[seat] = self.room.join(self._files[kind], f"seat{seat}", PACE / 200)

    def play(self, source: random.Random) -> Iterator[str]:
        due = [GAMES * (number + 1) // (KILLS + 1) for number in range(KILLS)]
        room, known, heard = self.start(GAMES), self.room.manifests(), time.monotonic()
        while True:
            status, now = room.poll(), self.room.manifests()
            if len(now) > len(known):
                heard = time.monotonic()
            if any(now.get(number) != game for number, game in known.items()):
                yield f"a finished game is lost or changed after {len(known)} games"
            known = now
            if status is not None or time.monotonic() > heard + MOST:
                if kill(room) or len(now) != GAMES:
                    yield f"the room has stopped after {len(now)} games"
                return
            self.stir(source)
            time.sleep(source.uniform(0.5, 3.0))
            if due and len(now) >= due[0]:
                del due[0]
                self.kills += 1
                kill(room)
                room = self.start(GAMES - self.room.count())


def kill(process: "subprocess.Popen[bytes]") -> int:
    """Kills a process, and gives its exit status; it may have ended."""
    process.kill()
    return process.wait()


def soak(seed: int, folder: Path, _: Children) -> Iterator[str]:
    place = Place(folder / "temporary")
    trial = Trial(folder, place.variables)
    with contextlib.closing(trial.room):
        yield from trial.play(random.Random(seed))
    yield from trial.room.wrongs()
    yield from place.left()
    print(f"{len(trial.room.manifests())} games, {trial.kills} times killed")


if __name__ == "__main__":
    soaking.main("rooms_of_games", __doc__, soak)

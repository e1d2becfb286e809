"""A practice room in a process, its agents, and a plain reading of what its games came to."""

import contextlib
import hashlib
import json
import os
import subprocess
import sys
from collections import defaultdict
from fractions import Fraction
from pathlib import Path
from typing import Any, Dict, Iterator, List, Optional, Sequence

from geesefuton import program
from geesefuton.practice.folder import Folder, standings_of
from geesefuton.processes import free_port
from geesefuton.records.logs import read_scores
from tests.support.trying import COMMAND, TOP


class PlayedRoom:
    """A room that may be killed, and started again in its folder.

    Args:
        folder: For all that is written.
        variables: More variables of what is started.

    Attributes:
        path: The room's folder.
        port: Where agents join.
    """

    def __init__(self, folder: Path, **variables: str) -> None:
        self.path, self.port, self._said = folder / "room", free_port(), folder / "said"
        path = os.pathsep.join([str(TOP / "python"), os.environ.get("PYTHONPATH", "")])
        self._variables = {**os.environ, "PYTHONPATH": path, **variables}
        self._started: List["subprocess.Popen[bytes]"] = []
        self._said.touch()

    def start(self, *more: object, out: Optional[int] = None) -> "subprocess.Popen[bytes]":
        """Starts the room, with more words; what it prints may go elsewhere."""
        return self._start([COMMAND[1], "room", "--port", self.port, "--folder", self.path, *more],
                           out)

    def join(self, agent: Path, word: str, pause: float, **more: str) -> "subprocess.Popen[bytes]":
        """Starts an agent that plays in game after game, with more variables."""
        return self._start([agent, "localhost", self.port, word, "--pause", pause, "--again"],
                           None, **more)

    def _start(self, words: Sequence[object], out: Optional[int], **more: str
               ) -> "subprocess.Popen[bytes]":
        with self._said.open("ab") as said:
            self._started.append(subprocess.Popen(
                [sys.executable, *map(str, words)], env={**self._variables, **more},
                stdin=subprocess.DEVNULL, stdout=out or said, stderr=out or said))
        return self._started[-1]

    def close(self) -> None:
        """Ends all that was started."""
        for process in self._started:
            process.kill()
            process.wait()

    def said(self) -> str:
        """What was printed so far."""
        return self._said.read_text()

    def manifests(self) -> Dict[int, Dict[str, Any]]:
        """Those of the games that are finished, by the numbers of these."""
        games = [json.loads(file.read_bytes()) for file in sorted(self.path.glob("[0-9]*.json"))]
        return {game["number"]: game for game in games if game["is_judged"]}

    def count(self) -> int:
        """How many games are finished, or will be once the room is started again."""
        with contextlib.closing(Folder(self.path)) as folder:
            return len(folder.finished) + len(folder.unjudged)

    def scores(self, number: int) -> List[int]:
        """Those of a game, by its log."""
        log = (self.path / f"{number:04}.log").read_bytes()
        return [score.score for score in read_scores(log)]

    def wrongs(self) -> Iterator[str]:
        """What is wrong with the games, and what differs between the room's standings, those of a
        plain computation from the logs, and those of `tac table`."""
        by_player, by_word, pairs = defaultdict(list), defaultdict(list), []
        for number, game in self.manifests().items():
            if game["fault"]:
                yield f"game {number} is lost: {game['fault']}"
                continue
            file, log = (self.path / f"{number:04}.{kind}" for kind in ("game", "log"))
            pairs.append((file, log))
            if program.audit(file, log) != "sound":
                yield f"game {number}: its log is not sound"
            if hashlib.sha256(log.read_bytes()).hexdigest() != game["files"]["log"]:
                yield f"game {number}: its manifest is of another log"
            scores = self.scores(number)
            if scores != game["scores"]:
                yield f"game {number}: its manifest has other scores than its log"
            for seat, (player, score) in enumerate(zip(game["players"], scores)):
                by_word[f"seat{seat}"].append(score)
                by_player[player].append(score)
        plain = {player: Fraction(sum(own), len(own))
                 for player, own in by_player.items() if player}
        with contextlib.closing(Folder(self.path)) as folder:
            rows = standings_of(folder.finished)
        if {row.name: row.average for row in rows} != plain:
            yield "the averages are not those of a plain computation"
        if any(row.rank != 1 + sum(other > row.average for other in plain.values())
               for row in rows):
            yield "the ranks are not those of a plain computation"
        lines = [line.split() for line in program.table(pairs).splitlines()] if pairs else []
        if {words[1]: Fraction(words[4]) for words in lines if words[0] == "team"} != {
                word: Fraction(sum(own), len(own)) for word, own in by_word.items()}:
            yield "the averages of seats are not those of `tac table`"

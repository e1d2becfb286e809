"""The folder of a run that can be stopped at any time and resumed.

docs/FORMATS.md says what is in it. A resumed run plays the games that scores.csv lacks. A row that
was half written, as on a full disk, is reported and removed with its game, and the game is played
again.

A game in turns keeps its script, and a game by the clock its journal, from which the ticks of its
calls follow; where there is neither they come from the log.
"""

import contextlib
import fcntl
import json
import os
import re
import time
from collections import defaultdict
from dataclasses import asdict, dataclass
from datetime import datetime, timezone
from pathlib import Path
from typing import Any, Dict, Iterable, Iterator, List, Sequence, Tuple

from geesefuton.experiments.deals import RUN, SECRET, DealError, kept_secret
from geesefuton.experiments.plan import Plan
from geesefuton.experiments.provenance import commit, digest_of, machine, package_digest, unlike
from geesefuton.experiments.results import HEAD, Found, Row, read_rows, text_of
from geesefuton.hosting.journal import JournalError, read_journal
from geesefuton.processes import Output, why, write_whole
from geesefuton.program import CommandError, find
from geesefuton.records.games import Game, GameError, read_game
from geesefuton.records.logs import Log, LogError, read_log
from geesefuton.records.replies import read_request
from geesefuton.records.tables import csv_of
from geesefuton.records.ticks import (Ticks, Timed, TicksError, requests_of, ticks_by_log,
                                      ticks_by_requests)

FORM = 2  # of run.json
MOST_WAIT = 10.0  # seconds for the games of an earlier run to end
SCORES, GAMES = "scores.csv", "games"
FILE = re.compile(r"(.+)\.(?:game|log|events|script|journal|out\.[a-z0-9]+)")


class RunError(CommandError):
    """A folder that is no run's, or cannot be gone on with."""


def is_run(folder: Path) -> bool:
    """Whether a folder is that of a run."""
    return (folder / RUN).is_file()


def read_scores(folder: Path) -> Found:
    """Reads the rows of whole games from the scores.csv of a folder. Raises RunError where it
    cannot be read, or is none."""
    try:
        return read_rows((folder / SCORES).read_bytes().decode("utf-8", "replace"))
    except FileNotFoundError:
        return Found()
    except (CommandError, OSError) as fault:
        raise RunError(f"{folder / SCORES}: {why(fault)}") from None


def read_record(folder: Path) -> Dict[str, Any]:
    """What the run.json of a folder says. Raises RunError where it is none, or that of another
    version."""
    try:
        value = dict(json.loads((folder / RUN).read_bytes()))
        kinds = {"settings": dict, "deals": dict, "agents": list, "runs": list}
        if value["tournament"] == FORM and all(
                isinstance(value[key], kind) for key, kind in kinds.items()) and all(
                isinstance(run, dict) for run in value["runs"]) and all(
                isinstance(agent["files"], dict) and agent["name"] + agent["digest"]
                for agent in value["agents"]):
            return value
    except (ValueError, LookupError, TypeError):
        pass
    raise RunError(f"{folder / RUN} is not of a tournament of this version")


def compare(folder: Path, plan: Plan) -> Dict[str, Any]:
    """What the run.json of a folder says. Raises RunError where that is nothing, or something else
    than a plan says."""
    value = read_record(folder)
    differences = unlike(value["settings"], plan.settings)
    drawn = {name: each for name, each in value["deals"].items() if name != SECRET}
    if drawn != plan.rule.drawn:
        told = [" ".join(map(str, pair)) for deals in (drawn, plan.rule.drawn)
                for pair in deals.items()]
        differences.append(f"its deals are of the {told[0]}, not of the {told[1]}")
    for agent in value["agents"]:
        ours = plan.agents.get(agent["name"])
        if ours and ours.digest != agent["digest"]:
            names = sorted(name for name in {*ours.files, *agent["files"]}
                           if ours.files.get(name) != agent["files"].get(name))
            more = f" and {len(names) - 3} more" if len(names) > 3 else ""
            differences.append(f"the files, libraries or words of {ours.name} differ"
                               + (f" ({', '.join(names[:3])}{more})" if names else ""))
    if differences:
        raise RunError("its run began differently: " + "; ".join(differences))
    return value


class RunFolder:
    """The folder of a run while it is written.

    Attributes:
        number: The number of this run among those of the folder, from 1.
        rows: What earlier runs played.
        finished: The numbers of deals and rotations that they finished.
        is_told: Whether the secret of the deals has been told.
        told: What is told of the folder, each in a line.
        out: Where rows are appended.
        lock: The number of the open file that holds the lock, which games are to hold, too.

    Raises RunError where the folder is another's, was begun otherwise, or is being written."""

    def __init__(self, plan: Plan, arguments: Sequence[str]) -> None:
        self._folder, self._plan = plan.out, plan
        self._is_begun(plan.is_resumed)
        self._folder.mkdir(parents=True, exist_ok=True)
        self.lock = self._locked()
        try:  # another may have begun it meanwhile
            self._value = compare(self._folder, plan) if self._is_begun(plan.is_resumed) else {
                "tournament": FORM, "settings": dict(plan.settings), "deals": plan.rule.drawn,
                "tac": digest_of(Path(find())), "package": package_digest(), "agents": [],
                "runs": []}
            known = {agent["name"] for agent in self._value["agents"]}
            self._value["agents"] += [{**asdict(agent), "digest": agent.digest} for name, agent
                                      in plan.agents.items() if name not in known]
            self._begin(arguments)
        except BaseException:
            os.close(self.lock)
            raise

    def _begin(self, arguments: Sequence[str]) -> None:
        """Takes out what is not whole, and writes that this run has begun."""
        found = read_scores(self._folder)
        self.rows, self.finished = found.rows, {row.place for row in found.rows}
        self.is_told = SECRET in self._value["deals"]
        self.told = [f"{self._folder / SCORES}: {text}; its game is played again"
                     for text in found.told]
        self.number = len(self._value["runs"]) + 1
        self._value["runs"].append({
            "run": self.number, "arguments": list(arguments), "began": _now(), "commit": commit(),
            **machine(), "ended": None})
        if self._plan.rule.seed is None and not self.is_told:
            self._replace(SECRET, self._plan.rule.secret.hex() + "\n", 0o600)
        self._write_record()
        if found.told or not self.rows:
            self._replace(SCORES, csv_of([HEAD]) + text_of(self.rows))
        (self._folder / GAMES).mkdir(exist_ok=True)
        self._clear()
        self._scores = os.open(self._folder / SCORES, os.O_WRONLY | os.O_APPEND)
        self.out = Output(self._scores, str(self._folder / SCORES))

    def plan_games(self, planned: int) -> None:
        """Writes how many games the folder is to have."""
        self._value["planned"] = planned
        self._write_record()

    def end(self, status: int, scored: int, lost: Sequence[str]) -> None:
        """Writes how this run ended, and sorts the rows. Once all games are scored, the secret is
        told. Raises RunError where the rows cannot be read."""
        self._value["runs"][-1].update(ended=_now(), status=status, games=scored, lost=list(lost),
                                       load_at_end=machine()["load"])
        try:
            found = read_scores(self._folder)
            if not found.told:
                self._replace(SCORES, csv_of([HEAD]) + text_of(sorted(
                    found.rows, key=lambda row: (row.place, row.seat))))
            is_over = len({row.place for row in found.rows}) >= self._value.get("planned", 0)
            if is_over and not status and self._plan.rule.seed is None:
                self._value["deals"][SECRET] = self._plan.rule.secret.hex()
            self._write_record()
            if SECRET in self._value["deals"]:
                (self._folder / SECRET).unlink(missing_ok=True)
        finally:
            os.close(self._scores)
            os.close(self.lock)

    def _is_begun(self, is_resumed: bool) -> bool:
        """Whether the folder has a run, which is refused unless it is to be gone on with."""
        try:
            names = [name for name in sorted(os.listdir(self._folder)) if name[0] != "."]
        except FileNotFoundError:
            return False
        with contextlib.suppress(DealError):
            if names == [SECRET] and kept_secret(self._folder) == self._plan.rule.secret:
                return False  # a run was killed when there was nothing else
        if names and RUN not in names:
            raise RunError(f"it is not the folder of a tournament: it has {names[0]}, but no {RUN}")
        if names and not is_resumed:
            raise RunError("it has a run: continue it with --resume, or name another folder")
        return bool(names)

    def _locked(self) -> int:
        """Locks the folder, if its file system has locks, and gives the number of its open file.

        Games hold the lock, too, so those of a run that was killed have ended when it is had.
        """
        number, deadline = os.open(self._folder, os.O_RDONLY), time.monotonic() + MOST_WAIT
        while True:
            try:
                fcntl.flock(number, fcntl.LOCK_EX | fcntl.LOCK_NB)
            except BlockingIOError:
                if time.monotonic() < deadline:
                    time.sleep(0.1)
                    continue
                os.close(number)
                raise RunError("another tournament is writing to it") from None
            except OSError:
                pass  # there are no locks
            return number

    def _clear(self) -> None:
        finished = {row.game_name for row in self.rows}
        for file in (self._folder / GAMES).iterdir():
            match = FILE.fullmatch(file.name)
            if match and match[1] not in finished:
                file.unlink()

    def _write_record(self) -> None:
        self._replace(RUN, json.dumps(self._value, indent=1) + "\n")

    def _replace(self, name: str, text: str, mode: int = 0o666) -> None:
        write_whole(self._folder / name, text.encode(), mode)


def _now() -> str:
    return datetime.now(timezone.utc).isoformat(timespec="seconds")


@dataclass(frozen=True)
class KeptGame:
    """A game of a run."""

    rows: Sequence[Row]  # those of its eight seats
    game: Game  # the game
    log: Log  # its log
    ticks: Ticks  # the ticks of the log's entries
    source: str  # by what they are known: `script`, `journal` or `log`

    @property
    def agents(self) -> List[str]:
        """The names of the agents at its seats."""
        return [row.agent for row in self.rows]


def games_of(rows: Iterable[Row]) -> List[List[Row]]:
    """The rows of each game by seat, the games in the order of their deals and rotations."""
    games: Dict[Tuple[int, int], List[Row]] = defaultdict(list)
    for row in rows:
        games[row.place].append(row)
    return [sorted(games[place], key=lambda row: row.seat) for place in sorted(games)]


def read_games(folder: Path, rows: Iterable[Row], told: List[str]) -> Iterator[KeptGame]:
    """The games of a run's folder that have these rows; `told` gets a line for each game that
    cannot be read."""
    for each in games_of(rows):
        try:
            yield _read_kept(folder / GAMES, each)
        except RunError as fault:
            told.append(str(fault))
        except OSError as fault:
            told.append(f"{fault.filename}: {why(fault)}")


def _read_kept(games: Path, rows: Sequence[Row]) -> KeptGame:
    """Reads the game that has these eight rows. Raises RunError where a file is broken, or does not
    belong to the others."""
    name = rows[0].game_name
    file = games / f"{name}.game"
    try:
        game = read_game(file.read_bytes().decode("latin-1"))
        file = games / f"{name}.log"
        log = read_log(file.read_bytes())
        if [row.score for row in rows] != [score.score for score in log.scores]:
            raise RunError(f"{file}: its scores differ from the run's rows")
        for source in ("script", "journal"):
            file = games / f"{name}.{source}"
            if file.exists():
                ticks = ticks_by_requests(game, log, _requests(file))
                return KeptGame(rows, game, log, ticks, source)
    except (GameError, LogError, TicksError, JournalError) as fault:
        raise RunError(f"{file}: {fault}") from None
    return KeptGame(rows, game, log, ticks_by_log(game, log), "log")


def _requests(file: Path) -> Iterator[Timed]:
    if file.suffix == ".script":
        yield from requests_of(file.read_bytes().decode("latin-1"))
        return
    reader = read_journal(file)
    for call in [*reader.calls, *reader.pending()]:
        yield call.tick, call.agent, read_request(call.asked.text)

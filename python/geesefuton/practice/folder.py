"""The folder of a practice room: the files of its games, the outcome of each, and the standings,
which are averages in exact fractions.

A game has a manifest, `0001.json`, from its beginning on, and then a log, `0001.log`. It counts
once the manifest says that the log was audited. Files are written under another name, and renamed
atomically once the disk has them. So if the room is killed, they are complete, and a game that has
its log is audited when the room is started again.

Games are drawn from a secret, which the folder keeps in a file that only its owner may read. Its
SHA-256, to which the room commits, is known from the start; the secret itself once the room is over
for good. Or they are those of consecutive seeds, which can be guessed.
"""

from __future__ import annotations

import fcntl
import json
import os
from dataclasses import asdict, dataclass
from fractions import Fraction
from pathlib import Path
from typing import Any, Dict, List, Optional, Sequence, Tuple

from geesefuton.experiments.comparisons import estimate
from geesefuton.experiments.deals import SECRET, Rule, kept_secret
from geesefuton.hosting.journal import JournalError, read_journal
from geesefuton.practice.teams import Team
from geesefuton.processes import UNFINISHED, write_whole
from geesefuton.program import CommandError
from geesefuton.records.games import SEATS
from geesefuton.records.secret_deals import new_secret

VERSION = 2  # of the form of a room's files
ABOUT, LOCK, WORDS = "room.json", "lock", "words.json"


@dataclass(frozen=True)
class Finished:
    """What a game came to."""

    number: int  # in the room, from 1
    seed: int  # what it was made from
    pace: int  # milliseconds from tick to tick
    began: float  # in seconds since 1970, 0 if it has not
    over: float  # the same
    players: Tuple[str, ...]  # for whom each seat counts; "" for nobody
    files: Dict[str, str]  # the SHA-256 of its game file, and of its log once it is judged
    vouched: Tuple[str, ...] = ()  # what `tac vouch` says of each seat's link, if that is known
    is_judged: bool = False  # whether it is known if it counts
    scores: Tuple[int, ...] = ()  # of the eight seats, in dollars; none if it does not count
    fault: str = ""  # why it is lost


@dataclass(frozen=True)
class Standing:
    """What a player came to, as `tac table` has it for a seat word."""

    name: str
    games: int  # seats that count for it; the house may have several in a game
    average: Fraction
    rank: int  # 1 plus the number of players with a greater average
    half: Optional[float]  # of the average's 95 % interval; None for several seats in a game


class Folder:
    """The folder of a room, which one room at a time may use.

    Args:
        path: The folder. It is made if it is not there.
        seed: The seed of the first game; None for that of the folder, and a secret for a new one.

    Raises:
        CommandError: The folder is another's, in use, over, or not as a room leaves it.
        OSError: It cannot be made, read or written. The methods that write raise it too, and may
            be called again then.

    Attributes:
        rule: What games are drawn from.
        commitment: The SHA-256 of the secret, in hexadecimal digits; "" for none.
        finished: The games that are judged, in their order.
        unjudged: Those that have a log and are not, by their numbers.
    """

    def __init__(self, path: Path, seed: Optional[int] = None) -> None:
        self.path = path
        path.mkdir(parents=True, exist_ok=True)
        names = {name for name in os.listdir(path)
                 if name not in (LOCK, SECRET) and not name.endswith(UNFINISHED)}
        if names and ABOUT not in names:
            raise CommandError(f"{path} has files, but is not the folder of a practice room")
        self._lock = open(path / LOCK, "ab")
        try:
            fcntl.flock(self._lock, fcntl.LOCK_EX | fcntl.LOCK_NB)
            for rest in path.glob(f".*{UNFINISHED}"):  # by a room that was killed
                rest.unlink()
            self.rule = self._resumed(seed) if names else self._founded(seed)
            games = self._read_games()
        except BlockingIOError:
            self._lock.close()
            raise CommandError(f"another room is using {path}") from None
        except BaseException:
            self._lock.close()
            raise
        self.commitment = str(self.rule.drawn.get("commitment", ""))
        self.finished = [game for game in games if game.is_judged]
        self.unjudged = {game.number: game for game in games
                         if not game.is_judged and self.file(game.number, "log").exists()}

    def close(self) -> None:
        """Lets another room use it."""
        self._lock.close()

    def end(self) -> str:
        """Ends the room for good, and gives its secret, in hexadecimal digits; "" for none."""
        secret = self.rule.secret.hex() if self.commitment else ""
        about = self._read(self.path / ABOUT)
        write_whole(self.path / ABOUT, _json({**about, "secret": secret}))
        return secret

    def words(self) -> Dict[str, str]:
        """The words of teams by their keys, also of those that are not here this time."""
        file = self.path / WORDS
        return self._read(file, "does not have the words of teams") if file.exists() else {}

    def keep_words(self, teams: Sequence[Team]) -> None:
        """Keeps the words of teams, for when the room starts again."""
        write_whole(self.path / WORDS, _json({**self.words(), **{
            team.key: team.word for team in teams}}))

    def file(self, number: int, kind: str) -> Path:
        """The file of a game, such as its `log`."""
        return self.path / f"{number:04}.{kind}"

    def next_number(self) -> Tuple[int, List[int]]:
        """The number of the next game, and the numbers of games that had begun and have no log.
        What is left of a game that had not begun is removed."""
        done = {game.number for game in self.finished} | set(self.unjudged)
        begun = []
        for journal in sorted(self.path.glob("[0-9]*.journal")):
            number = int(journal.stem) if journal.stem.isdigit() else 0
            if number in done or not number:
                continue
            try:
                has_begun = read_journal(journal).has_begun
            except JournalError:
                has_begun = journal.stat().st_size > 0  # whatever it has is kept
            if has_begun:
                begun.append(number)
            else:
                journal.unlink()
        return max([0, *done, *begun]) + 1, begun

    def write(self, game: Finished) -> None:
        """Writes a game's manifest."""
        write_whole(self.file(game.number, "json"), _json(asdict(game)))

    def keep(self, game: Finished, log: bytes) -> None:
        """Writes the log and the manifest of a game that is over."""
        write_whole(self.file(game.number, "log"), log)
        self.write(game)
        self.unjudged[game.number] = game

    def judge(self, game: Finished) -> None:
        """Writes the manifest of a game that is judged: then it is finished."""
        self.write(game)
        del self.unjudged[game.number]
        self.finished.append(game)

    def _founded(self, seed: Optional[int]) -> Rule:
        rule = Rule(new_secret(), seed)
        if seed is None:
            write_whole(self.path / SECRET, f"{rule.secret.hex()}\n".encode("ascii"))
        write_whole(self.path / ABOUT, _json({"room": VERSION, **rule.drawn}))
        return rule

    def _resumed(self, seed: Optional[int]) -> Rule:
        """Takes over the seed or the secret of the room that the folder has."""
        about = self._read(self.path / ABOUT)
        first, due = about.get("seed"), about.get("commitment")
        if about.get("room") != VERSION or isinstance(first, int) == isinstance(due, str):
            raise CommandError(f"{self.path / ABOUT} does not describe a practice room")
        if "secret" in about:
            raise CommandError(f"the room of {self.path} is over: choose another folder")
        if seed not in (None, first):
            known = "secret deals" if first is None else f"the first seed {first}"
            raise CommandError(f"{self.path} has a room with {known}, not the first seed {seed}")
        rule = Rule(kept_secret(self.path) or b"", first)
        if first is None and rule.drawn["commitment"] != due:
            raise CommandError(f"{self.path / SECRET} does not have the secret to which "
                              f"{self.path / ABOUT} commits")
        return rule

    def _read_games(self) -> List[Finished]:
        games = []
        for file in sorted(self.path.glob("[0-9]*.json")):
            try:
                what = self._read(file)
                for name in ("players", "scores", "vouched"):
                    what[name] = tuple(what[name])
                game = Finished(**what)
                if len(game.players) != SEATS or len(game.scores) not in (0, SEATS):
                    raise ValueError
            except (KeyError, TypeError, ValueError):
                raise CommandError(f"{file} is not the manifest of a game") from None
            games.append(game)
        return sorted(games, key=lambda game: game.number)

    @staticmethod
    def _read(file: Path, fault: str = "was not written by a room") -> Dict[str, Any]:
        try:
            what = json.loads(file.read_bytes())
        except ValueError:
            what = None
        if not isinstance(what, dict):
            raise CommandError(f"{file} {fault}")
        return what


def _json(what: Dict[str, Any]) -> bytes:
    return json.dumps(what, indent=1).encode("ascii") + b"\n"


def standings_of(games: Sequence[Finished]) -> List[Standing]:
    """The standings over games, in the order of their ranks and then of their names."""
    seats: Dict[str, List[Tuple[int, int]]] = {}  # of each player: the game, and the score
    for game in games:
        for player, score in zip(game.players, game.scores):
            if player:
                seats.setdefault(player, []).append((game.number, score))
    scores = {name: [score for _, score in own] for name, own in seats.items()}
    averages = {name: Fraction(sum(own), len(own)) for name, own in scores.items()}
    rows = []
    for name, own in scores.items():
        has_one_each = len(dict(seats[name])) == len(own)
        rank = 1 + sum(other > averages[name] for other in averages.values())
        half = estimate(own).half if has_one_each else None
        rows.append(Standing(name, len(own), averages[name], rank, half))
    return sorted(rows, key=lambda row: (row.rank, row.name))

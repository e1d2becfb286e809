"""What games come to, as the process that plays them tells it, and the rows of a tournament, one
for each seat of each game, and their form in CSV."""

import csv
import enum
import io
from dataclasses import astuple, dataclass, field, fields
from typing import Dict, Iterable, List, Optional, Sequence, Tuple, Union

from geesefuton.hosting import events
from geesefuton.program import CommandError
from geesefuton.records.games import SEATS
from geesefuton.records.tables import csv_of


class Kind(str, enum.Enum):
    """How a game was played."""

    SERVED = "served"  # by a clock
    TURNS = "turns2"  # in turns, without a clock
    UNREPEATABLE = "unrepeatable2"  # in turns, of which some were passed over


class Outcome(str, enum.Enum):
    """How an agent's game went."""

    PLAYED = "played"
    ABSENT = "absent"  # it took no seat
    CRASHED = "crashed"  # it ended with an error, or without a word
    HUNG = "hung"  # it fell silent, and had to be ended when the game was over
    KILLED = "killed"  # a signal ended it that its game had not sent
    REFUSED = "refused"  # its first line was refused, or every line that it sent


@dataclass(frozen=True)
class Note:
    """Something that is told to whoever runs the tournament."""

    text: str


@dataclass(frozen=True)
class Result:
    """What a game came to."""

    # the scores of the eight seats in dollars; none if the game was lost
    scores: Tuple[int, ...] = ()
    outcomes: Tuple[Outcome, ...] = ()  # how each seat's game went
    fault: str = ""  # why the game was lost; "" if it was not
    kind: Kind = Kind.SERVED  # how it was played
    # in how many ticks each agent says that it could not act; None where it does not say
    missed: Tuple[Optional[int], ...] = (None,) * SEATS


Message = Union[events.Event, Note, Result]  # of a process that plays games


@dataclass(frozen=True)
class Row:
    """What a seat of a game came to."""

    # the beginning of the SHA-256 of what was dealt (`deals.Deal.name`). Games with the same deal
    # are alike, wherever they were played.
    deal: str
    rotation: int  # which of the deal's games it is, from 0
    seat: int  # the seat, 0 to 7
    agent: str  # the agent's name
    score: int  # in dollars
    end: Outcome  # how it went
    luck: int  # what the seat's clients are worth at fixed prices, in dollars (`covariates`)
    kind: Kind = Kind.SERVED  # how the game was played
    nights: float = 0.0  # how many nights the seat's clients want to stay, in the mean
    first_price: float = 0.0  # the mean of the flights' first prices, in dollars
    run: int = 1  # the number of the run that played it, from 1, in a folder that has several
    settings: str = ""  # what else decides what can be compared (`provenance.settings_text`)
    files: str = ""  # the beginning of the SHA-256 of the agent's files
    # in how many ticks the agent says that it could not act in time; None if it says nothing
    missed: Optional[int] = None
    number: int = 1  # the number of the deal in its run, from 1
    source: str = ""  # the folder that it comes from, where several are compared; not in the CSV

    @property
    def place(self) -> Tuple[int, int]:
        """Which game of its run it is: the number of the deal, and the rotation."""
        return self.number, self.rotation

    @property
    def game_name(self) -> str:
        """The name of its game's files."""
        return f"{self.number}.{self.rotation}"

    @property
    def game(self) -> Tuple[str, str, int]:
        """Which game it is of all that are compared: its source, its deal and the rotation."""
        return self.source, self.deal, self.rotation


HEAD = [each.name for each in fields(Row)][:-1]


@dataclass
class Found:
    """What a CSV has."""

    rows: List[Row] = field(default_factory=list)  # of games that have all eight
    told: List[str] = field(default_factory=list)  # what was left out, each in a line


def text_of(rows: Iterable[Row]) -> str:
    """The rows as lines of CSV, without a head."""
    def cell(value: object) -> object:
        if isinstance(value, float):
            return f"{value:g}"
        return value.value if isinstance(value, enum.Enum) else value

    return csv_of(list(map(cell, astuple(row)[:-1])) for row in rows)


def _read_row(words: Sequence[str]) -> Row:
    (deal, rotation, seat, agent, score, end, luck, kind, nights, first_price, run, settings, files,
     missed, number) = words
    return Row(deal, int(rotation), int(seat), agent, int(score), Outcome(end), int(luck),
               Kind(kind), float(nights), float(first_price), int(run), settings, files,
               int(missed) if missed else None, int(number))


def read_rows(text: str) -> Found:
    """Reads the text of a scores.csv, which may lack its end. Raises CommandError where it begins
    otherwise."""
    whole, _, half = text.rpartition("\n")
    if not whole and csv_of([HEAD]).startswith(half):
        return Found()
    lines = csv.reader(io.StringIO(whole, newline="\n"))
    if next(lines, None) != HEAD:
        raise CommandError("line 1 is not the head of a tournament's CSV of this version")
    found = Found()
    games: Dict[Tuple[str, int, int], List[Row]] = {}
    for words in lines:
        try:
            row = _read_row(words)
        except ValueError:
            found.told.append(f"line {lines.line_num} is not a row: {','.join(words)[:60]!r}")
        else:
            games.setdefault((row.deal, *row.place), []).append(row)
    if half:
        found.told.append(f"line {lines.line_num + 1} was half written: {half[:60]!r}")
    for rows in games.values():
        if sorted(row.seat for row in rows) == list(range(SEATS)):
            found.rows += rows
        else:
            found.told.append(f"game {rows[0].game_name} has {len(rows)} rows, not {SEATS}")
    return found

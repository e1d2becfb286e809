"""The deals of a tournament: clients, tickets, flights and the order of hotels, before a game. They
are drawn from a secret (`records.secret_deals`) or are those of known seeds. Deals with the same
text are the same deal, in whatever run.
"""

import argparse
import hashlib
import json
import re
from dataclasses import dataclass
from functools import cached_property
from pathlib import Path
from typing import Container, Dict, Iterator, Optional, Tuple

from geesefuton import program
from geesefuton.records.drawing import varied
from geesefuton.records.games import MOST_ROOMS, Game, read_game
from geesefuton.records.secret_deals import commitment, deal_seed, read_secret

SHORT = 12  # digits of a digest in a row
RUN, SECRET = "run.json", "secret"  # files in the folder of a run


class DealError(program.CommandError, argparse.ArgumentTypeError):
    """A deal that cannot be made, or words that name none."""


@dataclass(frozen=True)
class Rule:
    """How the deals are made."""

    secret: bytes = bytes(32)  # what deals and agents' seeds are drawn from
    # the seed of the first deal, if the seeds are known; then each has the next one
    seed: Optional[int] = None
    # the least and the most rooms of a hotel night; None for 16
    rooms: Optional[Tuple[int, int]] = None
    live: bool = False  # whether each admitted bid publishes a hotel's price
    is_clumped: bool = False  # whether tickets are endowed as in the original game

    @property
    def drawn(self) -> Dict[str, object]:
        """What is told from the start of how deals are drawn: their seed, or the secret's
        commitment."""
        return {"commitment": commitment(self.secret)} if self.seed is None else {"seed": self.seed}

    def seed_of(self, number: int) -> int:
        """The seed of the deal of a number, from 1."""
        return deal_seed(self.secret, number) if self.seed is None else self.seed + number - 1


@dataclass(frozen=True)
class Deal:
    """A deal."""

    number: int  # its number in the run, from 1
    game: Game  # its game, with the seat words of made games

    @cached_property
    def name(self) -> str:
        """The first digits of the SHA-256 of its canonical text without the line of words."""
        lines = self.game.text().split("\n")
        text = "\n".join(line for line in lines if not line.startswith("words "))
        return hashlib.sha256(text.encode()).hexdigest()[:SHORT]


@dataclass(frozen=True)
class Table:
    """A game that is to be played: a deal, and which of the deal's games it is."""

    deal: Deal
    rotation: int

    @property
    def name(self) -> str:
        """A name for its files."""
        return f"{self.deal.number}.{self.rotation}"


def read_rooms(text: str) -> Tuple[int, int]:
    """Reads `4` or `3..6`, the numbers of rooms, 1 to 64, that a hotel night may have."""
    found = re.fullmatch(r"([0-9]{1,9})(?:\.\.([0-9]{1,9}))?", text)
    low, high = (int(found[1]), int(found[2] or found[1])) if found else (0, 0)
    if not 1 <= low <= high <= MOST_ROOMS:
        raise DealError(f"expected rooms as a number or a range such as 3..6, from 1 to "
                        f"{MOST_ROOMS}, not {text!r}")
    return low, high


def made_deal(rule: Rule, number: int) -> Deal:
    """The deal of a number, from 1. Raises ProgramError for `tac`."""
    seed = rule.seed_of(number)
    return Deal(number, varied(read_game(program.make(seed)), seed, rule.rooms, rule.live,
                               rule.is_clumped))


def place_of(number: int, rotations: int) -> Tuple[int, int]:
    """The number of the deal, and the rotation, of the game of a number, from 0."""
    return number // rotations + 1, number % rotations


def tables(rule: Rule, games: int, rotations: int,
           finished: Container[Tuple[int, int]] = ()) -> Iterator[Table]:
    """The games of a tournament in order, without those that are finished."""
    deal: Optional[Deal] = None
    for game in range(games):
        number, rotation = place_of(game, rotations)
        if (number, rotation) not in finished:
            if deal is None or deal.number != number:
                deal = made_deal(rule, number)
            yield Table(deal, rotation)


def kept_secret(folder: Path) -> Optional[bytes]:
    """The secret of a run that is in a folder; None if it has none. Raises DealError where a file
    has something else."""
    file = folder / SECRET
    if file.exists():
        try:
            return read_secret(file.read_text(encoding="ascii").strip())
        except ValueError:
            raise DealError(f"{file}: it has no secret of a run") from None
    try:
        return read_secret(json.loads((folder / RUN).read_bytes())["deals"][SECRET])
    except (FileNotFoundError, ValueError, LookupError, TypeError):
        return None

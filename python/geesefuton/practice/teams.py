"""The teams of a class: their names, which are public, and their words, which are passwords."""

from __future__ import annotations

import csv
import html
import re
from dataclasses import dataclass
from pathlib import Path
from typing import List, Mapping, Optional, Sequence

from geesefuton.network.addresses import join_address, new_token, qr_picture
from geesefuton.program import CommandError
from geesefuton.records.games import SEATS, is_seat_word

MOST = 64  # teams of a room with several tables


@dataclass
class Team:
    """A team."""

    name: str  # as it is shown
    key: str  # the name as a seat word of game files and logs, which anybody may see
    word: str  # by which its agent takes its seat


def read_teams(file: Path, known: Mapping[str, str], most: int = SEATS) -> List[Team]:
    """Reads at most `most` teams from a CSV file with lines `name` or `name,word`. A team without a
    word keeps the word that `known` has for its key, or gets a new one.

    Raises:
        CommandError: The file has no teams, too many, or a name or word that cannot be one.
        OSError: It cannot be read.
    """
    teams: List[Team] = []
    try:
        rows = [row for row in csv.reader(file.read_text("utf-8-sig").splitlines()) if any(row)]
    except (UnicodeDecodeError, csv.Error):
        raise CommandError(f"{file} is not a CSV file in UTF-8") from None
    for row in rows:
        name, word = row[0].strip(), row[1].strip() if len(row) > 1 else ""
        key = re.sub("[^a-z0-9]", "", name.lower())[:16]
        if len(row) > 2 or not key or word and not is_seat_word(word):
            raise CommandError(f"{file}: {','.join(row)!r} is not a team: give a name with letters "
                               "a to z or digits, and optionally a word of 1 to 16 of these")
        teams.append(Team(name, key, word or known.get(key) or new_token()))
    if not 1 <= len(teams) <= most:
        raise CommandError(f"{file} has {len(teams)} teams, but " + (
            f"a room has 1 to {most}" if most > SEATS else
            f"a game has 1 to {SEATS}: with --tables a room has up to {MOST}"))
    for what, values in (("name", [team.key for team in teams]),
                         ("word", [team.word for team in teams])):
        if len(set(values)) < len(values):
            raise CommandError(f"{file}: two teams have the same {what}")
    return teams


def slips_of(teams: Sequence[Team], address: str, port: int, page: Optional[int]) -> str:
    """A page with a slip for each team, to be printed and cut, with QR codes if `qrencode` is
    installed. `port` is that for agents, and `page` that of the room's page, if it has one."""
    join = join_address(address, page) if page else ""
    code = qr_picture(join)
    picture = f'<img alt="The address as a QR code" src="{code}">' if code else ""
    where = f"Join at {join}, or run:" if join else "Run:"
    parts = ["<!doctype html><html lang=en><meta charset=utf-8><title>Words of the teams</title>",
             "<style>body{font:16px sans-serif}section{border-top:1px dashed;padding:1em 0;"
             "break-inside:avoid}img{float:right;height:8em}b{font-size:2em}</style>"]
    parts += [f"<section>{picture}<h2>{html.escape(team.name)}</h2><p>Your word, a password: "
              f"<b>{team.word}</b><p>{html.escape(where)}<p><code>python3 mine.py "
              f"{html.escape(address)} {port} {team.word} --again</code></section>"
              for team in teams]
    return "\n".join([*parts, "</html>", ""])

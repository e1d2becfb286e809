"""The journal of a game that is kept as data, and journals that tests make of their own lines."""

import json
import random
import re
from typing import Any, Dict, List, Sequence

from geesefuton import program
from geesefuton.hosting.journal import JournalReader
from geesefuton.hosting.nights import Night, Nights
from geesefuton.hosting.recovery import Player
from geesefuton.records.games import Game, read_game
from tests.package.cases import FolderCase
from tests.package.helpers import DATA

TEXT = (DATA / "lobby.journal").read_text()
LINES = TEXT.split("\n")[:-1]
HEAD: Dict[str, Any] = json.loads(LINES[0])  # its pace is 100 milliseconds
GAME: Game = read_game(HEAD["game"])
BEGIN = '{"begin":[0,1,2,3,4,5,6,7]}'
HEADED = [LINES[0], BEGIN, '{"tick":0,"t":0}']


def place_of(tick: int) -> int:
    """Which line of the kept journal has a tick."""
    return next(place for place, line in enumerate(LINES) if f'{{"tick":{tick},' in line)


def of_text(lines: Sequence[str]) -> JournalReader:
    """What these lines say."""
    reader = JournalReader()
    reader.read("\n".join(lines))
    return reader


def asks(agent: int, line: str) -> str:
    """The line of a request."""
    return json.dumps({"a": agent, "q": line})


def told(agent: int, line: str, time: int = 0) -> str:
    """The line of a reply."""
    return json.dumps({"a": agent, "r": line, "t": time})


def nights_of(reader: JournalReader) -> List[Night]:
    """The hotel nights of a journal, worked through at once."""
    nights = Nights(reader)
    nights.follow(reader)
    return nights.now()


def begun(*lines: Dict[str, Any], tick: int = 0, game: Game = GAME) -> JournalReader:
    """A journal of a game that has begun: with these lines, and then the tick."""
    _, *begin = HEADED
    return of_text([json.dumps({**HEAD, "game": game.text()}), *begin, *map(json.dumps, [
        *lines, *([{"tick": tick, "t": 100 * tick}] if tick else [])])])


def asked(agent: int, line: str, reply: str, time: int) -> List[Dict[str, Any]]:
    """The lines of a request and its reply."""
    return [{"a": agent, "q": line}, {"a": agent, "r": reply, "t": time}]


def cut_lines(dice: random.Random, lines: Sequence[str]) -> List[str]:
    """The lines of a journal of a game that has begun up to a random place, without the last
    replies of some agents."""
    first = next(place for place, line in enumerate(lines) if '"r":' in line)
    part = list(lines[:dice.randint(first + 20, len(lines) - 1)])
    for agent in dice.sample(range(8), dice.randint(1, 8)):
        places = [place for place, line in enumerate(part)
                  if line.startswith(f'{{"a":{agent},"r":')]
        if places:  # what the agent sent after that was not passed on yet
            part = part[:places[-1]] + [line for line in part[places[-1] + 1:]
                                        if not line.startswith(f'{{"a":{agent},')]
    return part


def parts_of(log: str) -> Dict[str, str]:
    """The parts of a log that a recovery gives again."""
    cash, sheet = log.index("\ncash ") + 1, log.index("\nsheet\n")
    return {"histories": log[log.index("auction 0 "):cash], "sheet": log[sheet:],
            "posts": "\n".join(sorted(re.findall("(?m)^.* post .*$", log[cash:sheet])))}


class PlayedCase(FolderCase):
    """A game that the program plays again, in a folder of the test."""

    def setUp(self) -> None:
        super().setUp()
        self.player = Player(self.folder)

    def audit(self, log: str) -> str:
        """What the program says of a log of the kept game."""
        (self.folder / "my.game").write_text(GAME.text())
        (self.folder / "my.log").write_text(log)
        return program.audit(self.folder / "my.game", self.folder / "my.log")

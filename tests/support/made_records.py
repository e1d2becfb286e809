"""Records of links for tests: games by a script whose logs have the head of a served game, with the
record of each agent's link; and the same with one thing changed."""

import random
import re
from pathlib import Path
from typing import Callable, Dict, List, NamedTuple, Sequence, Tuple

from geesefuton import program
from geesefuton.records.dialects import said_in
from geesefuton.records.games import FLIGHTS, GOODS, TICKETS, read_game
from geesefuton.records.replies import read_request, request_json

WELCOME = 10
CAUSES = ("quit", "end", "readfault", "writefault", "budget")
ENTRY = r"[0-8] (bid|own|withdraw|update|publish|close)\b"


class Played(NamedTuple):
    """A game by a script, whose log has the head of a served one.

    Attributes:
        game: The text of the game file.
        log: The text of the log.
        asked: The lines of each agent, the greeting first.
        said: The lines that each was sent.
    """

    game: str
    log: str
    asked: List[List[str]]
    said: List[List[str]]


def play(folder: Path, script: Sequence[str], live: bool = True, seed: int = 42) -> Played:
    """Plays a script in a made game with 3 rooms a night. Lines of agents end up in their records,
    also those that the script has no form for."""
    game = read_game(program.make(seed)).with_rooms([3] * 8, live)
    (folder / "game").write_text(game.text())
    (folder / "script").write_text("".join(f"{line}\n" for line in script))
    text = program.play(folder / "game", folder / "script")
    start = text.index("taclog 1\n")
    asked = [[f"hello {word}"] for word in game.words]
    said = [[f"welcome {seat}", *re.findall(f"(?m)^(?:endow|client) {seat} .*$", game.text())]
            for seat in range(8)]
    for line in script:
        if line != "tick":
            asked[int(line[0])].append(line[2:])
    for line in text[:start].splitlines():
        said[int(line[0])].append(line[2:])
    ends = ["quit" if "bye" in lines else "end" for lines in said]
    return Played(game.text(), served(text[start:], ends), asked, said)


def served(log: str, ends: Sequence[str]) -> str:
    """The log of a game by a script with the head of a served one, in which each agent had a seat,
    and whose sessions ended for these causes."""
    head = ["serve", *(f"link {seat} seated {seat}" for seat in range(8)),
            *(f"end {seat} {cause}" for seat, cause in enumerate(ends)), "missed 0"]
    return log.replace("\nplay\n", "\n" + "\n".join(head) + "\n", 1)


def text_of(lines: Sequence[str]) -> bytes:
    """Lines as the bytes of a link."""
    return "".join(f"{line}\n" for line in lines).encode("latin-1")


# One thing changed.


def without(lines: List[str], place: int) -> List[str]:
    """The lines without the one at a place."""
    return lines[:place] + lines[place + 1:]


def doubled(lines: List[str], place: int) -> List[str]:
    """The lines with the one at a place twice."""
    return lines[:place + 1] + lines[place:]


def swapped(lines: List[str], place: int) -> List[str]:
    """The lines with the one at a place behind the next one."""
    return [*lines[:place], lines[place + 1], lines[place], *lines[place + 2:]]


def changed(lines: List[str], place: int, line: str) -> List[str]:
    """The lines with another one at a place."""
    return [*lines[:place], line, *lines[place + 1:]]


def altered(dice: random.Random, lines: List[str], place: int, other: Callable[[str], str]
            ) -> List[str]:
    """Lines with the one at a place changed, dropped, doubled or swapped."""
    way = dice.randrange(4)
    if way == 0:
        return changed(lines, place, other(lines[place]))
    return (without, doubled, swapped)[way - 1](lines, min(place, len(lines) - 2))


def other_number(dice: random.Random, line: str) -> str:
    """A line with one of its numbers changed, or a byte behind it."""
    numbers = list(re.finditer("[0-9]+", line))
    if not numbers or dice.random() < 0.1:
        return line + dice.choice([" ", "0", "x"])
    found = dice.choice(numbers)
    number = max(0, int(found[0]) + dice.choice([-1, 1, 1, 7]))
    return line[:found.start()] + str(number) + line[found.end():]


def mended(log: List[str]) -> List[str]:
    """A log with its numbers of entries as many as there are."""
    counted, head = list(log), 0
    for place, line in enumerate(log):
        if re.match("auction |cash [0-9]+$", line):
            head, count = place, 0
            counted[head] = " ".join([*line.split(" ")[:-1], "0"])
        elif line == "sheet":
            break
        elif head and re.match("[0-8] ", line):
            count += 1
            counted[head] = " ".join([*counted[head].split(" ")[:-1], str(count)])
    return counted


def drawn_line(dice: random.Random, goods: Sequence[int]) -> str:
    """A line of an agent."""
    good, word = dice.choice(goods), dice.choice(["bid"] * 3 + ["own", "quote", "withdraw", "cash"])
    sign = dice.choice([1, -1]) if good > 15 else 1
    bid = f" (({sign * dice.randint(1, 2)} {dice.randint(1, 450)}))"
    return "cash" if word == "cash" else f"{word} {good}{bid * (word == 'bid')}"


def drawn_script(dice: random.Random, lines: int = 160, ticks: int = 30, goods: int = 5
                 ) -> List[str]:
    """A script of eight agents that meet at some goods."""
    met = dice.sample(list(GOODS), goods)
    script = [f"{dice.randrange(8)} {drawn_line(dice, met)}" for _ in range(lines)]
    for _ in range(ticks):
        script.insert(dice.randrange(len(script)), "tick")
    return script


class Record(NamedTuple):
    """An agent's record and a log, as lines.

    Attributes:
        asked: What the agent sent, the greeting first.
        said: What it was sent.
        log: The log.
    """

    asked: List[str]
    said: List[str]
    log: List[str]


class Changes:
    """Changes of the records of a drawn game. Those that `KINDS` names change one thing.

    Args:
        dice: By which they are drawn.
        folder: Where scripts are played.
    """

    def __init__(self, dice: random.Random, folder: Path) -> None:
        self.dice, self.folder, self.script = dice, folder, drawn_script(dice)
        self.seed, self.live = dice.randrange(1000), dice.random() < 0.5
        self.played = self.play(self.script)
        counts = [len(lines) for lines in self.played.asked]
        self.agent = dice.choice([agent for agent in range(8) if counts[agent] > 3])

    def play(self, script: List[str]) -> Played:
        """What a script leads to in this game."""
        return play(self.folder, script, self.live, self.seed)

    def drawn(self, kind: str, form: str) -> Record:
        """A record in a form with one thing changed, sometimes without its last replies."""
        said, asked = self.played.said[self.agent], self.played.asked[self.agent]
        if self.dice.random() < 0.2:
            said = said[:self.dice.randint(WELCOME, len(said))]
        record = Record(asked, said, self.played.log.split("\n"))
        # A reply that is none has no form in JSON.
        record = in_json(record) if form == "json" and kind == "reply" else record
        record = KINDS[kind](self, record)
        return in_json(record) if form == "json" and kind != "reply" else record

    def line(self, record: Record) -> Record:
        """A line of the agent."""
        place = self.dice.randrange(len(record.asked) - 1)
        return record._replace(asked=altered(self.dice, record.asked, place, self.other_line))

    def reply(self, record: Record) -> Record:
        """A line that it was sent."""
        place = self.dice.randrange(len(record.said) - 1)
        if self.dice.random() < 0.8:
            place = max(place, min(WELCOME, len(record.said) - 2))
        return record._replace(said=altered(
            self.dice, record.said, place, lambda line: other_number(self.dice, line)))

    def call(self, record: Record) -> Record:
        """A call of the game: the log is that of the game with one call dropped, doubled, swapped,
        changed or made by another agent, which is sound, so that all depends on the link."""
        places = [place for place, line in enumerate(self.script[:-1])
                  if line[2:5] != "quo" and line != "tick"]
        own = [place for place in places if self.script[place][0] == str(self.agent)]
        place = self.dice.choice(own if own and self.dice.random() < 0.5 else places)
        if self.dice.random() < 0.3:
            line = f"{self.dice.randrange(8)}{self.script[place][1:]}"
            script = changed(self.script, place, line)
        else:
            script = altered(self.dice, self.script, place,
                             lambda line: line[:2] + self.other_line(line[2:]))
        return record._replace(log=self.play(script).log.split("\n"))

    def cause(self, record: Record) -> Record:
        """The cause of the session's end, where the agent quit or did not."""
        asked, said = list(record.asked), list(record.said)
        if self.dice.random() < 0.5:
            asked.append("quit")
            said += ["bye"] * (self.dice.random() < 0.7)
        cause, start = self.dice.choice(CAUSES), f"end {self.agent} "
        return Record(asked, said, [f"{start}{cause}" if line.startswith(start) else line
                                    for line in record.log])

    def memory(self, record: Record) -> Record:
        """Replies that say that there was no memory, for other replies or to lines of their own."""
        asked, said = list(record.asked), list(record.said)
        for _ in range(self.dice.randint(1, 3)):
            place = self.dice.randrange(len(said) - WELCOME + 1)
            if self.dice.random() < 0.8:
                asked.insert(place + 1, self.other_line("cash"))
                said.insert(place + WELCOME, "no memory")
            elif place + WELCOME < len(said):
                said[place + WELCOME] = "no memory"
        return record._replace(asked=asked, said=said)

    def logged(self, record: Record, form: str) -> Record:
        """A line of the log that has a form; the log's numbers of entries are as many as there are
        then."""
        places = [place for place, line in enumerate(record.log) if re.match(form, line)]
        if not places:
            return record
        own = [place for place in places if record.log[place][0] == str(self.agent)]
        place = self.dice.choice(own if own and self.dice.random() < 0.5 else places)

        def other(line: str) -> str:
            if self.dice.random() < 0.3 and form != "trade ":
                return f"{self.dice.randrange(8)}{line[1:]}"
            return other_number(self.dice, line)

        return record._replace(log=mended(altered(self.dice, record.log, place, other)))

    def other_line(self, line: str) -> str:
        """Another line in its place."""
        if self.dice.random() < 0.5:
            return other_number(self.dice, line)
        return drawn_line(self.dice, [self.dice.choice(list(GOODS)), 3, 9])


KINDS: Dict[str, Callable[[Changes, Record], Record]] = {
    "line": Changes.line, "reply": Changes.reply, "call": Changes.call, "cause": Changes.cause,
    "memory": Changes.memory,
    "entry": lambda changes, record: changes.logged(record, ENTRY),
    "trade": lambda changes, record: changes.logged(record, "trade "),
    "post": lambda changes, record: changes.logged(record, "[0-8] post "),
    "reading": lambda changes, record: changes.logged(record, "[0-7] read ")}


WAYS = ("drops", "doubles", "swaps", "invents")  # what a relay does to a request
MADE_UP = {"bid": "taken 0 0", "withdraw": "done", "own": "own 0 ()"}


def meddled(dice: random.Random, folder: Path, way: str) -> Tuple[Played, int]:
    """A drawn game in which a relay meddled with one of two different calls of an agent, and the
    agent. The relay drops the first and makes up its reply, passes the second on twice, swaps them,
    or invents one; its record shows that each line of the agent had a reply, and no other came."""
    script, agent = drawn_script(dice), dice.randrange(8)
    good = dice.choice([*FLIGHTS, *TICKETS])  # that do not close
    bids = [f"bid {good} ((1 {price}))" for price in dice.sample(range(1, 300), 2)]
    first, second = dice.sample([*bids, f"own {good}", f"withdraw {good}"], 2)
    passed = {"drops": [second], "doubles": [first, second, second], "swaps": [second, first],
              "invents": [f"own {good}", first, second]}[way]
    place = dice.randrange(len(script))
    played = play(folder, [*script[:place], *(f"{agent} {line}" for line in passed),
                           *script[place:]])
    count = 1 + sum(line[0] == str(agent) for line in script[:place])
    begin = WELCOME + count - 1
    replies = played.said[agent][begin:begin + len(passed)]
    at = replies[0].split()[0]
    told = {"drops": [f"{at} {MADE_UP[first.split()[0]]}", *replies], "doubles": replies[:2],
            "swaps": replies[::-1], "invents": replies[1:]}[way]
    played.asked[agent][count:count + len(passed)] = [first, second]
    played.said[agent][begin:begin + len(passed)] = told
    return played, agent


def in_json(record: Record) -> Record:
    """The record with its lines and replies in JSON; those that ask nothing stay as they are."""
    asked = record.asked[:1] + [line if (request := read_request(line)) is None else
                                request_json(request) for line in record.asked[1:]]
    said = record.said[:WELCOME] + [said_in(line.encode("latin-1"), "json").decode("latin-1")
                                    if line.startswith(("@", "no ", "bye")) else line
                                    for line in record.said[WELCOME:]]
    return record._replace(asked=asked, said=said)

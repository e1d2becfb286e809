"""Whether a log is right about one link, by the bytes that the link asked and those that it was
said: a plain reading of the rules, which shares no line with what is proved.

    python3 -m tests.support.vouching GAME LOG ASKED SAID [json]

It prints what `tac vouch` does (docs/FORMATS.md, "The audit of a link"), and ends with its status.
The log is audited first, by the program that the variable TAC names, or the built one; a refusal or
a flaw is printed as it is told.
"""

import re
import sys
from collections import deque
from pathlib import Path
from typing import Deque, Dict, List, Optional, Sequence, Tuple, Union

from geesefuton import program
from geesefuton.arguments import Parser
from geesefuton.processes import command
from geesefuton.records.books import Board, Books
from geesefuton.records.dialects import MOST_LINE, said_in, words_for
from geesefuton.records.games import GOODS, Game, read_game, welcome
from geesefuton.records.logs import MOST_BYTES, Entry, Log, Post, Reading, read_log
from geesefuton.records.replies import Points, Request, entry_words, read_points

MOST_CALLS = 1024  # of an agent at a good, and as many readings of its cash
MOST_LINES = 65_536  # of a session
MEMORY = b"no memory"
TEXT_REFUSED, READ_FAULT = 8, 3  # exit statuses

_GOOD = r"(0|[1-9][0-9]{0,4})"
_LINE = re.compile(rf"(cash|quit)|(withdraw|own|quote) {_GOOD}|bid {_GOOD} (.*)", re.DOTALL)
_POINT = r"\((?:0|-?[1-9][0-9]{0,4}) (?:0|[1-9][0-9]{0,4})\)"
_POINTS = re.compile(rf"\({_POINT}(?: {_POINT})*\)")


# What lines ask.


def fault_of(points: Points) -> int:
    """The first fault of a bid's points; 0 if they have none."""
    total = 0
    for number, (units, price) in enumerate(points):
        total += abs(units)
        if number == 16:
            return 2
        if units == 0:
            return 5
        if not 1 <= price <= 10_000:
            return 4
        if total > 16:
            return 3
    return 0


def asked_by(line: bytes, form: str) -> Union[Request, str]:
    """What a line asks, in a form, `words` or `json`; for one that asks nothing, its reply in
    words."""
    if len(line) > MOST_LINE:
        return "no toolong"
    found = _LINE.fullmatch(words_for(line, form).decode("latin-1"))
    if found is None:
        return "no syntax"
    plain, keyword, good, auction, points = found.groups()
    if plain:
        return Request(plain)
    if int(good or auction) not in GOODS:
        return "no auction"
    if keyword:
        return Request(keyword, int(good))
    bid = read_points(points) if _POINTS.fullmatch(points) else ()
    fault = fault_of(bid) if bid else 1
    return f"no bid {fault}" if fault else Request("bid", int(auction), bid)


# What quotes show.


class Boards:
    """The boards of all prefixes of a log's histories; those of a good are made when they are first
    asked for."""

    def __init__(self, game: Game, log: Log) -> None:
        self.game, self.log = game, log
        self._made: Dict[int, List[Board]] = {}

    def of(self, good: int) -> List[Board]:
        """The board of each prefix of a good's history, the empty one first."""
        if good not in self._made:
            books = Books(self.game)
            self._made[good] = [books.boards[good]]
            for entry in self.log.histories[good]:
                books.take(good, entry)
                self._made[good].append(books.boards[good])
        return self._made[good]


# A link against a log.


class Part:
    """An agent's part of a log, of which the lines of its link take one entry after the other.

    Attributes:
        has_left: Whether a line was `quit`.
        taken: How many entries and readings were taken; posts are not counted.
    """

    def __init__(self, boards: Boards, agent: int, form: str) -> None:
        log = boards.log
        self._boards, self._form = boards, form
        self._entries: List[Deque[Tuple[int, Entry]]] = [
            deque((at, entry) for at, entry in enumerate(history) if entry.caller == agent)
            for history in log.histories]
        self._cash: Deque[Tuple[int, Union[Post, Reading]]] = deque(
            (at, entry) for at, entry in enumerate(log.cash)
            if (entry.caller if isinstance(entry, Post) else entry.agent) == agent)
        self._made, self._readings = [0] * len(GOODS), 0
        self._length = [0] * len(GOODS)  # of each history, at least, by what was answered
        self.has_left, self.taken = False, 0

    def left(self) -> str:
        """The lowest entry that is left, as it is told; "" if there is none."""
        for good, entries in enumerate(self._entries):
            if entries:
                return f"entry {good} {entries[0][0]}"
        return f"cash {self._cash[0][0]}" if self._cash else ""

    def take(self, line: bytes, reply: Optional[bytes]) -> bool:
        """Takes what a line left in the log.

        Args:
            line: The line, without its end.
            reply: Its reply, without its end; None if that did not come.

        Returns:
            Whether the log has it so.
        """
        asked = asked_by(line, self._form)
        if (self._form == "json" and reply == said_in(MEMORY, "json")
                and asked != "no toolong"):
            return True
        if isinstance(asked, str):
            return self._fits(asked, reply)
        if asked.do == "quit":
            self.has_left = True
            return self._fits("bye", reply)
        if asked.do == "cash":
            return self._take_reading(reply)
        assert asked.auction is not None
        if asked.do == "quote":
            return self._take_quote(asked.auction, reply)
        return self._take_call(asked, asked.auction, reply)

    def _fits(self, words: str, reply: Optional[bytes]) -> bool:
        """Whether a reply is this one; one that did not come is any."""
        return reply is None or said_in(words.encode("ascii"), self._form) == reply

    def _take_call(self, asked: Request, good: int, reply: Optional[bytes]) -> bool:
        if self._made[good] == MOST_CALLS:
            return self._fits("no spent", reply)
        if not self._entries[good]:
            return False
        at, entry = self._entries[good].popleft()
        self._made[good] += 1
        self.taken += 1
        if entry.trades:
            post = self._cash.popleft()[1] if self._cash else None
            if not isinstance(post, Post) or (post.good, post.position) != (good, at):
                return False
        is_behind, self._length[good] = at < self._length[good], at + 1
        return (not is_behind and (entry.call.do, entry.call.points) == (asked.do, asked.points)
                and self._fits(f"@{at} {entry_words(entry.reply)}", reply))

    def _take_reading(self, reply: Optional[bytes]) -> bool:
        if self._readings == MOST_CALLS:
            return self._fits("no spent", reply)
        at, entry = self._cash.popleft() if self._cash else (0, None)
        self._readings += 1
        self.taken += 1
        return isinstance(entry, Reading) and self._fits(f"@{at} cash {entry.dollars}", reply)

    def _take_quote(self, good: int, reply: Optional[bytes]) -> bool:
        """A quote shows the board of a prefix, as long at least as what was answered before. If it
        did not come, nobody knows of which one, and the shortest forbids least."""
        boards = self._boards.of(good)
        for count in range(self._length[good], len(boards)):
            bid, ask, is_closed = boards[count]
            state = "closed" if is_closed else "open"
            if self._fits(f"@{count} quote {bid} {ask} {state}", reply):
                self._length[good] = count
                return True
        return False


def lines_of(text: bytes) -> List[bytes]:
    """The whole lines of a text, without their ends."""
    return text.split(b"\n")[:-1]


def seat_of(boards: Boards, lines: Sequence[bytes]) -> Optional[int]:
    """The agent whose seat the first line takes, if the head of the log gives it to a link."""
    for agent, word in enumerate(boards.game.words):
        if lines and lines[0] == b"hello %b" % word.encode("ascii"):
            is_listed = boards.log.kind == "serve" and agent in boards.log.seats
            return agent if is_listed else None
    return None


def vouching(boards: Boards, asked: bytes, said: bytes, form: str = "words") -> str:
    """What is said of a link of a sound log, without a line end.

    Args:
        boards: Those of the game and the log.
        asked: What the link asked.
        said: What it was said.
        form: How its lines were written, `words` or `json`.
    """
    lines, replies = lines_of(asked), lines_of(said)
    agent = seat_of(boards, lines)
    if agent is None:
        return "unvouched seat"
    due = lines_of(welcome(boards.game.text(), agent))
    if replies[:len(due)] != due:
        return "unvouched welcome"
    lines, replies = lines[1:], replies[len(due):]
    part = Part(boards, agent, form)
    for number, reply in enumerate(replies, 1):
        if (part.has_left or number > min(len(lines), MOST_LINES)
                or not part.take(lines[number - 1], reply)):
            return f"unvouched line {number}"
    answered, is_over, has_bye = part.taken, len(replies) == len(lines), part.has_left
    rest = lines[len(replies):MOST_LINES]
    left = left_behind(part, rest)
    if left:
        return f"unvouched {left}"
    is_whole = (has_bye or is_over) and said.endswith(b"\n")
    cause, is_full = boards.log.ends.get(agent, ""), len(replies) == MOST_LINES
    if has_bye or cause == "quit":
        may_end = cause == "quit" and (has_bye or any(is_quit(line, form) for line in rest))
    elif cause == "budget":
        may_end = asked.count(b"\n") > MOST_LINES or len(asked) >= MOST_BYTES
    else:
        may_end = not is_full and (cause in ("end", "readfault")
                                   or (cause == "writefault" and not is_over))
    if not may_end:
        return "unvouched cause"
    memory = replies.count(said_in(MEMORY, form))
    told = f"whole {len(replies)}" if is_whole else f"cut {len(replies)} {part.taken - answered}"
    return f"vouched {agent} {told}" + f" memory {memory}" * (memory > 0)


def is_quit(line: bytes, form: str) -> bool:
    """Whether a line asks to leave."""
    asked = asked_by(line, form)
    return isinstance(asked, Request) and asked.do == "quit"


def left_behind(part: Part, lines: Sequence[bytes]) -> str:
    """The lowest entry that lines whose replies did not come leave over; "" if there is none."""
    for line in lines:
        left = part.left()
        if part.has_left or not left or not part.take(line, None) or part.has_left:
            return left
    return part.left()


# The command.


def is_vouched(said: str) -> bool:
    """Whether what is said of a link is a yes."""
    return said.startswith("vouched ")


def main() -> int:
    parser = Parser("vouching", __doc__ or "")
    for name in ("game", "log", "asked", "said"):
        parser.add_argument(name, type=Path)
    parser.add_argument("form", choices=["words", "json"], nargs="?", default="words")
    given = parser.parse_args()
    try:
        audit = program.audit(given.game, given.log)
    except program.ProgramError as fault:
        if not fault.line or fault.status is None:
            raise
        print(fault.line)
        return fault.status
    if audit != "sound":
        print(audit)
        return program.UNSOUND
    game = read_game(given.game.read_text(encoding="latin-1"))
    boards = Boards(game, read_log(given.log.read_bytes()))
    try:
        asked, said = given.asked.read_bytes(), given.said.read_bytes()
    except OSError:
        print("fault read")
        return READ_FAULT
    if max(len(asked), len(said)) > MOST_BYTES:
        print("text too long")
        return TEXT_REFUSED
    told = vouching(boards, asked, said, given.form)
    print(told)
    return program.OK if is_vouched(told) else program.UNSOUND


if __name__ == "__main__":
    sys.exit(command("vouching", main))

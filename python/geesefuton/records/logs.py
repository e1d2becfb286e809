"""The one reader of logs.

Whether a log is complete and by the rules is judged by `tac audit` alone. This finds what each line
says, and refuses what it cannot find, or what would name an agent or a good that is none; other
ranges, and certificates, are passed over.
"""

from dataclasses import dataclass
from typing import Dict, List, NamedTuple, Optional, Sequence, Tuple, Union

from geesefuton.records.games import (CLIENTS, CLOCK, FLIGHTS, GOODS, HOTELS, PACKAGES, SEATS,
                                      TICKS, Package, TextError)
from geesefuton.records.replies import Points, Reply, ReplyError, read_entry_reply, read_points

MOST_BYTES = 67_108_864


class LogError(TextError):
    """A text that is no log."""


@dataclass(frozen=True)
class Call:
    """A call: `bid`, `withdraw`, `own`, `update`, `publish` or `close`."""

    do: str  # its word
    points: Points = ()  # of a bid
    tick: int = 0  # of an update
    draw: int = 0  # of an update


@dataclass(frozen=True)
class Trade:
    """A trade: buyer and seller (8 is the house), units, and dollars for each."""

    buyer: int
    seller: int
    units: int
    price: int


@dataclass(frozen=True)
class Entry:
    """An entry of an auction's history: its caller (8 is the clock), its call, and the answer."""

    caller: int
    call: Call
    reply: Reply
    trades: Tuple[Trade, ...] = ()


@dataclass(frozen=True)
class Post:
    """The post of an entry to the cash book: the net dollars of each of the nine parties."""

    caller: int
    good: int
    position: int
    nets: Tuple[int, ...]


@dataclass(frozen=True)
class Reading:
    """An agent's reading of its cash, in dollars."""

    agent: int
    dollars: int


@dataclass(frozen=True)
class Score:
    """An agent's row of the sheet: its best total, its net dollars, the tickets that it is short,
    its score, and what each client gets (None for staying at home)."""

    agent: int
    best: int
    cash: int
    short: int
    score: int
    packages: Tuple[Optional[Package], ...]


@dataclass(frozen=True)
class Log:
    """A log."""

    kind: str  # `serve` if the game was played over links, `play` if from a script
    seats: Tuple[int, ...]  # the agents that had a seat; all eight after `play`
    ends: Dict[int, str]  # why the sessions of agents ended, such as `quit`, after `serve`
    missed: int  # how many ticks lapsed
    histories: Tuple[Tuple[Entry, ...], ...]  # the entries of each of the 28 auctions
    cash: Tuple[Union[Post, Reading], ...]  # the cash book
    scores: Tuple[Score, ...]  # the rows of the eight agents

    def calls_of(self, agent: int) -> int:
        """How many calls of auctions an agent made, refused ones included."""
        return sum(entry.caller == agent for history in self.histories for entry in history)


_AGENTS = {str(agent): agent for agent in range(SEATS)}
_PARTIES = {**_AGENTS, str(CLOCK): CLOCK}
_PACKAGES: Dict[str, Optional[Package]] = {"none": None, **{" ".join(map(str, (
    each.hotel, each.arrive, each.depart, *each.nights))): each for each in PACKAGES}}
MOST_POINTS = 16  # of a bid, and units of each


class _Lines:
    """Goes through the lines of a text.

    Attributes:
        number: That of the line that was taken last, from 1.
    """

    def __init__(self, text: Union[str, bytes]) -> None:
        if isinstance(text, bytes):
            text = text.decode("latin-1")  # so that a byte is a character, and a bad one is seen
        if len(text) > MOST_BYTES:
            raise LogError(1, f"more than {MOST_BYTES:,} bytes: this is not a log")
        self._lines = text.split("\n")
        self.number = 0

    def look(self) -> str:
        """The next line, which is not taken; "" at the end."""
        return self._lines[self.number] if self.number < len(self._lines) - 1 else ""

    def take(self, words: str = "") -> str:
        """What follows these words in the next line, which has to begin with them."""
        if self.number >= len(self._lines) - 1:
            rest = self._lines[-1]
            raise LogError(len(self._lines), f"the last line, {rest[:60]!r}, has no line end"
                           if rest else f"expected a line `{words}`, but the text ends")
        line = self._lines[self.number]
        self.number += 1
        if not line.startswith(words):
            raise LogError(self.number, f"expected a line `{words}`, not {line[:60]!r}")
        return line[len(words):]

    def count(self, words: str) -> int:
        """The number at the end of the next line, which has to begin with these words."""
        return int(self.take(words + " "))

    def exact(self, line: str) -> None:
        """Takes the next line, which has to be this one."""
        if self.take(line):
            raise ValueError

    def end(self) -> None:
        """Sees that no line is left."""
        if self._lines[self.number:] != [""]:
            raise LogError(self.number + 1, "a line follows the end of the log")

    def find(self, line: str) -> None:
        """Goes to a line, or to the end if there is none such."""
        self.number = self._lines.index(line) if line in self._lines else len(self._lines) - 1

    def fault(self) -> LogError:
        """That the line that was taken last says nothing."""
        return LogError(self.number, f"{self._lines[self.number - 1][:60]!r} is not such a line")


def read_scores(text: Union[str, bytes]) -> Tuple[Score, ...]:
    """Reads the sheet of a log alone, which takes a hundredth of the time of the whole. Raises
    LogError where the text has no line `sheet`, or no sheet after it."""
    lines = _Lines(text)
    lines.find("sheet")
    try:
        return _read_sheet(lines)
    except (ValueError, LookupError):
        raise lines.fault() from None


def read_log(text: Union[str, bytes]) -> Log:
    """Reads a log. Raises LogError where the text is no log; the error names the first bad line."""
    lines = _Lines(text)
    try:
        return _read_log(lines)
    except (ValueError, LookupError, ReplyError):
        raise lines.fault() from None


def _read_log(lines: _Lines) -> Log:
    lines.exact("taclog 1")
    kind, seats, ends, missed = lines.take(), list(_AGENTS.values()), dict[int, str](), 0
    if kind == "serve":
        seats = []
        while lines.look().startswith("link "):
            _, _, word, *agent = lines.take().split(" ")
            seats += [_AGENTS[agent[0]]] if word == "seated" else []
        while lines.look().startswith("end "):
            seat, why = lines.take("end ").split(" ")
            ends[_AGENTS[seat]] = why
        missed = lines.count("missed")
    elif kind != "play":
        raise ValueError
    histories = tuple(_read_history(lines, good) for good in GOODS)
    cash = tuple(_read_cash(lines.take(), histories) for _ in range(lines.count("cash")))
    if lines.look() == "memory":
        raise LogError(lines.number + 1, "memory was refused for the scores, so the log has none")
    return Log(kind, tuple(sorted(seats)), ends, missed, histories, cash, _read_sheet(lines))


def _read_history(lines: _Lines, good: int) -> Tuple[Entry, ...]:
    entries: List[Entry] = []
    for _ in range(lines.count(f"auction {good}")):
        left, said = lines.take().split(" = ")
        caller, do, *rest = left.split(" ", 2)
        call, reply, trades = _call(do, *rest), read_entry_reply(said), list[Trade]()
        while lines.look().startswith("trade "):
            buyer, seller, units, price = lines.take("trade ").split(" ")
            trades.append(Trade(_PARTIES[buyer], _PARTIES[seller], int(units), int(price)))
        entries.append(Entry(_PARTIES[caller], call, reply, tuple(trades)))
    return tuple(entries)


def _call(do: str, rest: str = "") -> Call:
    """A call by its word and what follows that."""
    if do == "bid":
        points = read_points(rest)
        if 0 < len(points) <= MOST_POINTS and \
                all(0 < abs(units) <= MOST_POINTS for units, _ in points):
            return Call(do, points)
    elif do == "update":
        tick, draw = map(int, rest.split(" "))
        if 0 < tick < TICKS:
            return Call(do, (), tick, draw)
    elif do in ("withdraw", "own", "publish", "close") and not rest:
        return Call(do)
    raise ValueError


def _read_cash(line: str, histories: Sequence[Sequence[Entry]]) -> Union[Post, Reading]:
    caller, what, *rest = line.split(" ")
    if what == "read":
        return Reading(_AGENTS[caller], int(rest[1]))
    good, position, *nets = map(int, rest)
    if good not in GOODS or not 0 <= position < len(histories[good]) or len(nets) != SEATS + 1:
        raise ValueError
    return Post(_PARTIES[caller], good, position, tuple(nets))


def _read_sheet(lines: _Lines) -> Tuple[Score, ...]:
    lines.exact("sheet")
    scores = tuple(_read_score(lines, agent) for agent in range(SEATS))
    lines.exact("end")
    lines.end()
    return scores


def _read_score(lines: _Lines, agent: int) -> Score:
    best, cash, short, score = map(int, lines.take(f"score {agent} ").split(" "))
    packages = tuple(_PACKAGES[lines.take(f"package {agent} {client} ")]
                     for client in range(CLIENTS))
    size = lines.count(f"cert {agent}")
    lines.number += size
    return Score(agent, best, cash, short, score, packages)


def trades_of(histories: Sequence[Sequence[Entry]]) -> int:
    """How many trades there are in all."""
    return sum(len(entry.trades) for history in histories for entry in history)


class Gains(NamedTuple):
    """What an agent earned less what it paid for each kind of goods, in dollars."""

    flights: int
    hotels: int
    tickets: int


def gains_of(log: Log) -> List[Gains]:
    """The gains of each agent, which add up to its cash."""
    sums = [[0, 0, 0] for _ in range(SEATS + 1)]  # the last one is the house's
    for good, history in enumerate(log.histories):
        kind = 0 if good in FLIGHTS else 1 if good in HOTELS else 2
        for trade in (trade for entry in history for trade in entry.trades):
            sums[trade.buyer][kind] -= trade.units * trade.price
            sums[trade.seller][kind] += trade.units * trade.price
    return [Gains(*gains) for gains in sums[:SEATS]]

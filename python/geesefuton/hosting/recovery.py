"""Makes a game script from the journal that the lobby wrote, even if the lobby was killed.

A reply has the position of its entry in the history of its auction. The positions without a reply
are the clock's, whose calls the game file fixes, so each call is put between the right ticks.
Auctions do not affect one another, so it is enough that in each of them the calls come in the order
of their positions. After the last known call no agent does anything more, and the clock makes its
remaining calls.

A request that had no reply yet is left out, unless the replies of others show that it was made:
then a history has one position more than the clock's calls fill. The request is put where all
replies and quotes come out as they were recorded. Readings of cash are put near where they were.
"""

from __future__ import annotations

import heapq
import itertools
from collections import defaultdict
from pathlib import Path
from typing import Dict, Iterable, Iterator, List, NamedTuple, Optional, Sequence, Tuple

from geesefuton import program
from geesefuton.hosting.journal import Exchange, JournalReader, Schedule
from geesefuton.records.dialects import CASH
from geesefuton.records.games import GOODS, TICKS

MOST_TRIES = 300  # places of requests without a reply that are tried in an auction
LONGEST = 60.0  # seconds that a script may take by default

Guess = Dict[int, Exchange]  # by position


class RecoveryError(program.CommandError):
    """A journal of which no script can be made."""


class Player:
    """Plays scripts by `tac play`, in a folder of its own, each within some seconds."""

    def __init__(self, folder: Path, longest: Optional[float] = LONGEST) -> None:
        self._game, self._script, self._longest = folder / "game", folder / "script", longest

    def play(self, game: str, script: str) -> Tuple[List[str], str]:
        """The reply lines of a script, and the log.

        Raises:
            RecoveryError: The program refuses the game or the script, or takes too long.
        """
        self._game.write_text(game, encoding="ascii")
        self._script.write_text(script, encoding="latin-1")
        try:
            text = program.play(self._game, self._script, self._longest)
        except program.ProgramError as fault:
            raise RecoveryError(str(fault)) from None
        start = 0 if text.startswith("taclog ") else text.index("\ntaclog ") + 1
        return text[:start].splitlines(), text[start:]


class KnownHistory:
    """What is known of one history."""

    def __init__(self, good: int, schedule: Schedule) -> None:
        self.good, self._schedule = good, schedule
        self._ticks = schedule.ticks[good]
        self.calls: Dict[int, Exchange] = {}  # by their positions
        self.quotes: List[Exchange] = []  # by the time of their replies
        self.pending: Dict[int, Exchange] = {}  # without a reply, by agents: each has one at most
        self.used: List[Exchange] = []  # those of them that are taken for made

    def place(self, call: Exchange) -> None:
        """Adds an answered call."""
        assert call.at is not None
        if call.at in self.calls:
            raise RecoveryError(f"two replies have position {call.at} for good {self.good}")
        self.calls[call.at] = call

    def cut(self, tick: int) -> None:
        """Leaves out what comes after more gaps than the clock may have filled until a tick."""
        most, clocks = self._schedule.most(self.good, tick), 0
        for at in range(self.length()):
            clocks += at not in self.calls
            if clocks > most:
                self.calls = {place: call for place, call in self.calls.items() if place < at}
                self.quotes = []
                return

    def length(self) -> int:
        """How many entries the history has as far as it is known."""
        quoted = [quote.at for quote in self.quotes if quote.at is not None]
        return max([at + 1 for at in self.calls] + quoted, default=0)

    def append(self, call: Exchange, tick: int) -> None:
        """Puts a call after all others, and after the clock's calls until a tick."""
        known = sum(at in self.calls for at in range(self.length()))
        self.calls[max(self.length(), known + self._schedule.most(self.good, tick))] = call

    def items(self, quotes: bool) -> Iterator[Tuple[int, Exchange]]:
        """The calls in order, each with the tick after which it stands; with or without quotes."""
        asked: Dict[int, List[Exchange]] = defaultdict(list)
        for quote in self.quotes if quotes else ():
            assert quote.at is not None
            asked[quote.at].append(quote)
        clocks, at_most, length = 0, 0, self.length()
        for at in range(length + 1):
            low, high = self._schedule.span(self.good, clocks)
            here = asked[at] + ([self.calls[at]] if at in self.calls else [])
            for call in here:
                at_most = min(max(low, call.tick, at_most), high)
                yield at_most, call
            if at < length and at not in self.calls:
                clocks += 1
                if clocks > len(self._ticks):
                    raise RecoveryError(f"position {at} for good {self.good} is neither the "
                                        "clock's nor in a reply")

    def guesses(self, tick: int) -> Iterator[Guess]:
        """Ways in which requests without a reply may have been made, those with few of them first,
        if the clock has called until a tick."""
        gaps = self._gaps()  # before any guess is taken
        least = {agent: self._least(call) for agent, call in self.pending.items()}
        # The lobby's clock may be behind: then all ticks are tried.
        guesses = ({at: self.pending[agent] for at, agent in way.items()} for last in (tick, TICKS)
                   for count in range(max(0, len(gaps) - self._schedule.most(self.good, last)),
                                      len(least) + 1) for way in _ways(gaps, least, count))
        return itertools.islice(guesses, MOST_TRIES)

    def guess(self, known: Dict[int, Exchange], guess: Guess) -> bool:
        """Takes a guess beside the calls that are known. Returns whether the positions that are
        left can be the clock's."""
        self.calls, self.used = {**known, **guess}, list(guess.values())
        return len(self._gaps()) <= len(self._ticks)

    def _gaps(self) -> List[int]:
        """The positions that no call has."""
        return [at for at in range(self.length()) if at not in self.calls]

    def _least(self, call: Exchange) -> int:
        """The least position of a request, by the replies that came before it was sent."""
        told = [at + 1 for at, other in self.calls.items()
                if other.answered and other.answered < call.order]
        quoted = [quote.at for quote in self.quotes
                  if quote.at is not None and quote.answered < call.order]
        return max(told + quoted, default=0)


def _ways(gaps: Sequence[int], least: Dict[int, int], count: int) -> Iterator[Dict[int, int]]:
    """Ways to give so many gaps to different agents, to none before its least position: the agents
    by position."""
    if not count:
        yield {}
    for number, at in enumerate(gaps[:len(gaps) - count + 1] if count else ()):
        for agent in [agent for agent, first in least.items() if first <= at]:
            others = {other: first for other, first in least.items() if other != agent}
            for way in _ways(gaps[number + 1:], others, count - 1):
                yield {at: agent, **way}


def _in_order(items: Iterable[Tuple[int, Exchange]]) -> Iterator[Tuple[int, List[Exchange]]]:
    """The calls between each two ticks: those of an auction in their order, and otherwise the
    eldest first."""
    by_tick: List[Dict[int, List[Exchange]]] = [defaultdict(list) for _ in range(TICKS + 1)]
    for tick, call in items:
        by_tick[tick][call.asked.good].append(call)
    for tick, goods in enumerate(by_tick):
        yield tick, list(heapq.merge(*goods.values(), key=lambda call: call.order))


class Script(NamedTuple):
    """The text of a game script, and the calls that it asks, in order."""

    text: str
    calls: List[Exchange]


def script_of(items: Iterable[Tuple[int, Exchange]]) -> Script:
    """The script of calls, each with the tick after which it stands."""
    lines: List[str] = []
    calls: List[Exchange] = []
    for tick, asked in _in_order(items):
        lines += (["tick"] if tick else []) + [f"{call.agent} {call.asked.text}"
                                               for call in asked]
        calls += asked
    while lines and lines[-1] == "tick":
        lines.pop()  # the clock makes the remaining ones
    return Script("".join(line + "\n" for line in lines), calls)


def differences(script: Script, told: Sequence[str]) -> List[Tuple[Exchange, str]]:
    """The calls of a script whose replies are not as they were told, and the replies now. Readings
    of cash are left out, since the calls of a tick are not all at once in a served game."""
    return [(call, line[2:]) for call, line in zip(script.calls, told)
            if call.asked.keyword != "cash" and call.reply not in (None, line[2:])]


class Recovery:
    """The script of a journal. Requests without a reply are asked, too, if `pending` is set, after
    all others. While a game is `live`, what comes after a position that no reply has, and that the
    clock cannot have had yet, is left out, since its reply is about to come.

    Raises:
        RecoveryError: The replies are not those of a game.
    """

    def __init__(self, reader: JournalReader, player: Player, pending: bool = False,
                 live: bool = False) -> None:
        assert reader.schedule is not None
        self._reader, self._player = reader, player
        self._histories = [KnownHistory(good, reader.schedule) for good in GOODS]
        self._readings: List[Exchange] = []
        # The requests without a reply that are in the script, and those that are not.
        self.made: List[Exchange] = []
        self.left = [] if live else reader.pending()
        for call in reader.calls:
            if call.at is not None:
                self._place(call)
        if live:
            for history in self._histories:
                history.cut(self._tick())
        if self.left:
            self._settle()
        if pending:
            late = sorted(self.left, key=lambda call: call.order)
            for call in late:
                self._histories[call.asked.good].append(call, reader.tick)
            self.made, self.left = [*self.made, *late], []

    def script(self, quotes: bool = True) -> Script:
        """The script, with or without quotes, which are in no history."""
        items = [item for history in self._histories for item in history.items(quotes)]
        tick = 0
        for call in sorted(self._readings, key=lambda call: call.at or 0):
            tick = max(tick, call.tick)
            items.append((tick, call))
        return script_of(items)

    def log(self) -> Tuple[str, List[str]]:
        """The log, and a text for each reply that is not as it was told."""
        script = self.script()
        told, log = self._player.play(self._reader.text, script.text)
        return log, [f"{call.agent} {call.asked.text}: replied {call.reply}, and now {line}"
                     for call, line in differences(script, told)]

    def _place(self, call: Exchange) -> None:
        asked = call.asked
        if asked.good == CASH:
            self._readings.append(call)
        elif asked.keyword == "quote":
            self._histories[asked.good].quotes.append(call)
        else:
            self._histories[asked.good].place(call)

    def _tick(self) -> int:
        """How many ticks the clock may have made, by the lobby's clock."""
        reader = self._reader
        return min(TICKS, max(reader.tick, reader.time // reader.pace) + 1)

    def _settle(self) -> None:
        for call in self.left:
            self._histories[call.asked.good].pending[call.agent] = call
        self._search([history for history in self._histories if history.pending])
        self.made = [call for history in self._histories for call in history.used]
        self.left = [call for call in self.left if call not in self.made]

    def _search(self, histories: List[KnownHistory]) -> None:
        """Finds which requests without a reply were made, and where: so that all replies and quotes
        come out as they were told. Auctions do not touch one another, so one play tries a guess in
        each of them."""
        known = {history.good: dict(history.calls) for history in histories}
        guesses = {history.good: history.guesses(self._tick()) for history in histories}
        while histories:
            for history in histories:
                calls = known[history.good]
                if not any(history.guess(calls, guess) for guess in guesses[history.good]):
                    raise RecoveryError(f"good {history.good}: its {len(history.pending)} requests "
                                        "without a reply cannot be placed")
            script = script_of(item for history in histories for item in history.items(quotes=True))
            told, _ = self._player.play(self._reader.text, script.text)
            wrong = {call.asked.good for call, _ in differences(script, told)}
            histories = [history for history in histories if history.good in wrong]

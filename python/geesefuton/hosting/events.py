"""What happens while a game is hosted, as values, which a `Lobby` queues for its listener."""

from __future__ import annotations

import enum
import json
import queue
import threading
from dataclasses import asdict, dataclass
from typing import Callable, Optional, Tuple, Union


class End(enum.Enum):
    """Why an agent's part in a game was over."""

    LEFT = "left"  # it asked to quit, or ended its link after the last tick
    GONE = "gone"  # its link ended during the game, and it did not reconnect
    HUNG = "hung"  # it still had its link when the lobby ended all links
    ABSENT = "absent"  # it never came
    REFUSED = "refused"  # it sent lines, and each of them was refused


@dataclass(frozen=True)
class _Happened:
    at: float  # seconds since 1970


@dataclass(frozen=True)
class _OfSeat(_Happened):
    seat: int
    word: str


@dataclass(frozen=True)
class Arrived(_OfSeat):
    """An agent has its seat for the first time, before or during the game."""

    source: str  # the address that the link comes from


@dataclass(frozen=True)
class Rejoined(_OfSeat):
    """An agent that had lost its link has a new one, and goes on in the game."""

    source: str


@dataclass(frozen=True)
class Departed(_OfSeat):
    """The link of a seated agent has ended. Until the game is over the agent may reconnect."""


@dataclass(frozen=True)
class Ended(_OfSeat):
    """A seat's part in the game is over. It comes once for each of the eight seats."""

    reason: End
    lines: int  # how many lines the agent sent


@dataclass(frozen=True)
class Refused(_Happened):
    """A link is refused by its first line."""

    source: str
    answer: str  # `syntax`, `wrongword` or `taken`
    line: str  # the beginning of the line


@dataclass(frozen=True)
class Lost(_Happened):
    """A link that sent no line is gone."""

    source: str
    why: str


@dataclass(frozen=True)
class Waived(_Happened):
    """The host does not wait for an agent any longer."""

    word: str


@dataclass(frozen=True)
class Began(_Happened):
    """The game begins."""

    seats: Tuple[int, ...]  # those that have an agent


@dataclass(frozen=True)
class Ticked(_Happened):
    """A tick has come, by the clock of the lobby."""

    tick: int  # 1 to 54
    lines: Tuple[int, ...] = ()  # how many lines each of the eight agents has sent so far


@dataclass(frozen=True)
class Finished(_Happened):
    """The server has ended."""

    status: int  # the exit status that `Lobby.run` gives
    log: Optional[str]  # the file that has the log
    vouched: Tuple[str, ...] = ()  # what `tac vouch` says of each seat's link; none if not asked


@dataclass(frozen=True)
class Warned(_Happened):
    """Something that the host should know."""

    text: str


@dataclass(frozen=True)
class Answered(_Happened):
    """What the host is told of a command."""

    text: str


Event = Union[Answered, Arrived, Departed, Refused, Lost, Waived, Began, Ticked, Rejoined, Ended,
              Finished, Warned]


class EventQueue:
    """Gives events to a listener in their order, in a thread of its own, so that neither what it
    does slowly nor what it raises is felt by what the events are about."""

    def __init__(self, listener: Callable[[Event], None]) -> None:
        self._listener = listener
        self._events: "queue.SimpleQueue[Optional[Event]]" = queue.SimpleQueue()
        self._fault: Optional[Exception] = None
        self._thread = threading.Thread(target=self._give, daemon=True)
        self._thread.start()

    def put(self, event: Event) -> None:
        """Something has happened."""
        self._events.put(event)

    def close(self) -> None:
        """Waits until the listener had all, and raises what it raised first."""
        self._events.put(None)
        self._thread.join()
        if self._fault is not None:
            raise self._fault

    def _give(self) -> None:
        while (event := self._events.get()) is not None:
            try:
                self._listener(event)
            except Exception as fault:
                self._fault = self._fault or fault


def json_of(event: Event) -> str:
    """An event as a line of JSON without its end: what it is, such as `ticked`, and its fields."""
    fields = {name: value.value if isinstance(value, enum.Enum) else value
              for name, value in asdict(event).items()}
    return json.dumps({"event": type(event).__name__.lower(), **fields}, separators=(",", ":"))

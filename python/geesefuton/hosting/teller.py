"""Reports the events of a lobby to the host, in lines of text."""

from __future__ import annotations

import queue
import threading
import time
from typing import Callable, Dict, Sequence, Set, Tuple, Type, Union

from geesefuton import program
from geesefuton.hosting import events
from geesefuton.hosting.control import STOPPED
from geesefuton.hosting.events import End, Event
from geesefuton.hosting.refusals import Refusals
from geesefuton.hosting.server_links import summary
from geesefuton.processes import tell
from geesefuton.records.games import TICKS

LOOK = 1.0  # seconds between two looks at what recurs and is still to be told
FEW = 6  # times in a while that it is told at once that a seat's agent came or went
MOST_WAITING = 1000  # events


class Teller:
    """Tells the host what happens, from a thread of its own: a terminal that is held, or a pipe
    that is not read, does not hold the game. What recurs is told seldom, by a clock."""

    def __init__(self, words: Sequence[str], clock: Callable[[], float] = time.monotonic) -> None:
        self._words, self._clock = list(words), clock
        self._here: Set[str] = set()
        self._refusals = Refusals()
        self._comings = Refusals(FEW, "{} more times {} came or went; the last: {}")
        self._told: "queue.SimpleQueue[Union[None, str, Tuple[float, Event]]]" = queue.SimpleQueue()
        self._thread = threading.Thread(target=self._work, daemon=True)
        self._thread.start()

    def tell(self, event: Event) -> None:
        """Tells an event, but no refusal while many events wait, as at a terminal that is held."""
        if self._told.qsize() < MOST_WAITING or not isinstance(event, REFUSALS):
            self._told.put((self._clock(), event))

    def say(self, text: str) -> None:
        """Tells a text."""
        self._told.put(f"{time.strftime('%H:%M:%S')} {text}")

    def close(self) -> None:
        """Waits a little until all is told."""
        self._told.put(None)
        self._thread.join(2.0)

    def _work(self) -> None:
        while True:
            try:
                told = self._told.get(timeout=LOOK)
            except queue.Empty:
                self._tell_due(self._clock())
                continue
            if told is None:
                return self._tell_due(float("inf"))
            if isinstance(told, str):
                tell(told)
            else:
                self._tell(*told)

    def _tell(self, now: float, event: Event) -> None:
        text, counted = self._text(event), None
        if isinstance(event, (events.Arrived, events.Rejoined, events.Departed)):
            counted, by = self._comings, event.word
        elif isinstance(event, REFUSALS):
            counted, by = self._refusals, event.source
        if counted is not None:  # it may recur
            self._tell_due(now)
            text = counted.add(now, by, text) or ""
        if text:
            self._write(event.at, text, isinstance(event, FAULTS))

    def _tell_due(self, now: float) -> None:
        for text in self._refusals.due(now) + self._comings.due(now):
            self._write(time.time(), text, is_fault=True)

    @staticmethod
    def _write(at: float, text: str, is_fault: bool) -> None:
        clock = time.strftime("%H:%M:%S", time.localtime(at))
        tell(f"{'! ' if is_fault else ''}{clock} {text}")

    def _text(self, event: Event) -> str:
        """What is told of an event; "" for nothing."""
        if isinstance(event, (events.Arrived, events.Rejoined)):
            self._here.add(event.word)
        elif isinstance(event, events.Departed):
            self._here.discard(event.word)
        if isinstance(event, events.Arrived):
            missing = [word for word in self._words if word not in self._here]
            return (f"{event.word} is here from {event.source}; missing: "
                    f"{' '.join(missing) or 'nobody'}")
        if isinstance(event, events.Began):
            missing = [word for word in self._words if self._words.index(word) not in event.seats]
            return "the game begins" + (f" without {' '.join(missing)}" if missing else "")
        if isinstance(event, events.Ticked):
            lines = (f"{word} {count}" for word, count in zip(self._words, event.lines))
            told = f"tick {event.tick} of {TICKS}; lines: {' '.join(lines)}"
            return "" if event.tick % 6 else told
        if isinstance(event, events.Ended):
            return f"{event.word} {ENDS[event.reason]}, {event.lines} lines"
        if isinstance(event, events.Finished):
            if event.status == STOPPED:
                return ""  # it was told as a warning
            meaning = program.MEANINGS.get(event.status, "")
            more = f": {meaning}" if meaning else ""
            vouched = f"; {summary(self._words, event.vouched)}" if event.vouched else ""
            log = f"; the log is in {event.log}" if event.log else ""
            return f"the game is over, exit status {event.status}{more}{vouched}{log}"
        return TEXTS[type(event)].format(**vars(event))


TEXTS: Dict[Type[Event], str] = {
    events.Rejoined: "{word} is back, from {source}",
    events.Departed: "{word} lost its link, and may reconnect",
    events.Refused: "refused {source} as {answer}: it sent {line!r}",
    events.Lost: "lost a link from {source}: {why}",
    events.Waived: "no longer waiting for {word}",
    events.Warned: "{text}",
    events.Answered: "{text}",
}
REFUSALS = (events.Refused, events.Lost)
FAULTS = (events.Warned, events.Departed, *REFUSALS)
ENDS = {
    End.LEFT: "has left",
    End.GONE: "lost its link and did not reconnect",
    End.HUNG: "still had its link long after the last tick",
    End.ABSENT: "never connected",
    End.REFUSED: "sent only lines that were refused",
}

"""The host's commands on the lobby's terminal, one a line, read while the game goes on."""

from __future__ import annotations

import os
import time
from typing import Callable, Deque, Dict, NamedTuple, Optional, TextIO

from geesefuton.hosting.control import Control, Phase
from geesefuton.hosting.relay import OWN, Relay
from geesefuton.hosting.seats import Seat, State
from geesefuton.network.addresses import Network, network_of, parsed, plain_network
from geesefuton.network.loop import Loop
from geesefuton.records.games import is_seat_word

SILENT = 10.0  # seconds without a word after which an agent is told as silent


class Orders:
    """Reads the host's commands, from a terminal only while the lobby is in its foreground."""

    def __init__(self, source: Optional[TextIO], orders: Deque[str]) -> None:
        self._orders, self._tail, self._is_attended = orders, b"", False
        self._number: Optional[int] = None
        if source is None:
            return
        try:
            self._number = source.fileno()
        except (OSError, ValueError):  # a text in memory, or closed
            orders.extend(line.strip() for line in ([] if source.closed else source))

    def look(self, loop: Loop) -> None:
        """Begins to listen, and does so again once the lobby is in the foreground."""
        if self._number is None or self._is_attended or not self._may_read():
            return
        try:
            loop.attend(self._number, lambda: self._read(loop))
            self._is_attended = True
        except (OSError, ValueError):  # a file, which can always be read
            while self._number is not None:
                self._read(loop)

    def _may_read(self) -> bool:
        assert self._number is not None
        try:
            return not os.isatty(self._number) or os.tcgetpgrp(self._number) == os.getpgrp()
        except OSError:
            return False

    def _read(self, loop: Loop) -> None:
        assert self._number is not None
        if not self._may_read():
            loop.forget(self._number)
            self._is_attended = False
            return
        try:
            data = os.read(self._number, 4096)
        except BlockingIOError:
            return
        except OSError:
            data = b""
        if not data:
            loop.forget(self._number)
            self._number = None
            return
        *lines, self._tail = (self._tail + data).split(b"\n")
        self._orders.extend(line.decode("ascii", "replace").strip() for line in lines)


class NotDone(Exception):
    """A line that is no command, or one that cannot be done."""


class Command(NamedTuple):
    """A command of the host."""

    words: str  # after its own
    does: str
    run: Callable[..., Optional[str]]  # gives what is to be told


class Console:
    """Does what the host says."""

    def __init__(self, relay: Relay, control: Control) -> None:
        self._relay, self._control = relay, control
        self._commands: Dict[str, Command] = {
            "who": Command("", "shows which agents are here, from where, and which are silent",
                           self._who),
            "begin": Command("", "begins the game now; an empty line does the same", control.go_on),
            "without": Command("SEAT", "stops waiting for this agent", self._waive),
            "end": Command("SEAT", "closes the seat's link; its agent may reconnect", self._end),
            "ban": Command("ADDRESS", "closes the address's links and accepts no more; also of "
                           "addresses such as 2001:db8::/64", self._ban),
            "allow": Command("ADDRESS", "accepts links from the address again", self._allow),
            "word": Command("SEAT WORD", "changes the word that takes the seat", self._word),
            "finish": Command("", "after the last tick: stops waiting for agents", control.go_on),
            "stop": Command("", "stops the game at once, without a log", control.stop),
            "help": Command("", "lists these commands", self._help),
        }

    def obey(self, line: str) -> str:
        """Does what a line says, and gives what is to be told, in lines; "" for nothing. `SEAT` is
        a seat's word, or its number.

        Raises:
            NotDone: It is no command, or cannot be done.
        """
        name, *words = line.split() or ["begin" if self._control.phase is Phase.GATHERING
                                        else "finish"]
        known = self._commands.get(name)
        if known is None:
            raise NotDone(f"unknown command {name!r}; type `help` for the list")
        if len(words) != len(known.words.split()):
            raise NotDone(f"expected `{_usage(name, known)}`")
        return known.run(*words) or ""

    def _who(self) -> str:
        return "\n".join(map(self._presence, self._relay.seats.seats))

    def _presence(self, seat: Seat) -> str:
        """What is known of a seat's agent."""
        link = self._relay.holder(seat)
        if link is None:
            return f"{seat.word} {'has finished' if seat.state is State.OVER else 'is missing'}"
        text = f"{seat.word} is here from {link.source}"
        home, silent = self._relay.homes[seat.number], time.monotonic() - seat.heard
        if home != link.source:
            text += f", but first came from {home}"
        if seat.playing and silent >= SILENT:
            text += f", silent for {silent:.0f} s"
        return text + (", and another link waits for its seat" if seat.heir is not None else "")

    def _waive(self, word: str) -> None:
        self._relay.waive(self._seat(word))

    def _end(self, word: str) -> str:
        link = self._relay.holder(self._seat(word))
        if link is None:
            raise NotDone(f"seat {word} has no link")
        self._relay.fail(link)
        return f"closed the link of {word}"

    def _ban(self, text: str) -> str:
        network = _network(text)
        self._relay.gate.banned.add(network)
        links = [link for link in self._relay.links.values()
                 if link.source != OWN and parsed(link.source) in network]
        for link in links:
            self._relay.fail(link)
        return f"banned {plain_network(network)}; links closed: {len(links)}"

    def _allow(self, text: str) -> str:
        network, banned = _network(text), self._relay.gate.banned
        if network not in banned:
            known = " ".join(sorted(map(plain_network, banned))) or "none"
            raise NotDone(f"{plain_network(network)} is not banned; banned addresses: {known}")
        banned.remove(network)
        return f"{plain_network(network)} is no longer banned"

    def _word(self, name: str, word: str) -> str:
        seat, seats = self._seat(name), self._relay.seats
        if not is_seat_word(word):
            raise NotDone(f"{word} is not a seat word: use 1 to 16 letters a to z and digits")
        if seats.keys.get(word, seat.number) != seat.number:
            raise NotDone(f"{word} is another seat's word: choose a different one")
        self._relay.change_word(seat, word)
        return f"seat {seat.word} is now taken by its new word"

    def _help(self) -> str:
        return "\n".join(f"{_usage(name, known)}: {known.does}"
                         for name, known in self._commands.items())

    def _seat(self, name: str) -> Seat:
        seats = self._relay.seats.seats
        numbers = {str(seat.number): seat for seat in seats}
        seat = {**numbers, **{seat.word: seat for seat in seats}}.get(name)
        if seat is None:
            raise NotDone(f"there is no seat {name}: give a seat's word, or its number 0 to 7")
        return seat


def _network(text: str) -> Network:
    """The addresses that a word of the host is.

    Raises:
        NotDone: It is none.
    """
    try:
        return network_of(text)
    except ValueError:
        raise NotDone(f"{text} is not an address; `who` shows the agents' addresses") from None


def _usage(name: str, known: Command) -> str:
    """A command with the words that it takes."""
    return f"{name} {known.words}".rstrip()

"""The settings of a lobby."""

from __future__ import annotations

import socket
from dataclasses import dataclass, field
from pathlib import Path
from typing import Dict, Optional, Sequence, Set, TextIO

from geesefuton.hosting import log_files
from geesefuton.hosting.seats import SILENCE
from geesefuton.network.addresses import Network


@dataclass
class LobbySettings:
    """What a lobby is told of its game."""

    game: Path
    port: int  # for agents; 0 takes a free one, which `Lobby.port` says
    pace: int  # milliseconds from tick to tick, 1 to 60000
    log: log_files.Target  # None if there is nowhere, which counts as an output that fails
    form: str = "words"  # or `json`
    start: Optional[float] = None  # seconds until it begins without the missing; None waits
    wait: Optional[float] = None  # the same, from when the first agent is here on
    # The words that agents say for their seats, each with the number of its seat, which the host
    # may change; None for those of the game file.
    keys: Optional[Dict[str, int]] = None
    linger: float = 30.0  # seconds after the last tick until the links that are left are ended
    patience: float = 30.0  # seconds that a link has for its first line
    silence: float = SILENCE  # seconds, of which `longest_silence` makes two ticks at least
    journal: Optional[Path] = None  # a new file; a copy of the log is written beside it
    page: Optional[int] = None  # the port of the pages
    late: int = 6  # ticks by which it shows later what agents cannot ask
    names: bool = False  # whether it calls agents by their seat words, which are passwords
    stays: bool = False  # whether it stays after the game until the host stops it
    advice: bool = True  # whether the pages of people plan trips
    orders: Optional[TextIO] = None  # the host's commands
    vouches: bool = False  # whether the log is compared with the lobby's links after the game
    listeners: Sequence[socket.socket] = ()  # for agents; none for a new one at the port
    # The networks from which no link is taken, which the host may change.
    banned: Set[Network] = field(default_factory=set)

    def longest_silence(self) -> float:
        """The seconds without a word after which a link gives way to another one with its word:
        agents that act once a tick say nothing for a tick."""
        return max(self.silence, 2 * self.pace / 1000)

"""The phase of a hosted game, and the requests to stop it or go on."""

from __future__ import annotations

import enum

STOPPED = 130  # the exit status of a game that was ended before its time


class Phase(enum.Enum):
    """How far a game is."""

    GATHERING = "waiting for agents"
    STARTING = "starting the server"
    PLAYING = "the ticks pass"
    ENDING = "the last tick has passed; waiting for agents that have not left"
    SHOWING = "the log is written, and the page shows the last scores"


class Control:
    """How far a game is, and what is asked of it, at which it looks in each turn, a moment later.
    A signal handler or another thread may ask, too."""

    def __init__(self) -> None:
        self.phase = Phase.GATHERING
        self.is_stopped = False  # whether the game is to stop, without a log
        self.is_begin_asked = False  # whether it is to begin without those who are missing
        self.is_end_asked = False  # whether the links that are left in the end are to be ended now

    def stop(self) -> None:
        """Stops the game, or once its log is written the showing of its scores."""
        self.is_stopped = True

    def end(self) -> None:
        """Ends the links that are left after the last tick: then the log is written."""
        self.is_end_asked = True

    def go_on(self) -> None:
        """The host has pressed Enter: begins the game, or ends it after its last tick."""
        if self.phase is Phase.GATHERING:
            self.is_begin_asked = True
        if self.phase is Phase.ENDING:
            self.is_end_asked = True

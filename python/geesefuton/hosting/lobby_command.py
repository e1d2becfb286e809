"""Hosts a game for agents on other machines, which connect to the lobby's port,
may reconnect with their words, and may join late. It writes a journal as it
goes, and at the end the log, and compares both. `help` on its terminal lists
commands.

    geesefuton lobby my.game 7000 2000 --page 7080 > my.log
"""

from __future__ import annotations

import argparse
import contextlib
import os
import signal
import sys
import time
from pathlib import Path
from types import FrameType
from typing import Iterator, Optional, Sequence

from geesefuton import program
from geesefuton.arguments import Parser, seconds, whole
from geesefuton.hosting import events, log_files
from geesefuton.hosting.control import STOPPED, Phase
from geesefuton.hosting.lobby import Lobby
from geesefuton.hosting.seats import SILENCE
from geesefuton.hosting.settings import LobbySettings
from geesefuton.hosting.teller import Teller
from geesefuton.network.addresses import join_address, own_address
from geesefuton.processes import command, why
from geesefuton.records.games import TICKS
from geesefuton.records.logs import LogError, read_scores

AGAIN = 5.0  # seconds within which a second ctrl-C stops the game


def _arguments() -> argparse.Namespace:
    parser = Parser("lobby", __doc__)
    add = parser.add_argument
    add("game", type=Path, help="the game file")
    add("port", type=whole(1, 65535), help="the port for agents, 1 to 65535")
    add("pace", type=whole(1, 60000), help="milliseconds from tick to tick, 1 to 60000")
    add("form", nargs="?", choices=["json"], help="let agents send JSON objects instead of words")
    add("--start", type=seconds, metavar="SECONDS",
        help="begin after this time, even if agents are missing")
    add("--after", type=seconds, default=30.0, metavar="SECONDS",
        help="close links this long after the last tick (default: 30)")
    add("--patience", type=seconds, default=30.0, metavar="SECONDS",
        help="wait this long for a link's first line (default: 30)")
    add("--silence", type=seconds, default=SILENCE, metavar="SECONDS",
        help=f"after which a new link may take over (default: {SILENCE:g})")
    add("--journal", type=Path, metavar="FILE",
        help="write the journal here (default: GAME-DATE.journal)")
    add("--page", type=whole(1, 65535), metavar="PORT",
        help="show the game on a page, where people can join, too")
    add("--no-advice", action="store_true", help="do not let the pages of people plan trips")
    add("--late", type=whole(0, TICKS), default=6, metavar="TICKS",
        help="delay of what agents cannot ask (default: 6)")
    add("--names", action="store_true", help="show agents by their seat words, which are passwords")
    return parser.parse_intermixed_args()  # `json` may stand after an option too


def _open_standard_files() -> bool:
    """Lets no other file get the numbers of the standard ones; whether there is an output."""
    is_open = True
    for number in range(3):
        try:
            os.fstat(number)
        except OSError:
            os.open(os.devnull, os.O_RDWR)
            is_open = is_open and number != 1
    return is_open


def _output_folder() -> Path:
    """The folder of the file that standard output goes to, if it is one and the system tells."""
    with contextlib.suppress(OSError):
        file = Path(os.readlink("/proc/self/fd/1"))
        if file.is_file() and os.path.samestat(os.stat(file), os.fstat(1)):
            return file.parent
    return Path()


def _default_journal(game: Path, teller: Teller) -> Optional[Path]:
    """A name for a journal, beside the log if that is a file, and else in this folder."""
    name = f"{game.stem}-{time.strftime('%Y%m%d-%H%M%S')}.journal"
    for folder in dict.fromkeys((_output_folder(), Path())):
        file = log_files.free_name(folder / name)
        try:
            os.close(os.open(file, os.O_WRONLY | os.O_CREAT | os.O_EXCL, 0o600))
            os.remove(file)
            return file
        except OSError as fault:
            teller.say(f"cannot create the journal {file}: {why(fault)}")
    return None


class _Signals:
    """What signals do. Before the game they end the lobby. In the game a first ctrl-C only warns,
    and a terminal that closes ends only the showing of the scores after it. After the last tick
    ctrl-C says what is waited for, and a second one ends that, with the log; and once the log is
    there it ends the page."""

    def __init__(self, lobby: Lobby, teller: Teller) -> None:
        self._lobby, self._control, self._teller = lobby, lobby.control, teller
        self._asked = float("-inf")  # when ctrl-C was pressed in the game
        self._is_ending = False  # whether the wait after the last tick was spoken of
        self._is_ended = False  # whether it was to be ended by a signal
        self.number = 0
        for number in (signal.SIGINT, signal.SIGTERM, signal.SIGHUP):
            if signal.getsignal(number) is not signal.SIG_IGN:
                signal.signal(number, self._take)
        if signal.getsignal(signal.SIGTSTP) is signal.SIG_DFL:
            signal.signal(signal.SIGTSTP, self._pause)

    def _pause(self, number: int, _: Optional[FrameType]) -> None:
        """ctrl-Z: stops the lobby, but not in a game, whose clock would go on."""
        if self._control.phase in (Phase.GATHERING, Phase.SHOWING):
            os.kill(os.getpid(), signal.SIGSTOP)
        else:
            self._teller.say("ctrl-Z: the game goes on, for its clock does not stop")

    def _take(self, number: int, _: Optional[FrameType]) -> None:
        phase = self._control.phase
        if phase in (Phase.PLAYING, Phase.ENDING) and number == signal.SIGHUP:
            self._lobby.settings.stays = False  # nobody is there to end the showing of the scores
            return
        if phase is Phase.PLAYING and number == signal.SIGINT \
                and time.monotonic() - self._asked > AGAIN:
            self._asked = time.monotonic()
            self._teller.say("ctrl-C: the game goes on; press ctrl-C again within five seconds to "
                             "stop it")
        elif phase is Phase.ENDING and not self._is_ended:
            self._end(number)
        else:
            self.number = number
            self._control.stop()

    def _end(self, number: int) -> None:
        """A signal after the last tick: the log is written whatever comes."""
        if number != signal.SIGINT or self._is_ending:
            self._is_ended = True
            return self._control.end()
        self._is_ending = True
        left, words = self._lobby.waits_for()
        waits_for = " ".join(words) or "the server"
        return self._teller.say(f"ctrl-C: waiting {left:.0f} s for {waits_for}; press Enter "
                                "or ctrl-C to end now, with the log")


def _result_lines(game: Path, words: Sequence[str], log: Path) -> Iterator[str]:
    """The scores of a log, the best first, and the command that shows more; nothing if the log
    cannot be read."""
    try:
        scores = sorted(read_scores(log.read_bytes()), key=lambda score: -score.score)
    except (LogError, OSError):
        return
    for score in scores:
        rank = 1 + sum(other.score > score.score for other in scores)
        yield f"{rank}. {words[score.agent]} {score.score:,}"
    yield "more: " + program.typed(f"report {game} {log} > {game.stem}.html")


def main() -> int:
    """The command `lobby`."""
    return command("lobby", _main)


def _main() -> int:
    has_output = _open_standard_files()
    given = _arguments()
    settings = LobbySettings(
        game=given.game, port=given.port, pace=given.pace, form=given.form or "words",
        log=sys.stdout.buffer if has_output and sys.stdout else None, start=given.start,
        linger=given.after, patience=given.patience, silence=given.silence,
        journal=given.journal, page=given.page, late=given.late, names=given.names,
        stays=given.page is not None and bool(sys.stdin and sys.stdin.isatty()),
        advice=not given.no_advice, orders=sys.stdin, vouches=True)
    lobby = Lobby(settings)
    teller = Teller(lobby.words)
    settings.journal = settings.journal or _default_journal(given.game, teller)
    signals = _Signals(lobby, teller)
    where = f"the journal is {settings.journal}" if settings.journal else "there is no journal"
    teller.say(f"waiting at port {lobby.port} for {' '.join(lobby.words)}; {where}")
    if given.page is not None:
        stays = ", and stays after the game until ctrl-C" if settings.stays else ""
        teller.say(f"the page is http://localhost:{given.page}{stays}; players join at "
                   f"{join_address(own_address(), given.page)}")

    def tell_event(event: events.Event) -> None:
        if isinstance(event, events.Finished) and event.log is not None:
            for line in _result_lines(given.game, lobby.words, Path(event.log)):
                teller.say(line)
        teller.tell(event)

    try:
        status = lobby.run(tell_event)
    finally:
        teller.close()
    return 128 + signals.number if status == STOPPED and signals.number else status

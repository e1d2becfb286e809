"""Games of a tournament, one after another, in a process of their own.

For each `Job` that it receives over a connection it sends back events of the lobby, notes, and at
the end a `Result`. It hosts the game with a `Lobby` (in turns, with a `TurnServer`).
"""

import contextlib
import os
import re
import signal
import sys
import tempfile
import threading
import time
from dataclasses import dataclass
from functools import partial
from multiprocessing.connection import Connection
from pathlib import Path
from typing import IO, Callable, Dict, List, Optional, Tuple

from geesefuton import program
from geesefuton.experiments.agent_host import PORT
from geesefuton.experiments.agents import PATIENCE, AgentProcess, Agents, Job
from geesefuton.experiments.entrants import environment
from geesefuton.experiments.results import Kind, Message, Note, Outcome, Result
from geesefuton.experiments.turns import TurnServer
from geesefuton.hosting import events
from geesefuton.hosting.events import End
from geesefuton.hosting.lobby import Lobby, LobbyError
from geesefuton.hosting.settings import LobbySettings
from geesefuton.processes import Children, command, shown, why
from geesefuton.records.logs import LogError, read_scores

LOOK = 0.02  # seconds between two looks at the agents' processes
LEAVE = 2.0  # seconds that an agent has to end after its game
MOST_KEPT = 1 << 20  # bytes that are kept of what an agent prints
MOST_PRINTED = 1 << 26  # bytes that an agent may print
LATE = 36  # the tick after which the last third of a game begins
OWN_FAULTS = {signal.SIGABRT, signal.SIGBUS, signal.SIGFPE, signal.SIGILL, signal.SIGPIPE,
              signal.SIGSEGV, signal.SIGSYS, signal.SIGXCPU, signal.SIGXFSZ}


@dataclass(frozen=True)
class Exit:
    """How an agent's process ended."""

    status: int  # negative for a signal
    is_stopped: bool = False  # whether it had to be stopped when the game was over


def outcome_of(reason: End, exited: Exit, was_refused: bool, was_asking: bool) -> Outcome:
    """How an agent's game went.

    Args:
        reason: Why its part in the game was over.
        exited: How its process ended.
        was_refused: Whether a first line of it was refused.
        was_asking: Whether it sent lines in the last third of the game. Then it did not hang if its
            link had to be ended: it did not quit, or the machine was too busy to hear it quit.
    """
    if reason is End.REFUSED or reason is End.ABSENT and was_refused:
        return Outcome.REFUSED
    if reason in (End.ABSENT, End.GONE):
        if _is_foreign(exited):
            return Outcome.KILLED
        if exited.status != 0 and not exited.is_stopped:
            return Outcome.CRASHED
        if reason is End.ABSENT:
            return Outcome.ABSENT
    is_hung = exited.is_stopped if reason is End.GONE else reason is End.HUNG and not was_asking
    return Outcome.HUNG if is_hung else Outcome.PLAYED  # however its process ended afterwards


def _is_foreign(exited: Exit) -> bool:
    """Whether a signal ended the process that neither its game nor its own fault had sent."""
    return exited.status < 0 and not exited.is_stopped and -exited.status not in OWN_FAULTS


def _how(exited: Exit, reason: Optional[End]) -> str:
    """How an agent ended, if that is to be told; else ""."""
    if reason is End.HUNG and not exited.is_stopped:
        return "did not quit in time, and its link was closed"
    if exited.is_stopped:
        return f"was still running {LEAVE:g} seconds after its game, and was stopped"
    number = -exited.status if exited.status < 0 else exited.status - 128
    if 0 < number < signal.NSIG:
        sender = ", which its game had not sent" if _is_foreign(exited) else ""
        return f"was ended by signal {number}{sender}"
    if exited.status:
        return f"ended with status {exited.status}"
    if reason is End.GONE:
        return "left before the last tick, without `quit`"
    return "ended without taking its seat" if reason is End.ABSENT else ""


class Match:
    """A game with its agents; `send` takes what is sent back, and `others` tells which ticks other
    games have had."""

    def __init__(self, job: Job, children: Children, agents: Agents,
                 send: Callable[[Message], None], others: Optional[Connection] = None) -> None:
        self._job, self._children, self._agents, self._send = job, children, agents, send
        self._others = others if job.is_in_step else None
        self._running: Dict[int, AgentProcess] = {}
        self._printed: Dict[int, IO[bytes]] = {}  # what agents print
        self._exits: Dict[int, Exit] = {}
        self._ends: Dict[int, End] = {}
        self._refused: List[events.Refused] = []
        self._lines: Dict[int, Tuple[int, ...]] = {}  # that agents had sent, by tick
        self._game, self._log = self._file("game"), self._file("log")
        self._events = self._file("events").open("w", encoding="ascii")

    def _file(self, kind: str) -> Path:
        return self._job.folder / f"{self._job.name}.{kind}"

    def play(self) -> Result:
        """Plays the game."""
        job = self._job
        self._game.write_text(job.game, encoding="ascii")
        reading, writing = os.pipe()
        with open(reading, encoding="ascii") as orders, open(writing, "wb", 0) as self._orders, \
                self._events:
            try:
                seated = self._agents.seated(job)
                if job.limits:
                    self._start_agents(seated, PORT)
                settings = LobbySettings(
                    game=self._game, port=0, pace=job.pace, log=self._log, form=job.form,
                    start=job.start, linger=job.linger, patience=max(job.start, PATIENCE),
                    journal=None if job.turns else self._file("journal"), orders=orders,
                    keys={key: seat for seat, key in enumerate(job.keys)},
                    listeners=[each.listener() for each in seated if job.limits])
                turns = TurnServer(job.turns, job.patience, self._others) if job.turns else None
                lobby = Lobby(settings, turns)
                if not job.limits:
                    self._start_agents(seated, lobby.port)
                over = threading.Event()
                watcher = threading.Thread(target=self._watch, args=(over,), daemon=True)
                watcher.start()
                try:
                    status = lobby.run(self._take)
                finally:
                    over.set()
                    watcher.join()
                if turns:
                    self._file("script").write_bytes(b"".join(turns.script))
            except (LobbyError, program.ProgramError) as fault:
                return Result(fault=str(fault))
            finally:
                for process in self._running.values():  # if there was no game
                    process.close()
                for seat, printed in self._printed.items():
                    self._keep(seat, printed)
        return self._result(status, turns)

    def _take(self, event: events.Event) -> None:
        """Takes an event of the lobby."""
        if isinstance(event, events.Ended):
            self._ends[event.seat] = event.reason
        if isinstance(event, events.Refused):
            self._refused.append(event)
        if isinstance(event, events.Ticked):
            self._lines[event.tick] = event.lines
        if isinstance(event, events.Departed) and event.seat in self._exits:
            self._order(f"without {event.word}")  # an earlier one came while it was still here
        self._events.write(events.json_of(event) + "\n")
        self._send(event)

    def _start_agents(self, seated: List[AgentProcess], port: int) -> None:
        job = self._job
        files = Path("/tmp") if job.limits else self._children.folder("agents")
        variables = environment(program.find(), files, job.limits is not None)
        pause = 0 if job.turns else job.pace / 1000
        for seat, (process, key) in enumerate(zip(seated, job.keys)):
            words = ["localhost", str(port), key, "--pause", str(pause)]
            if job.turns:  # it does the same each time, and no reply comes too late for it
                variables.update({"AGENT_SEED": str(job.seeds[seat]), "PYTHONHASHSEED": "0",
                                  "AGENT_LIMIT": "0"})
            # A file without a name does not tell the agent which game this is.
            out = self._printed[seat] = tempfile.TemporaryFile(dir=job.folder)
            process.begin(words, variables, {
                "FSIZE": MOST_PRINTED, **(job.limits.by_name() if job.limits else {})}, out)
            self._running[seat] = process

    def _kept(self, seat: int) -> Path:
        return self._file(f"out.{self._job.words[seat]}")

    def _watch(self, over: threading.Event) -> None:
        """Watches the agents' processes, and a little after the game ends those that are left."""
        deadline = None
        while self._running:
            for seat in [seat for seat, agent in self._running.items() if agent.poll() is not None]:
                self._exits[seat] = Exit(self._running.pop(seat).end())
                self._order(f"without {self._job.words[seat]}")
            if over.is_set():
                deadline = deadline or time.monotonic() + LEAVE
                if time.monotonic() > deadline:
                    break
            time.sleep(LOOK)
        for seat in list(self._running):
            self._exits[seat] = Exit(self._running.pop(seat).end(), is_stopped=True)

    def _order(self, line: str) -> None:
        """Tells the lobby that an agent is not waited for."""
        with contextlib.suppress(OSError):  # the lobby has ended
            self._orders.write(f"{line}\n".encode("ascii"))

    def _result(self, status: int, turns: Optional[TurnServer]) -> Result:
        """What the game came to, by the lobby's status, and, in turns, by who served it."""
        job = self._job
        try:
            text = self._log.read_bytes() if self._log.exists() else b""
            if status not in (program.OK, program.CLOCK):
                first = text.split(b"\n", 1)[0][:60].decode("ascii", "replace")
                meaning = program.MEANINGS.get(status, first or "the log is empty")
                return Result(fault=f"exit status {status} ({meaning})")
            said = program.audit(self._game, self._log)
            if said != "sound":
                return Result(fault=f"the audit of its log says `{said}`")
            scores = tuple(score.score for score in read_scores(text))
        except (LogError, program.ProgramError) as fault:
            return Result(fault=f"its log: {fault}")
        outcomes, missed = [], []
        for seat in range(len(job.words)):
            reason, exited = self._ends.get(seat, End.ABSENT), self._exits[seat]
            outcomes.append(outcome_of(reason, exited, self._was_refused(seat),
                                       self._was_asking(seat)))
            self._tell(seat, exited, reason, outcomes[-1])
            told = re.findall(r"missed ([0-9]{1,2}) of [0-9]+ ticks", self._last_printed(seat))
            missed.append(int(told[-1]) if told else None)
        if job.limits and Outcome.KILLED in outcomes:
            return Result(fault="somebody killed an agent, or the system did for want of memory")
        kind = Kind.SERVED
        if turns:
            for turner in turns.turners:
                if turner.passed:
                    self._send(Note(f"{self._name(turner.seat)} was passed over in {turner.passed} "
                                    "turns, so the game cannot be repeated"))
                if turner.waited > job.patience:
                    self._send(Note(f"{self._name(turner.seat)} kept the game waiting for "
                                    f"{turner.waited:.0f} seconds"))
            kind = Kind.UNREPEATABLE if any(each.passed for each in turns.turners) else Kind.TURNS
        return Result(scores, tuple(outcomes), kind=kind, missed=tuple(missed))

    def _name(self, seat: int) -> str:
        return f"{self._job.entrants[seat].name} at seat {seat} ({self._job.words[seat]})"

    def _was_refused(self, seat: int) -> bool:
        """Whether a refused first line has the agent's word."""
        return any(self._job.keys[seat] in re.findall("[a-z0-9]+", refused.line)
                   for refused in self._refused)

    def _was_asking(self, seat: int) -> bool:
        """Whether an agent sent lines in the last third of the game."""
        before = [lines[seat] for tick, lines in self._lines.items() if tick <= LATE]
        after = [lines[seat] for tick, lines in self._lines.items() if tick > LATE]
        return max(after, default=0) > max(before, default=0)

    def _tell(self, seat: int, exited: Exit, reason: End, outcome: Outcome) -> None:
        counted = "" if outcome is Outcome.PLAYED else f"counts as {outcome.value}"
        told = ": ".join(filter(None, (counted, _how(exited, reason))))
        if told:
            last = shown(self._last_printed(seat).split("\n")[-1][:120])
            self._send(Note(f"{self._name(seat)} {told}"
                            + (f"; its last line: {last}" if last else "")))

    def _last_printed(self, seat: int) -> str:
        """The end of what an agent printed."""
        return self._kept(seat).read_bytes()[-2000:].decode("utf-8", "replace").strip()

    def _keep(self, seat: int, printed: IO[bytes]) -> None:
        """Keeps what an agent printed, if it is much only the last bytes."""
        with printed:
            more = max(0, printed.seek(0, os.SEEK_END) - MOST_KEPT)
            printed.seek(more)
            told = b"[%d bytes left out]\n" % more if more else b""
            self._kept(seat).write_bytes(told + printed.read())


def _main() -> int:
    """The body of the process; its one word is the number of the connection's file."""
    with contextlib.closing(Connection(int(sys.argv[1]))) as parent, Children() as children, \
            contextlib.closing(Agents(children)) as agents, contextlib.suppress(EOFError):
        while True:
            job = parent.recv()  # raises EOFError once there are no more
            if not isinstance(job, Job):
                continue  # the tick of a game that has ended
            try:
                result = Match(job, children, agents, parent.send, parent).play()
            except OSError as fault:
                where = f"{fault.filename}: " if fault.filename is not None else ""
                result = Result(fault=where + why(fault))
            parent.send(result)
    return 0


main = partial(command, "match", _main)

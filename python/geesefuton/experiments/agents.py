"""The processes of a run's agents, each played by a host that outlives its games, and what an agent
sees of this machine if it is kept apart, by Debian's `bubblewrap`.

An agent that is kept apart sees the system's programs, Python, this package and the file of `tac`,
and a copy of its own folder, all of which it cannot change. It does not see the folder of the run,
other agents' folders, the home folder, or a network, and it lacks some system calls. In each game
it has processes, a network and temporary files of its own, which its host makes in this sandbox
(`agent_host.py`).
"""

from __future__ import annotations

import contextlib
import os
import shutil
import socket
import subprocess
import sys
import tempfile
from collections import Counter
from dataclasses import dataclass, field
from pathlib import Path
from typing import (IO, Any, Dict, Iterator, List, Mapping, NamedTuple, NoReturn, Optional,
                    Sequence, Tuple)

from geesefuton import program
from geesefuton.experiments.agent_host import Messages
from geesefuton.experiments.entrants import PACKAGE, Entrant, environment
from geesefuton.experiments.provenance import Agent
from geesefuton.experiments.system_calls import filter_of
from geesefuton.processes import Children

HOST = str(Path(__file__).with_name("agent_host.py"))
NAMESPACES = ["--unshare-ipc", "--unshare-pid", "--unshare-net", "--unshare-uts",
              "--unshare-cgroup-try", "--die-with-parent", "--new-session", "--cap-drop", "ALL",
              "--hostname", "agent"]
# In a sandbox everybody is `nobody`. What root runs has to become that by itself: for Linux a mere
# name in a sandbox is still root, whose processes it does not limit.
NOBODY, AS_NOBODY = (["--unshare-user", "--uid", "65534", "--gid", "65534"], list[str]()) \
    if os.getuid() else (["--cap-add", "CAP_SETUID", "--cap-add", "CAP_SETGID"], [
        "setpriv", "--reuid=65534", "--regid=65534", "--clear-groups"])
FILTER = filter_of()
SYSTEM = ("/usr", "/bin", "/sbin", "/lib", "/lib32", "/lib64", "/libx32")
SETTINGS = ("/etc/alternatives", "/etc/hosts", "/etc/ld.so.cache", "/etc/localtime",
            "/etc/nsswitch.conf", "/etc/python3", "/etc/java-17-openjdk", "/etc/java-21-openjdk")
START = 60.0  # seconds that a sandbox has to start
KILLED = 10.0  # seconds until an agent has to have ended that was killed
PATIENCE = 30.0  # seconds for the first line of a link, and in turns for each line
MOST_OPEN = 1024  # files that a process of an agent may have open


class Limits(NamedTuple):
    """What an agent may use in a game."""

    memory: int = 1 << 30  # bytes of data, for each of its processes
    processes: int = 64  # how many there may be of them at a time
    seconds: int = 600  # of a processor, for each of them

    def by_name(self) -> Dict[str, int]:
        """By the names of the module `resource`, without `RLIMIT_`."""
        return {"DATA": self.memory, "NPROC": self.processes, "CPU": self.seconds, "CORE": 0,
                "NOFILE": MOST_OPEN}


@dataclass(frozen=True)
class Job:
    """A game that is to be played."""

    name: str  # the name of its files
    # where they are written: NAME.game, NAME.log, NAME.events, NAME.out.WORD with what an agent
    # printed, and NAME.script in turns or NAME.journal by the clock
    folder: Path
    game: str  # the text of the game file
    entrants: Tuple[Entrant, ...]  # the agents of the eight seats
    words: Tuple[str, ...]  # their seat words
    seeds: Tuple[int, ...]  # what they draw from in a game in turns
    keys: Tuple[str, ...]  # the words that they say for their seats
    limits: Optional[Limits] = None  # what each may use; None if agents are not kept apart
    # the words of their sandboxes (`sandbox`), if agents are kept apart
    sandboxes: Mapping[Entrant, Sequence[str]] = field(default_factory=dict)
    is_in_step: bool = False  # whether it goes on after a tick once it is told to
    form: str = "words"  # what they speak, `words` or `json`
    pace: int = 100  # the milliseconds from tick to tick
    start: float = 20.0  # the seconds that the game waits for its agents
    linger: float = 5.0  # the seconds after the last tick until the links that are left are ended
    turns: int = 0  # how many turns each agent has between two ticks; 0 for a game by the clock
    # in turns: the seconds without a word after which an agent is passed over
    patience: float = PATIENCE


@contextlib.contextmanager
def _begun() -> Iterator[Tuple[List[str], int]]:
    """The words that begin a sandbox, and the number of a file that it reads."""
    with tempfile.TemporaryFile() as calls:
        calls.write(FILTER)
        calls.seek(0)
        yield ["bwrap", *NAMESPACES, *NOBODY,
               *(["--seccomp", str(calls.fileno())] if FILTER else [])], calls.fileno()


def why_not() -> str:
    """Why agents cannot be kept apart here, in a few words; "" if they can."""
    if shutil.which("bwrap") is None:
        return "there is no `bwrap`: install Debian's `bubblewrap`"
    try:
        with _begun() as (words, calls):
            tried = subprocess.run([*words, *_shown({}), "--", *AS_NOBODY, sys.executable, HOST],
                                   pass_fds=[calls], stdin=subprocess.DEVNULL,
                                   stdout=subprocess.DEVNULL, stderr=subprocess.PIPE,
                                   timeout=START, check=False)
    except subprocess.TimeoutExpired:
        return f"a sandbox did not start in {START:.0f} seconds"
    except OSError as fault:
        return f"`bwrap` cannot be run: {fault}"
    said = tried.stderr.decode("utf-8", "replace").strip().split("\n")[-1]
    return f"a sandbox says `{said}`" if tried.returncode else ""


def own_files(entrant: Entrant) -> List[Path]:
    """The files that an agent's words name, but for those of the system."""
    found = [Path(word).resolve() for word in entrant.words if os.path.isfile(word)]
    return [file for file in found if file != Path(sys.executable).resolve()
            and not any(file.is_relative_to(folder) for folder in SYSTEM)]


def folder_of(entrant: Entrant, secret: Sequence[Path] = ()) -> Optional[Path]:
    """The folder that an agent sees as its own, that of its first file; None if it has none. Raises
    ValueError where the folder holds one of these, or the home folder."""
    files = own_files(entrant)
    if not files:
        return None
    folder = files[0].parent
    for other in [Path.home(), *secret]:
        other = other.resolve()
        if other == folder or folder in other.parents:
            raise ValueError(f"{entrant.command} stands in {folder}, which has {other} in it: put "
                             "it into a folder of its own")
    return folder


def _shown(places: Mapping[str, str]) -> List[str]:
    """The words by which a sandbox shows the system, Python and this package, and what more is to
    be seen at these places, by where it is."""
    words = ["--bind", "/proc", "/proc", "--dev", "/dev", "--dir", "/tmp"]
    for place in SYSTEM:
        if os.path.islink(place):
            words += ["--symlink", os.readlink(place), place]
        elif os.path.isdir(place):
            words += ["--ro-bind", place, place]
    always = [*SETTINGS, sys.base_prefix, sys.prefix, str(PACKAGE / "geesefuton")]
    for place, source in sorted({**dict(zip(always, always)), **places}.items()):
        if os.path.exists(source) and not any(Path(place).is_relative_to(each) for each in SYSTEM):
            for above in reversed(Path(place).parents):  # which everybody can read
                words += ["--dir", str(above)]
            words += ["--ro-bind" if source == place else "--bind", source, place]
    return words


def sandbox(entrant: Entrant, agent: Agent, place: Path) -> List[str]:
    """The words between those that begin a sandbox and a command, which let it run in the agent's
    folder. Of that it has a copy, made at a place, of the files that count as the agent's. Raises
    ProgramError where there is no file of `tac`."""
    folder, own = folder_of(entrant), own_files(entrant)
    places = {str(file): str(file) for file in [Path(program.find()).resolve(), *own]
              if folder is None or folder not in file.parents}
    if folder:
        places[str(folder)] = str(place)
        for file in [*map(folder.joinpath, agent.files), *own]:
            if file.is_file() and folder in file.parents:
                copy = place / file.relative_to(folder)
                copy.parent.mkdir(parents=True, exist_ok=True)
                shutil.copyfile(file, copy)
        for each in [place, *place.rglob("*")]:
            each.chmod(0o755)
    return [*_shown(places), "--chdir", str(folder or "/tmp"), "--", *AS_NOBODY]


class AgentProcess:
    """An agent's process, in one game after another, by a host with these variables, and with the
    words of its sandbox (`sandbox`), if it has one."""

    def __init__(self, children: Children, entrant: Entrant, variables: Dict[str, str],
                 apart: Sequence[str] = ()) -> None:
        self._children, self._entrant = children, entrant
        self._is_ready = False
        self._status: Optional[int] = None
        ours, theirs = socket.socketpair()
        self._messages = Messages(ours)
        with theirs, _begun() as (words, calls):
            self._host = children.start(
                [*([*words, *apart] if apart else []), sys.executable, HOST, str(theirs.fileno()),
                 "" if apart else str(children.groups)],
                pass_fds=[theirs.fileno(), calls], stdin=subprocess.DEVNULL,
                stdout=subprocess.DEVNULL, stderr=subprocess.PIPE, env=variables)
        first, second, *_ = [*entrant.words, ""]
        self._say({"load": second if first == sys.executable else ""})

    def wait(self) -> None:
        """Waits until its host is ready, if it is not."""
        if not self._is_ready:
            self._is_ready = self._messages.hear() is not None or self._fail()

    def listener(self) -> socket.socket:
        """The listener of this game in the sandbox's own network."""
        self._messages.hear()
        files = self._messages.files
        return socket.socket(fileno=files.pop() if files else self._fail())

    def _fail(self) -> NoReturn:
        """Raises what its host or the sandbox printed last."""
        self._children.end(self._host)
        assert self._host.stderr is not None
        with self._host.stderr as printed:
            said = printed.read().decode("utf-8", "replace").strip().split("\n")[-1]
        raise OSError(0, f"the process of {self._entrant.name} did not start: {said}")

    def _say(self, message: Dict[str, Any], files: Sequence[int] = ()) -> None:
        with contextlib.suppress(OSError):  # it has ended, which is seen when it is heard
            self._messages.say(message, files)

    def begin(self, words: Sequence[str], variables: Dict[str, str], limits: Dict[str, int],
              out: IO[bytes]) -> None:
        """Begins a game: the words after the agent's own, and where its output goes."""
        self._status = None
        self._say({"run": [*self._entrant.words, *words], "variables": variables,
                   "limits": limits}, [out.fileno()])

    def poll(self, seconds: float = 0.0) -> Optional[int]:
        """The exit status of the agent in this game, negative for a signal; None if it still runs
        after some seconds. For a signal in a sandbox, which nobody else can have sent, it is 128
        more than its number."""
        if self._status is None:
            message = self._messages.hear(seconds)
            if message is not None:
                self._status = int(message["status"])
            elif self.has_ended():  # its host was killed
                self._status = -9
        return self._status

    def has_ended(self) -> bool:
        """Whether its host has ended."""
        return self._host.poll() is not None

    def end(self) -> int:
        """Ends the agent's process, if it has not ended. Its status in this game."""
        if self.poll() is None:
            self._say({"end": True})
            if self.poll(KILLED) is None:
                self.close()
        return -9 if self._status is None else self._status

    def close(self) -> None:
        """Ends its host."""
        self._messages.connection.close()
        self._children.end(self._host)
        if self._host.stderr is not None:
            self._host.stderr.close()


class Agents:
    """The processes of the agents of a run, in one game after another."""

    def __init__(self, children: Children) -> None:
        self._children = children
        self._running: Dict[Tuple[Entrant, int], AgentProcess] = {}

    def seated(self, job: Job) -> List[AgentProcess]:
        """The processes for the seats of a game, where an agent with several seats has as many.
        Raises ProgramError where there is no file of `tac`."""
        variables = environment(program.find(), Path("/tmp"), job.limits is not None)
        if job.turns:
            variables["PYTHONHASHSEED"] = "0"  # holds from the start of a Python on
        counts: Counter[Entrant] = Counter()
        seated = []
        for entrant in job.entrants:
            key = entrant, counts[entrant]
            counts[entrant] += 1
            found = self._running.get(key)
            if found is None or found.has_ended():
                if found is not None:
                    found.close()
                found = self._running[key] = AgentProcess(
                    self._children, entrant, variables, job.sandboxes.get(entrant, ()))
            seated.append(found)
        for process in seated:
            process.wait()
        return seated

    def close(self) -> None:
        """Ends all of them."""
        for process in self._running.values():
            process.close()
        self._running.clear()

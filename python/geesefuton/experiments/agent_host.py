"""Runs an agent's process in each game, in a process that has imported what the agent needs.

    agent_host.py CONNECTION GROUPS

It is started once for an agent and a run, inside its sandbox if it has one, and told over a
connection what to run. For each game it forks. If the agent is a Python file, the child runs it,
and so pays neither for the start of Python nor for its imports. No code of the agent runs in the
host itself, and what the agent has started is killed with its game. In a sandbox, where there are
no GROUPS, each game has its own processes, network and temporary files (`seclude`). Without words,
the host only tries whether games can have these here.

It uses the standard library alone, and no module of the package, so that it starts quickly.
"""

import ast
import contextlib
import ctypes
import fcntl
import gc
import importlib
import io
import json
import os
import re
import resource
import runpy
import select
import signal
import socket
import struct
import sys
from os import _exit as end_at_once
from pathlib import Path
from typing import Any, Dict, Iterator, List, Optional, Sequence

MOST_MESSAGE = 1 << 20  # bytes
PORT = 7000  # at which an agent in a sandbox finds its game
TEMPORARY = ("/tmp", "/dev/shm")  # where an agent in a sandbox can write,
ROOM = b"size=64m,nr_inodes=16k"  # and how much
# Of Linux: all kinds of namespaces but for that of time; the flags of mounts for temporary files,
# for /proc, and for what is seen at a second place; and what else `seclude` asks for.
NAMESPACES, FILES, PROC, AGAIN = 0x7E020000, 0x6, 0xF, 0x5000
MOUNT_SETATTR, HERE, ALL_BELOW, READ_ONLY = 442, -100, 0x8000, 1
CAPABILITIES, SET_FLAGS, UP = 0x20080522, 0x8914, 0x41


class Messages:
    """Messages over a connection, each a line of JSON, and the `files` that have come with them."""

    def __init__(self, connection: socket.socket) -> None:
        self.connection = connection
        self.files: List[int] = []
        self._held = b""

    def say(self, message: Dict[str, Any], files: Sequence[int] = ()) -> None:
        """Sends a message, with files."""
        socket.send_fds(self.connection, [json.dumps(message).encode() + b"\n"], files)

    def has_one(self) -> bool:
        """Whether a message has come, and was not heard."""
        return b"\n" in self._held

    def hear(self, seconds: Optional[float] = None) -> Optional[Dict[str, Any]]:
        """The next message, if it comes within some seconds; None if the connection has ended."""
        while not self.has_one():
            if not select.select([self.connection], [], [], seconds)[0]:
                return None
            try:
                piece, files, _, _ = socket.recv_fds(self.connection, MOST_MESSAGE, 1)
            except OSError:
                return None
            self.files += files
            if not piece:
                return None
            self._held += piece
        line, self._held = self._held.split(b"\n", 1)
        message: Dict[str, Any] = json.loads(line)
        return message


class Host:
    """The host of an agent's processes, by its messages with whoever runs the games.

    Args:
        groups: The folder in which the numbers of running process groups stand; "" in a sandbox.
    """

    def __init__(self, messages: Messages, groups: str) -> None:
        self._messages, self._groups = messages, groups
        self._child = 0
        self._woken, wakes = os.pipe()
        os.set_blocking(wakes, False)
        signal.signal(signal.SIGCHLD, lambda *_: None)
        signal.set_wakeup_fd(wakes)

    def serve(self) -> Optional[Dict[str, Any]]:
        """Serves until the connection ends. Returns what is to be run, in a child."""
        while True:
            seconds = 0 if self._messages.has_one() else None
            ready, _, _ = select.select([self._messages.connection, self._woken], [], [], seconds)
            if self._woken in ready:
                os.read(self._woken, 512)
                self._reap()
            if seconds == 0 or self._messages.connection in ready:
                message = self._messages.hear()
                if message is None:
                    self._end()
                    return None
                if "load" in message:
                    load(Path(message["load"]))
                    gc.freeze()
                    self._messages.say({})
                elif "run" in message:
                    if self._run(message):
                        return message
                elif self._child and self._groups:
                    os.killpg(self._child, signal.SIGKILL)
                elif self._child:
                    os.kill(self._child, signal.SIGTERM)

    def _run(self, message: Dict[str, Any]) -> bool:
        """Forks. Whether this is the child."""
        out, connection = self._messages.files.pop(0), self._messages.connection
        child = os.fork()
        if child:
            os.close(out)
            self._child = child
            return False
        signal.set_wakeup_fd(-1)
        signal.signal(signal.SIGCHLD, signal.SIG_DFL)
        if self._groups:
            os.setsid()
            (Path(self._groups) / str(os.getpid())).touch()
        else:
            seclude()
            with socket.create_server(("127.0.0.1", PORT)) as listener:  # in this network alone
                self._messages.say({}, [listener.fileno()])
        nothing = os.open(os.devnull, os.O_RDONLY)
        for number, source in enumerate((nothing, out, out)):
            os.dup2(source, number)
        os.closerange(3, max(out, nothing, self._woken, connection.fileno()) + 2)
        connection.detach()
        if not self._groups:
            _follow_child()  # the first process of a sandbox is no agent's
            os.setsid()
        return True

    def _reap(self) -> None:
        """Tells the status of the agent's process, if it has ended."""
        ended, status = os.waitpid(self._child, os.WNOHANG) if self._child else (0, 0)
        if ended:
            self._end()
            self._messages.say({"status": os.waitstatus_to_exitcode(status)})

    def _end(self) -> None:
        """Ends what is left of a game."""
        if self._child and self._groups:
            with contextlib.suppress(ProcessLookupError):
                os.killpg(self._child, signal.SIGKILL)
            with contextlib.suppress(FileNotFoundError):
                os.remove(os.path.join(self._groups, str(self._child)))
        self._child = 0


def seclude() -> None:
    """Goes on in a process that sees no other one and no network. It can write temporary files, and
    they are gone with it, as is all else that it leaves, such as shared memory. SIGTERM to this
    process, which waits for it, kills all of them.

    Raises:
        OSError: The system does not allow it.
    """
    system = ctypes.CDLL(None, use_errno=True)

    def do(result: int) -> None:
        if result < 0:
            raise OSError(ctypes.get_errno(), os.strerror(ctypes.get_errno()))

    own = f"{os.getuid()} {os.getuid()} 1", f"{os.getgid()} {os.getgid()} 1"
    do(system.unshare(NAMESPACES))
    for name, text in zip(("self/setgroups", "self/uid_map", "self/gid_map",
                           "sys/user/max_user_namespaces"), ("deny", *own, "0")):
        Path("/proc", name).write_text(text, encoding="ascii")
    _follow_child()
    do(system.mount(b"proc", b"/proc", b"proc", PROC, None))
    do(system.syscall(MOUNT_SETATTR, HERE, b"/", ALL_BELOW, struct.pack("4Q", READ_ONLY, 0, 0, 0),
                      ctypes.c_size_t(32)))
    with open("/proc/self/mountinfo", encoding="utf-8", errors="surrogateescape") as told:
        places = [re.sub(r"\\(\d{3})", lambda code: chr(int(code[1], 8)), line.split()[4])
                  for line in told]
    for folder in TEMPORARY:
        below = {place: os.open(place, os.O_PATH) for place in places
                 if place.startswith(f"{folder}/")}
        do(system.mount(b"tmpfs", folder.encode(), b"tmpfs", FILES, ROOM))
        for place, number in below.items():  # such as the agent's own folder
            same = Path(f"/proc/self/fd/{number}")
            if not os.path.exists(place):  # it does if it stands in one of them
                os.makedirs(place if same.is_dir() else os.path.dirname(place), exist_ok=True)
                Path(place).touch()
                do(system.mount(bytes(same), os.fsencode(place), None, AGAIN, None))
            os.close(number)
    os.chdir(os.getcwd())  # it may be one of these
    with socket.socket() as link:
        fcntl.ioctl(link, SET_FLAGS, struct.pack("16sH22x", b"lo", UP))
    do(system.capset(struct.pack("II", CAPABILITIES, 0), bytes(24)))


def _follow_child() -> None:
    """Goes on in a child. This process ends once that has, with its status, where as in a shell 128
    more than a number is that signal. SIGTERM kills the child."""
    signal.pthread_sigmask(signal.SIG_BLOCK, {signal.SIGTERM})
    child = os.fork()
    if child:
        signal.signal(signal.SIGTERM, lambda *_: os.kill(child, signal.SIGKILL))
    signal.pthread_sigmask(signal.SIG_UNBLOCK, {signal.SIGTERM})
    while child:
        ended, status = os.wait()
        if ended == child:
            code = os.waitstatus_to_exitcode(status)
            end_at_once(code if code >= 0 else 128 - code)


def imports_of(file: Path) -> Iterator[str]:
    """The modules that a Python file imports; none if it cannot be read, which it will tell."""
    with contextlib.suppress(OSError, SyntaxError, ValueError):
        for node in ast.walk(ast.parse(file.read_bytes())):
            if isinstance(node, ast.Import):
                yield from (alias.name for alias in node.names)
            elif isinstance(node, ast.ImportFrom) and node.module and not node.level:
                yield node.module


def load(file: Path) -> None:
    """Imports what a Python file imports, but for modules of its own folder."""
    for name in imports_of(file):
        top = file.parent / name.split(".")[0]
        if not (top.is_dir() or any(file.parent.glob(f"{top.name}.*"))):
            with contextlib.suppress(Exception):  # the agent will meet it, too
                importlib.import_module(name)


def run(words: List[str], variables: Dict[str, str], limits: Dict[str, int]) -> int:
    """Runs an agent in this process. Returns its exit status, or raises it as SystemExit."""
    for name, most in limits.items():
        number = getattr(resource, f"RLIMIT_{name}")
        resource.setrlimit(number, (most, most))
    os.environ.clear()
    os.environ.update(variables)
    if words[0] != sys.executable or not words[1].endswith(".py"):
        try:
            os.execvp(words[0], words)
        except OSError as fault:
            print(f"{words[0]}: {fault.strerror}", file=sys.stderr)
            return 127
    sys.stdin = open(0, encoding="utf-8", closefd=False)
    for stream in (sys.stdout, sys.stderr):
        if isinstance(stream, io.TextIOWrapper):
            stream.reconfigure(line_buffering=True, write_through=True)
    sys.argv = words[1:]
    sys.path[:] = [os.path.dirname(words[1]),
                   *filter(None, variables.get("PYTHONPATH", "").split(os.pathsep)), *sys.path[1:]]
    runpy.run_path(words[1], run_name="__main__")
    return 0


def main() -> int:
    """Serves, and in a child runs the agent. Returns the exit status."""
    if not sys.argv[1:]:
        seclude()
        return 0
    number, groups = sys.argv[1:]
    given = Host(Messages(socket.socket(fileno=int(number))), groups).serve()
    return 0 if given is None else run(given["run"], given["variables"], given["limits"])


if __name__ == "__main__":
    sys.exit(main())

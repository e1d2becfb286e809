"""The program to try, links that come in order, and scripts that may leave nothing behind."""

import contextlib
import os
import re
import signal
import subprocess
import sys
import threading
import time
import unittest
from collections import Counter
from functools import partial
from pathlib import Path
from socket import SHUT_WR, create_connection, socket
from typing import Any, Dict, Iterator, List, NamedTuple, Optional, Sequence, Set, Tuple

from geesefuton import program
from geesefuton.processes import Children

TOP = Path(__file__).resolve().parents[2]
COMMAND = [sys.executable, str(TOP / "python" / "geesefuton")]  # `geesefuton`, by this Python
MARK = "LEFT_OVER_MARK"  # the variable by which the processes of a script are found
GRACE = 4.0  # seconds that processes and folders have to end after their script
MOST = 300.0  # seconds that a run of the program may take, on a busy machine


def missing_program() -> str:
    """Why there is no program; "" if there is one."""
    try:
        program.find()
    except program.ProgramError as fault:
        return str(fault)
    return ""


needs_program = unittest.skipIf(missing_program(), "there is no program of tac")


def ran(*words: object, **how: Any) -> "subprocess.CompletedProcess[bytes]":
    """A run of the program, with its output; `how` is passed on to `subprocess.run`."""
    how = {"stdin": subprocess.DEVNULL, "stdout": subprocess.PIPE, **how}
    return subprocess.run([program.find(), *map(str, words)], timeout=MOST, check=False, **how)


class Place:
    """A folder for the temporary files of a script, whose processes are found by it too.

    Args:
        folder: It is made if it is missing.

    Attributes:
        variables: What the script is started with. All that it starts inherits the mark, and is
            found by it in /proc, so this needs Linux.
    """

    def __init__(self, folder: Path) -> None:
        folder.mkdir(exist_ok=True)
        self._folder, self.variables = folder, {MARK: str(folder), "TMPDIR": str(folder)}

    def left(self) -> List[str]:
        """What the script has left after a while: processes, which are ended now, and folders."""
        deadline = time.monotonic() + GRACE
        while True:
            processes, folders = list(_marked(str(self._folder))), sorted(self._folder.iterdir())
            if not processes and not folders or time.monotonic() > deadline:
                break
            time.sleep(0.05)
        for process, _ in processes:
            with contextlib.suppress(ProcessLookupError):
                os.kill(process, signal.SIGKILL)
        return ([f"left: process {process}: {what[:100]}" for process, what in processes]
                + [f"left: folder {folder.name}" for folder in folders])


class Part(NamedTuple):
    """What came of a part of the tests: its exit status, None if it took too long, what it printed,
    what it has left, and its seconds."""

    status: Optional[int]
    printed: str
    left: List[str]
    seconds: float


def left_out_of(printed: str) -> "Counter[str]":
    """What a part left out, by the reasons: tests, and what a script says."""
    return Counter(re.findall(r"\.\.\. skipped ['\"](.*)['\"]$", printed, re.M)
                   + re.findall("^left out: (.*)$", printed, re.M))


def run_part(children: Children, words: Sequence[object], most: float, **more: str) -> Part:
    """Runs a part of the tests at the top of the repository, with more variables. What it prints is
    kept in a file: a process that it leaves would keep a pipe open."""
    begun, place = time.monotonic(), Place(children.folder("part"))
    printed = children.folder("printed") / "text"
    with printed.open("wb") as out:
        child = children.start(list(map(str, words)), cwd=TOP, stdin=subprocess.DEVNULL, stdout=out,
                               stderr=subprocess.STDOUT,
                               env={**os.environ, **place.variables, **more})
    status: Optional[int] = None
    with contextlib.suppress(subprocess.TimeoutExpired):
        status = child.wait(most)
    children.end(child)
    left = place.left()
    return Part(status, printed.read_text(errors="replace"), left, time.monotonic() - begun)


def _marked(mark: str) -> Iterator[Tuple[int, str]]:
    """The processes that have the mark, each with its words."""
    for process in _processes():
        if f"{MARK}={mark}".encode() in of_process(process, "environ").split(b"\0"):
            words = of_process(process, "cmdline").replace(b"\0", b" ")
            yield process, words.decode(errors="replace")


def _processes() -> List[int]:
    return [int(place.name) for place in Path("/proc").glob("[0-9]*")]


def of_process(process: int, name: str) -> bytes:
    """A file of a process in /proc; empty if it has ended, or is another user's."""
    try:
        return Path("/proc", str(process), name).read_bytes()
    except OSError:
        return b""


def descendants(process: int) -> Set[int]:
    """The processes that a process and its own have started, and that have not ended."""
    parents: Dict[int, int] = {}
    for each in _processes():
        stat = of_process(each, "stat")
        if stat:
            parents[each] = int(stat.rsplit(b")", 1)[1].split()[1])
    found, more = {process}, {process}
    while more:
        more = {child for child, parent in parents.items() if parent in more}
        found |= more
    return found - {process}


@contextlib.contextmanager
def lines_in_order(port: int, lines: Sequence[str]) -> Iterator[List[bytes]]:
    """Links that come to a port one after the other, as soon as it listens; each sends its lines,
    and is then read to its end. Gives what each was sent, which is whole once the context ends."""
    sent, has_ended = [b""] * len(lines), threading.Event()

    def connected() -> Optional[socket]:
        while not has_ended.is_set():  # the server
            try:
                return create_connection(("127.0.0.1", port), 10)
            except OSError:
                time.sleep(0.01)
        return None

    def talk() -> None:
        with contextlib.ExitStack() as stack:
            links = []
            for text in lines:
                link = connected()
                if link is None:
                    return
                links.append(stack.enter_context(link))
                with contextlib.suppress(OSError):
                    link.sendall(text.encode())
                    link.shutdown(SHUT_WR)
            for number, link in enumerate(links):
                with contextlib.suppress(OSError):
                    for piece in iter(partial(link.recv, 4096), b""):
                        sent[number] += piece

    thread = threading.Thread(target=talk)
    thread.start()
    try:
        yield sent
    finally:
        has_ended.set()
        thread.join()

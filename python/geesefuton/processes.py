"""Processes and folders that do not outlive the script that made them, even if it is killed;
signals; and output that reports closed pipes and full disks."""

import contextlib
import errno
import os
import random
import signal
import socket
import subprocess
import sys
import tempfile
import time
from pathlib import Path
from types import FrameType, TracebackType
from typing import Any, Callable, List, Optional, Sequence, Type, Union

from geesefuton.program import STOPPING, CommandError

# The guard is a shell that makes a folder, and waits until the pipe to it closes: then the script
# has ended, even by SIGKILL. Each process writes its number into the folder `groups` before it
# executes its program. The guard moves that folder away, so that nothing more begins, and ends the
# process group of each number in it: by SIGTERM first, so that they can end what they started
# elsewhere, and a second later by SIGKILL. Then it removes the whole folder.
GUARD = """
trap '' INT TERM HUP PIPE
place=$(mktemp -d "$0/geesefuton.XXXXXX") || exit
mkdir "$place/groups" "$place/files" && echo "$place"
read -r end
mv "$place/groups" "$place/ended" && cd "$place/ended" || exit
left=
for group in *; do kill -s TERM -- "-$group" 2> /dev/null && left=yes; done
[ -z "$left" ] || sleep 1
for group in *; do kill -s KILL -- "-$group" 2> /dev/null; done
cd / && rm -rf "$place"
"""
START = ': > "$0/$$" && exec "$@"'
UNFINISHED = ".new"  # the end of the name of a file until it is there whole


class Stopped(BaseException):
    """A signal asked the script to stop.

    Attributes:
        status: The exit status that is due, 128 plus the number of the signal.
    """

    def __init__(self, number: int) -> None:
        super().__init__(f"stopped by {signal.Signals(number).name}")
        self.status = 128 + number


def stop_on_signals() -> None:
    """Lets the signals that stop a script raise `Stopped` in the main thread.

    A signal that is ignored, as SIGHUP is under `nohup`, stays ignored.
    """
    def stop(number: int, _: Optional[FrameType]) -> None:
        raise Stopped(number)

    for number in STOPPING:
        if signal.getsignal(number) is not signal.SIG_IGN:
            signal.signal(number, stop)


def give_way(by: int) -> None:
    """Lets other processes go first, as far as the system has means for it.

    This process leaves a class of real time, in which it would have its turn before all others, and
    its priority is lowered. Some systems share the processors out by sessions; there a session that
    it leads gets a lower priority, too, than that of the process that started it.

    Args:
        by: By how much the priority is lower, from 1 to 19.
    """
    with contextlib.suppress(AttributeError, OSError):
        if os.sched_getscheduler(0) in (os.SCHED_FIFO, os.SCHED_RR):
            os.sched_setscheduler(0, os.SCHED_OTHER, os.sched_param(0))
    os.nice(by)
    if os.getsid(0) == os.getpid():  # otherwise the session is that of a terminal
        with contextlib.suppress(OSError):
            above = max(map(_priority_of_session, (os.getpid(), os.getppid())))
            Path("/proc/self/autogroup").write_text(str(min(19, above + by)), encoding="ascii")


def _priority_of_session(process: int) -> int:
    """How nice the session of a process is, -20 to 19.

    Raises:
        OSError: The process has ended, or the system does not share by sessions.
    """
    return int(Path(f"/proc/{process}/autogroup").read_text(encoding="ascii").split()[-1])


def python_words(module: str) -> List[str]:
    """The words that run the `main` of a module of this package in a Python of its own, which takes
    no code from the current folder, nor from where variables point."""
    package = str(Path(__file__).resolve().parents[1])
    return [sys.executable, "-I", "-c", f"import sys; sys.path.insert(0, {package!r}); "
            f"from {module} import main; sys.exit(main())"]


def free_port() -> int:
    """A port on which no program listens now, outside of the range that systems give to links."""
    drawn = random.SystemRandom()
    while True:
        port = drawn.randrange(20_000, 32_768)
        with socket.socket() as probe, contextlib.suppress(OSError):
            probe.bind(("", port))
            return port


class Children:
    """Processes and temporary folders that end with the script that made them.

    Each process is the leader of a process group of its own, so that what it starts ends with it.

    Attributes:
        groups: The folder of the files that are named by the numbers of running process groups.

    Raises:
        OSError: No folder can be made where temporary files stand.
    """

    def __init__(self) -> None:
        # Until the guard has a session of its own a ctrl-C of the terminal is meant for it too.
        mask = signal.pthread_sigmask(signal.SIG_BLOCK, {signal.SIGINT})
        try:
            self._guard = subprocess.Popen(
                ["sh", "-c", GUARD, tempfile.gettempdir()], stdin=subprocess.PIPE,
                stdout=subprocess.PIPE, stderr=subprocess.DEVNULL, start_new_session=True)
        finally:
            signal.pthread_sigmask(signal.SIG_SETMASK, mask)
        assert self._guard.stdout is not None
        with self._guard.stdout as told:
            place = told.readline().decode().rstrip("\n")
        if not place:
            self.close()
            raise OSError(errno.ENOSPC, "cannot create a folder", tempfile.gettempdir())
        self.groups = Path(place, "groups")
        self._files = Path(place, "files")

    def start(self, words: Sequence[Union[str, "os.PathLike[str]"]],
              **how: Any) -> "subprocess.Popen[bytes]":
        """Starts a process; `how` is passed on to `subprocess.Popen`."""
        shell = ["sh", "-c", START, str(self.groups), *map(str, words)]
        return subprocess.Popen(shell, start_new_session=True, **how)

    def folder(self, name: str = "files") -> Path:
        """A new empty folder, which is removed in the end."""
        return Path(tempfile.mkdtemp(prefix=f"{name}.", dir=self._files))

    def end(self, child: "subprocess.Popen[bytes]") -> int:
        """Kills what is left of a process's group, and gives its exit status."""
        try:
            os.killpg(child.pid, signal.SIGKILL)
        except (ProcessLookupError, PermissionError):
            pass  # it has ended already
        try:
            os.remove(self.groups / str(child.pid))  # before another process may get its number
        except FileNotFoundError:
            pass  # it had not begun
        return child.wait()

    def close(self) -> None:
        """Ends all that is left, and removes the folders."""
        assert self._guard.stdin is not None
        self._guard.stdin.close()
        self._guard.wait()

    def __enter__(self) -> "Children":
        return self

    def __exit__(self, kind: Optional[Type[BaseException]], fault: Optional[BaseException],
                 trace: Optional[TracebackType]) -> None:
        self.close()


def shown(text: str) -> str:
    """A text of others, without what would break a line or steer a terminal."""
    return "".join(letter if letter.isprintable() else ascii(letter)[1:-1] for letter in text)


def why(fault: Exception) -> str:
    """A fault in a few words, as the system has them, such as `No space left on device`."""
    if isinstance(fault, BrokenPipeError):
        return "its reader has gone"
    return fault.strerror or str(fault) if isinstance(fault, OSError) else str(fault)


def write_whole(file: Path, data: bytes, mode: int = 0o600) -> None:
    """Writes a file so that it is there whole, and on the disk, or is as it was before. Only its
    owner may read it, or by another mode those whom the umask does not exclude.

    Raises:
        OSError: The disk takes no more, for instance.
    """
    new = file.with_name(f".{file.name}{UNFINISHED}")
    new.unlink(missing_ok=True)
    try:
        with open(new, "xb", opener=lambda path, how: os.open(path, how, mode)) as out:
            out.write(data)
            out.flush()
            os.fsync(out.fileno())
        os.replace(new, file)
    except OSError:
        with contextlib.suppress(OSError):
            new.unlink()
        raise
    folder = os.open(file.parent, os.O_RDONLY)
    try:
        os.fsync(folder)
    finally:
        os.close(folder)


class Output:
    """A file that is written at once, and keeps the first fault instead of raising it.

    After a fault nothing more is written, so that what stands there is a beginning of the text.

    Attributes:
        name: What it is called in messages, such as `standard output`.
        fault: Why it takes no more, in a few words; None while it does.
    """

    def __init__(self, target: Union[int, "os.PathLike[str]", str], name: str = "") -> None:
        self.name = name or ("standard output" if target == 1 else str(target))
        self.fault: Optional[str] = None
        self._number: Optional[int] = None
        self._is_own = not isinstance(target, int)
        try:
            if isinstance(target, int):
                os.fstat(target)
                self._number = target
            else:
                self._number = os.open(target, os.O_WRONLY | os.O_CREAT | os.O_TRUNC, 0o666)
        except OSError as fault:
            self.fault = why(fault)

    def write(self, text: Union[str, bytes]) -> bool:
        """Writes a text, and returns whether all of it, and all before it, was taken."""
        rest = memoryview(text.encode() if isinstance(text, str) else text)
        while rest and self.fault is None:
            assert self._number is not None
            try:
                rest = rest[os.write(self._number, rest):]
            except OSError as fault:
                self.fault = why(fault)
        return self.fault is None

    def close(self) -> None:
        """Closes a file that it opened; some systems tell a full disk only then."""
        if self._is_own and self._number is not None:
            try:
                os.close(self._number)
            except OSError as fault:
                self.fault = self.fault or why(fault)
            self._number = None


_AGAIN = "\r\x1b[K"  # what makes a terminal write its last line again
_start = ""  # what the next line begins with


def tell(what: str, is_passing: bool = False) -> None:
    """Writes a line to standard error, if there is one that takes it. On a terminal the next line
    takes the place of a passing one."""
    global _start
    try:
        is_kept = not (is_passing and os.isatty(2))
        start, _start = _start, "" if is_kept else _AGAIN
        os.write(2, (start + what + "\n" * is_kept).encode("utf-8", "replace"))
    except OSError:
        pass  # nobody can be told


def wait_until(is_over: Callable[[], bool], what: str) -> None:
    """Waits until something is over, and tells what it is, on a terminal with its seconds so far:
    in a line of a screen, if it has at most 70 letters."""
    begun, told, is_shown = time.monotonic(), 0, os.isatty(2)
    tell(what, is_passing=True)
    while not is_over():
        time.sleep(0.05)
        seconds = int(time.monotonic() - begun)
        if is_shown and seconds > told:
            tell(f"{what}: {seconds} s", is_passing=True)
            told = seconds
    if is_shown:
        tell(f"{what}: {told} s")


def command(name: str, main: Callable[[], int]) -> int:
    """Runs the body of a command, and turns what stops it into a line and an exit status.

    Args:
        name: The name of the command, which begins its messages.
        main: Its body, which gives the exit status.

    Returns:
        The exit status: 128 plus the number of a signal that stopped it, 1 for an error.
    """
    stop_on_signals()
    status = 1
    try:
        status = main()
    except SystemExit as asked:  # by argparse, which has told why
        status = asked.code if isinstance(asked.code, int) else int(asked.code is not None)
    except Stopped as stopped:
        status = stopped.status
    except CommandError as fault:
        tell(f"{name}: {fault}")
    except OSError as fault:
        where = f"{fault.filename}: " if fault.filename is not None else ""
        tell(f"{name}: {where}{why(fault)}")
    return max(status, _flush(name))


def _flush(name: str) -> int:
    """Writes what Python still keeps for standard output, such as a help text."""
    try:
        if sys.stdout is not None:
            sys.stdout.flush()
    except OSError as fault:
        tell(f"{name}: standard output: {why(fault)}")
        os.dup2(os.open(os.devnull, os.O_WRONLY), 1)  # so that Python's own flush does not fail
        return 1
    return 0

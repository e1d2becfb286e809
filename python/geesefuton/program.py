"""The file of tac, and its commands as calls.

The environment variable TAC names the file. Without it, the file is the one that a release has in
the package, or crates/tacd/out/tacd of the clone that contains the package.
"""

import atexit
import contextlib
import errno
import os
import platform
import select
import shutil
import signal
import tempfile
import threading
import time
from pathlib import Path
from typing import Any, Iterator, List, Optional, Sequence, Set, Tuple, Union

__all__ = [
    "INPUT", "LEAST_LIBRARY", "MEANINGS", "OK", "CLOCK", "REFUSED", "STOPPING", "UNSOUND",
    "CommandError", "ProgramError", "audit", "ended", "examples", "exit_status", "find",
    "find_runnable", "library", "make", "moved", "nameless_file", "play", "run", "served_words",
    "show", "solve", "start", "table", "to_build", "top", "typed", "upgrade", "vouch",
    "why_not_run", "worth",
]

Word = Union[str, int, "os.PathLike[str]"]
Moves = List[Tuple[Any, ...]]

OK, CLOCK, REFUSED, UNSOUND = 0, 6, 8, 9  # exit statuses
INPUT = "/dev/stdin"  # the file that has what a command is given
LOOK = 0.05  # seconds between two looks at a process and at signals, at most
BUNDLED = Path(__file__).resolve().parent / "bin" / "tac"  # in a release
LEAST_LIBRARY = (2, 34)  # the version of glibc that a released program needs
# By glibc's default each block of a megabyte is mapped by itself, and each thread has a heap of its
# own, which is a tenth of the time of `tac step`. A variable that is set already holds.
HEAP = {b"MALLOC_MMAP_THRESHOLD_": b"33554432", b"MALLOC_TRIM_THRESHOLD_": b"134217728",
        b"MALLOC_TOP_PAD_": b"16777216", b"MALLOC_ARENA_MAX": b"1"}
# The signals that stop a script, as far as the system has them.
STOPPING: Tuple[int, ...] = tuple(getattr(signal, name) for name in ("SIGINT", "SIGTERM", "SIGHUP")
                                  if hasattr(signal, name))
MEANINGS = {
    1: "the words are no command",
    2: "the game file is refused",
    3: "a file is missing or cannot be read",
    4: "the output took no more",
    5: "its port is taken, or may not be used",
    6: "a tick lapsed; the scores stand",
    7: "memory was refused",
    8: "a script, an account or a log is refused",
    9: "the log is not sound, or not right about a link",
}

_starting = threading.Lock()  # held while a process is started
_running: Set[int] = set()  # the processes that were started and have not ended


class CommandError(Exception):
    """Why a command cannot do what it is asked to, in a line."""


class ProgramError(CommandError):
    """A command of tac that ended otherwise than asked, or a program that is not there.

    Attributes:
        status: The exit status, negative for a signal; None if no program ran.
        line: The first line of its output, without its line end; "" if there is none.
    """

    def __init__(self, message: str, status: Optional[int] = None, line: str = "") -> None:
        super().__init__(message)
        self.status = status
        self.line = line


def top() -> Optional[Path]:
    """The top folder of the clone that this package stands in; None if it was installed."""
    folder = Path(__file__).resolve().parents[2]
    return folder if (folder / "crates" / "tacd").is_dir() else None


def to_build() -> Optional[Path]:
    """The clone whose program is due here, and has to be built first; None if there is a program,
    or no toolchain."""
    clone = top()
    is_there = os.environ.get("TAC") or BUNDLED.exists() or (clone and built_in(clone).exists())
    return None if is_there or not shutil.which("rt") else clone


def built_in(clone: Path) -> Path:
    """The file of the program that is built in a clone."""
    return clone / "crates" / "tacd" / "out" / "tacd"


def typed(words: str) -> str:
    """A command line of `geesefuton`, as it is typed here: in a clone or an archive by its file."""
    file = Path(__file__).resolve().parents[2] / "geesefuton"
    if not file.is_file():
        return f"geesefuton {words}"
    name = os.path.relpath(file)
    return f"{name} {words}" if "/" in name else f"./{name} {words}"


def examples() -> Path:
    """The folder of the example agents and games, of a clone, a release or the package.

    Raises:
        ProgramError: There is none.
    """
    package = Path(__file__).resolve().parent
    for folder in (package.parents[1] / "examples", package / "examples"):
        if (folder / "agents").is_dir():
            return folder
    raise ProgramError("the folder of examples is missing: reinstall the package, or run it from "
                       "a clone")


def find() -> str:
    """The file of tac.

    Raises:
        ProgramError: There is no such file, or it is no program.
    """
    name = os.environ.get("TAC")
    if not name and BUNDLED.exists():
        name = str(BUNDLED)
    if not name:
        clone = top()
        name = str(built_in(clone)) if clone else None
    if name is None:
        raise ProgramError("there is no program: set the variable TAC to the file of tac")
    if name.startswith("/") and os.access(name, os.X_OK) and not os.path.isdir(name):
        return name
    file = shutil.which(name)
    if file is None:
        if os.path.isfile(name):
            raise ProgramError(f"{name} is not executable: chmod +x it, or set TAC to the file of "
                               "tac")
        how = "install the toolchain, Rattle, whose command rt builds it, or "
        if os.environ.get("TAC"):
            how = ""
        elif to_build() is not None:
            how = f"build it by `{typed('tac make 42')}`, or "
        raise ProgramError(f"there is no program {name}: {how}set TAC to the file of tac")
    # A name with a slash is taken from here, so that it holds in any folder.
    return os.path.abspath(file)


def library() -> Tuple[str, Tuple[int, ...]]:
    """The system's C library: its name, such as `glibc`, or "", and its version, such as 2, 36."""
    name, number = platform.libc_ver()
    return name, tuple(int(part) for part in number.split(".")[:2] if part.isdigit())


def find_runnable() -> str:
    """The file of tac, on a system whose C library is not too old for it.

    Raises:
        ProgramError: There is no such file, it is no program, it needs a later glibc, or the system
            runs no such programs.
    """
    if not hasattr(os, "posix_spawn"):
        raise ProgramError("tac runs on x86-64 Linux alone: host games there; agents run anywhere")
    file = find()
    name, number = library()
    if name == "glibc" and number < LEAST_LIBRARY:
        least = ".".join(map(str, LEAST_LIBRARY))
        # A program names the versions that it needs. One that was built on an older system needs
        # less.
        if f"GLIBC_{least}\0".encode() in Path(file).read_bytes():
            raise ProgramError(f"{file} needs glibc {least} or later, and this system has "
                               f"{'.'.join(map(str, number))}: use a newer system, or build it "
                               "here with the toolchain")
    return file


def run(command: str, *words: Word, given: bytes = b"", allowed: Sequence[int] = (OK,),
        timeout: Optional[float] = None) -> str:
    """Runs a command of tac, and gives its output.

    Args:
        command: The first word, such as `make`.
        words: The further words; files and numbers are put into text.
        given: What it can read from the file INPUT.
        allowed: The exit statuses that are no error.
        timeout: The seconds that it may take; None for no limit.

    Raises:
        ProgramError: There is no program, it ended with another status, or took too long.
    """
    file = find_runnable()
    child: Optional[int] = None
    held: List[int] = []
    moves: Moves = [(os.POSIX_SPAWN_OPEN, 0, os.devnull, os.O_RDONLY, 0)]
    try:
        if given:
            held.append(nameless_file(given))
            moves = [(os.POSIX_SPAWN_DUP2, held[0], 0)]
        output = nameless_file()  # through a pipe each line that it writes would wake this process
        held.append(output)
        moves.append((os.POSIX_SPAWN_DUP2, output, 1))
        with _held_signals(), _starting:
            child = start(file, [file, command, *map(str, words)], moves)
            _running.add(child)
        status = exit_status(child, timeout)
        _running.discard(child)
        child = None
        data = os.pread(output, os.fstat(output).st_size, 0)
    except TimeoutError:
        raise ProgramError(f"tac {command} took longer than {timeout:g} seconds") from None
    except OSError as fault:
        raise ProgramError(why_not_run(file, fault)) from None
    finally:
        if child is not None:
            _end(child)
            exit_status(child)
            _running.discard(child)
        for each in held:
            os.close(each)
    text = data.decode("ascii", "replace")
    if status not in allowed:
        raise ended(command, status, text.split("\n", 1)[0])
    return text


def start(file: str, words: List[str], moves: Moves) -> int:
    """Starts a process of tac, and gives its number.

    Args:
        file: The file of tac.
        words: What it is called, and its arguments.
        moves: Where its descriptors come from (`file_actions` of `os.posix_spawn`).

    Raises:
        OSError: It cannot be run.
    """
    return os.posix_spawn(file, words, {**HEAP, **os.environb}, file_actions=moves,
                          setsigdef=[signal.SIGPIPE, signal.SIGXFSZ])


def exit_status(process: int, timeout: Optional[float] = None) -> int:
    """Waits for the end of a process, and gives its exit status, negative for a signal.

    Args:
        process: Its number.
        timeout: The seconds that it may take; None for no limit.

    Raises:
        TimeoutError: It took longer.
    """
    end, pause = time.monotonic() + (float("inf") if timeout is None else timeout), 0.0005
    waiting, watched = select.poll(), -1
    with contextlib.suppress(AttributeError, OSError):  # some systems cannot watch a process
        watched = os.pidfd_open(process)
        waiting.register(watched, select.POLLIN)
        pause = LOOK
    try:
        while True:
            try:
                found, status = os.waitpid(process, os.WNOHANG)
            except ChildProcessError:
                return 0  # somebody else has waited for it
            if found:
                return -os.WTERMSIG(status) if os.WIFSIGNALED(status) else os.WEXITSTATUS(status)
            left = end - time.monotonic()
            if left <= 0:
                raise TimeoutError
            # A signal that comes just before a wait does not end it.
            pause = min(2 * pause, left, LOOK)
            waiting.poll(1000 * pause)
    finally:
        if watched >= 0:
            os.close(watched)


def _end(process: int) -> None:
    """Ends a process, if it has not ended."""
    with contextlib.suppress(ProcessLookupError):  # somebody else has waited for it
        os.kill(process, signal.SIGKILL)


def nameless_file(text: bytes = b"") -> int:
    """The descriptor of a new file without a name, so that none is left behind, which holds a
    text."""
    if hasattr(os, "memfd_create"):
        number = os.memfd_create("tac")
    else:
        with tempfile.TemporaryFile() as file:
            number = os.dup(file.fileno())
    if number <= 2:  # a standard stream is closed here
        number = moved(number, 3)
    try:
        rest = memoryview(text)
        while rest:
            rest = rest[os.write(number, rest):]
        if text:
            os.lseek(number, 0, os.SEEK_SET)
    except BaseException:
        os.close(number)
        raise
    return number


def moved(number: int, least: int) -> int:
    """A descriptor of `least` or more in place of a lower one, which is closed."""
    held = [number]
    try:
        while held[-1] < least:
            held.append(os.dup(number))
        return held.pop()
    finally:
        for each in held:
            os.close(each)


@contextlib.contextmanager
def _held_signals() -> Iterator[None]:
    """Lets signals that Python handles wait: one that stops the script while it makes a process
    would leave that process behind."""
    if threading.current_thread() is not threading.main_thread():
        yield  # signals are handled in the main thread alone
        return
    came: List[int] = []
    former = {number: signal.getsignal(number) for number in STOPPING}
    handled = {number: handler for number, handler in former.items() if callable(handler)}
    for number in handled:
        signal.signal(number, lambda number, _: came.append(number))
    try:
        yield
    finally:
        for number, handler in handled.items():
            signal.signal(number, handler)
        for each in came:
            signal.raise_signal(each)


@atexit.register
def _end_running() -> None:
    """Ends what daemon threads have started when their script ends: they go no further."""
    _starting.acquire()  # for good: nothing more is started
    for child in list(_running):
        _end(child)


def why_not_run(file: str, fault: OSError) -> str:
    """Why the system cannot run the file of tac, and what to do."""
    if fault.errno == errno.ENOEXEC:
        return f"{file} is not a program for this system: tac needs x86-64 Linux; set TAC to its " \
               "file"
    if fault.errno == errno.ENOENT and os.path.exists(file):
        return f"{file} needs the GNU C library (glibc), which this system does not have"
    return f"{file} cannot be run: {fault.strerror}"


def ended(command: str, status: int, line: str) -> ProgramError:
    """The error of a command that ended otherwise than asked.

    Args:
        command: Its first word.
        status: Its exit status, negative for a signal.
        line: The line of its output that says why; "" if there is none.
    """
    if status == 1 and not line:  # words that are no command are answered by a line
        return ProgramError(f"tac {command} did not start: it needs glibc 2.34 or later "
                            "(`ldd --version` shows yours), or TAC names another program", status)
    told = ": ".join(part for part in (MEANINGS.get(status, ""), line[:100]) if part)
    return ProgramError(f"tac {command} ended with exit status {status}"
                        + (f" ({told})" if told else ""), status, line)


def make(seed: int) -> str:
    """The text of the game made from a seed, 0 to 18446744073709551615."""
    return run("make", seed)


def show(game: Word) -> str:
    """The canonical text of a game file."""
    return run("show", game)


def upgrade(game: Word) -> str:
    """The text of the game of a file in version 2."""
    return run("upgrade", game)


def play(game: Word, script: Word, timeout: Optional[float] = None) -> str:
    """The reply lines of a script's requests, and then the log, within some seconds."""
    return run("play", game, script, timeout=timeout)


def audit(game: Word, log: Union[Word, bytes], timeout: Optional[float] = None) -> str:
    """What the audit says, within some seconds, of a log, a file or its bytes: `sound`, or its
    first flaw, such as `unsound score 0`."""
    given, file = (log, INPUT) if isinstance(log, bytes) else (b"", log)
    return run("audit", game, file, given=given, allowed=(OK, UNSOUND),
               timeout=timeout).rstrip("\n")


def vouch(game: Word, log: Union[Word, bytes], asked: Word, said: Word, form: str = "words",
          timeout: Optional[float] = None) -> str:
    """What is said of a log by the bytes of one link: `vouched A whole L`, `vouched A cut L N`, the
    log's first flaw, or the first difference, such as `unvouched line 3`.

    Args:
        game: The game file.
        log: The log, a file or its bytes.
        asked: The file of what the link asked.
        said: The file of what it was sent.
        form: How its lines are written, `words` or `json`.
        timeout: The seconds that it may take; None for no limit.
    """
    given, file = (log, INPUT) if isinstance(log, bytes) else (b"", log)
    more: List[Word] = ["json"] if form == "json" else []
    return run("vouch", game, file, asked, said, *more, given=given, allowed=(OK, UNSOUND),
               timeout=timeout).rstrip("\n")


def table(pairs: Sequence[Tuple[Word, Word]]) -> str:
    """The standings over games, each a game file and its log."""
    return run("table", *(word for pair in pairs for word in pair))


def solve(account: Union[Word, bytes]) -> str:
    """A best allocation of the goods of an account, a file or its bytes, with its certificate."""
    if isinstance(account, bytes):
        return run("solve", INPUT, given=account)
    return run("solve", account)


def worth(account: Union[Word, bytes]) -> str:
    """What one unit more and one less of each good of an account, a file or its bytes, changes."""
    if isinstance(account, bytes):
        return run("worth", INPUT, given=account)
    return run("worth", account)


def served_words(game: Word, port: int, pace: int, form: str = "words") -> List[str]:
    """The words that start a server.

    Args:
        game: The game file.
        port: The port, 1 to 65535.
        pace: The milliseconds from tick to tick, 1 to 60000.
        form: What agents speak, `words` or `json`.
    """
    return [find_runnable(), "serve", str(game), str(port), str(pace),
            *(["json"] if form == "json" else [])]

"""A game that is played line by line: the process of `tac step`, and its two pipes.

    with Stepped(text) as game:
        game.exchange(b"0 own 16\ntick\n7 own 16\n", 2)    # b'0 @0 own 1 ()\n7 @1 own 0 ()\n'
        log = game.finish()

The lines are those of a game script (docs/FORMATS.md). The process needs no guard: it ends once the
pipe to it closes, and the system closes the pipe even if the script that started it is killed.

A game belongs to the process that began it. A process forked from that one closes its copy at once,
without any effect on the game, and no game can be copied or pickled.
"""

import os
import select
import subprocess
import weakref
from typing import List, NoReturn, Optional, Sequence, Tuple

from geesefuton.program import HEAP, INPUT, OK, ProgramError, ended, find_runnable, nameless_file

MOST_READ = 1 << 16  # bytes read at once, which is what a pipe holds
FIRST_PAUSE, PAUSE = 20, 1  # milliseconds before the first read of a log and before a further one


class Stepped:
    """A game of one process. Only one thread may use it at a time.

    Args:
        game: The text of a game file.

    Raises ProgramError where there is no program, or it cannot be run."""

    def __init__(self, game: bytes) -> None:
        self._process: Optional["subprocess.Popen[bytes]"] = None
        self._owner, self._script, self._replies = os.getpid(), -1, -1
        _open_games.add(self)
        file, held = find_runnable(), nameless_file(game)
        try:  # in a session of its own, which ctrl-C at a terminal does not reach
            self._process = subprocess.Popen(
                ["tac", "step", f"/dev/fd/{held}", INPUT], executable=file, bufsize=0,
                pass_fds=[held], stdin=subprocess.PIPE, stdout=subprocess.PIPE,
                start_new_session=True, env={**HEAP, **os.environb})
        except OSError as fault:
            if fault.filename is None:
                raise
            raise ProgramError(f"cannot run the file of tac: {fault.strerror}") from None
        finally:
            os.close(held)
        assert self._process.stdin is not None and self._process.stdout is not None
        self._script, self._replies = self._process.stdin.fileno(), self._process.stdout.fileno()
        os.set_blocking(self._script, False)

    def exchange(self, text: bytes, due: int) -> bytes:
        """Plays a text of lines of a script, and gives the `due` reply lines, one for each of these
        but `tick`, as a text.

        Raises ProgramError where the process has ended, since the game file or a line was refused
        or for another reason; its `line` is what the process wrote last."""
        self._need_script()
        try:
            rest = text[os.write(self._script, text):]
        except BlockingIOError:
            rest = text
        except BrokenPipeError:
            raise self._fault([]) from None
        parts = self._both(memoryview(rest)) if rest else []
        count = sum(part.count(b"\n") for part in parts)
        while count < due:
            part = os.read(self._replies, MOST_READ)
            if not part:
                raise self._fault(parts)
            parts.append(part)
            count += part.count(b"\n")
        got = b"".join(parts)
        # A refusal is the last line, and begins with a letter.
        if got and not got[got.rfind(b"\n", 0, -1) + 1:][:1].isdigit():
            raise self._fault(parts)
        return got

    def finish(self) -> bytes:
        """Ends the script, lets the ticks that are left come, and gives the log. Raises
        ProgramError as `exchange` does."""
        self._need_script()
        log, status = self._rest()
        if status != OK:
            raise ended("step", status, _last(log))
        return log

    def close(self) -> None:
        """Ends the process, if it has not ended. In a forked process only its pipes are closed."""
        self._script = -1
        if self._process is not None:
            for stream in (self._process.stdin, self._process.stdout):
                assert stream is not None
                stream.close()
            if self._owner == os.getpid():
                self._process.kill()
                self._process.wait()
            else:
                self._process.returncode = OK  # it is the owner's to wait for

    def _need_script(self) -> None:
        """Sees that the script can go on. Raises ProgramError where it cannot."""
        if self._script < 0 and self._owner != os.getpid():
            raise ProgramError("the game belongs to the process that began it")
        if self._script < 0:
            raise ProgramError("the game is over")

    def _both(self, rest: memoryview) -> List[bytes]:
        """Writes what a full pipe did not take, and reads meanwhile, so that neither side waits
        for the other; gives the parts that were read."""
        parts: List[bytes] = []
        poll = select.poll()
        poll.register(self._script, select.POLLOUT)
        poll.register(self._replies, select.POLLIN)
        while rest:
            ready = dict(poll.poll())
            if self._replies in ready:
                part = os.read(self._replies, MOST_READ)
                if not part:
                    raise self._fault(parts)
                parts.append(part)
            if self._script in ready:
                try:
                    rest = rest[os.write(self._script, rest):]
                except BrokenPipeError:
                    raise self._fault(parts) from None
        return parts

    def _rest(self) -> Tuple[bytes, int]:
        """Ends the script. Gives what the process still writes, and its exit status, negative for a
        signal. It writes in parts, and to wait for each would cost a change of processes: so this
        waits for the end, unless the pipe is full."""
        assert self._process is not None and self._process.stdin is not None
        self._process.stdin.close()
        self._script, parts = -1, list[bytes]()
        pause, poll = FIRST_PAUSE, select.poll()
        poll.register(self._replies, 0)  # its end alone
        while True:
            is_ended = bool(poll.poll(pause))
            parts.append(os.read(self._replies, MOST_READ))
            is_full = len(parts[-1]) == MOST_READ
            if is_ended and not is_full:
                return b"".join(parts), self._process.wait()
            pause = 0 if is_full else PAUSE

    def _fault(self, parts: Sequence[bytes]) -> ProgramError:
        """Why the process has ended before the end of the script, after these parts of its text."""
        rest, status = self._rest()
        return ended("step", status, _last(b"".join([*parts, rest])))

    def __enter__(self) -> "Stepped":
        return self

    def __exit__(self, *_: object) -> None:
        self.close()

    def __reduce__(self) -> NoReturn:
        raise TypeError("a game with a process cannot be copied or pickled")

    def __del__(self) -> None:
        self.close()


_open_games: "weakref.WeakSet[Stepped]" = weakref.WeakSet()


def _close_inherited() -> None:
    """Closes what a forked process got of the games: held open there, the pipes would keep a game
    from its end."""
    for game in list(_open_games):
        game.close()


os.register_at_fork(after_in_child=_close_inherited)


def _last(text: bytes) -> str:
    """The last line of a text, without its line end."""
    return text.rstrip(b"\n").rsplit(b"\n", 1)[-1].decode("latin-1")

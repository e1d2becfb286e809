"""Games line by line by `tac step`, as no test in memory can play them: over pipes, at a terminal,
and by scripts at their limits."""

import contextlib
import os
import pty
import select
import subprocess
from pathlib import Path
from typing import Tuple

from geesefuton import program
from geesefuton.processes import Children
from tests.package.helpers import Case
from tests.support.trying import MOST, needs_program, ran

TEXT_BYTES = 67_108_864  # of a script, at most
SESSION_LINES = 65_536  # of an agent, at most
# Lines that are written together, and the replies due before the next are written.
TALK = [
    (b"0 cash\n", b"0 @0 cash 0\n"),
    (b"1 ca", b""),
    (b"sh\n1 buy\n", b"1 @1 cash 0\n1 no syntax\n"),
    (b"tick\ntick\n", b""),
    (b"0 quit\n", b"0 bye\n"),
]


def read_some(stream: "IO[bytes]", count: int) -> bytes:
    """So many bytes of a pipe, or fewer at its end, or if nothing comes for long."""
    text = b""
    while len(text) < count and select.select([stream], [], [], MOST)[0]:
        piece = os.read(stream.fileno(), count - len(text))
        if not piece:
            break
        text += piece
    return text


@needs_program
class Stepping(Case):
    def setUp(self) -> None:
        super().setUp()
        self.children = self.enter(Children())
        self.game = self.place / "game"
        self.game.write_bytes(ran("make", 7).stdout)

    def step(self, *parts: bytes) -> Tuple[int, bytes]:
        """The exit status of the game by a script of these bytes, and what it writes."""
        done = ran("step", self.game, self.script(*parts))
        return done.returncode, done.stdout

    def script(self, *parts: bytes) -> Path:
        file = self.place / "script"
        file.write_bytes(b"".join(parts))
        return file

    @contextlib.contextmanager
    def game_at(self, stdin: int, stdout: int = subprocess.PIPE
                ) -> "Iterator[subprocess.Popen[bytes]]":
        """A game whose script is standard input."""
        child = self.children.start([program.find(), "step", self.game, "/dev/stdin"],
                                    stdin=stdin, stdout=stdout)
        with contextlib.ExitStack() as stack:
            for stream in filter(None, (child.stdin, child.stdout)):
                stack.enter_context(stream)
            stack.callback(self.children.end, child)
            yield child

    def test_each_line_in_a_pipe_is_answered_before_the_next_is_written(self) -> None:
        with self.game_at(subprocess.PIPE) as child:
            assert child.stdin is not None and child.stdout is not None
            for lines, replies in TALK:
                os.write(child.stdin.fileno(), lines)
                self.assertEqual(read_some(child.stdout, len(replies)), replies)
            child.stdin.close()
            log = child.stdout.read()
            self.assertEqual(child.wait(MOST), 0)
        played = ran("play", self.game, self.script(*(lines for lines, _ in TALK)))
        self.assertEqual((played.returncode, played.stdout),
                         (0, b"".join(replies for _, replies in TALK) + log))

    def test_a_bad_line_ends_the_game_though_the_pipe_stays_open(self) -> None:
        with self.game_at(subprocess.PIPE) as child:
            assert child.stdin is not None and child.stdout is not None
            os.write(child.stdin.fileno(), b"0 cash\nx\n")
            due = b"0 @0 cash 0\ntext 2 1\n"
            self.assertEqual(read_some(child.stdout, len(due) + 1), due)
            self.assertEqual(child.wait(MOST), 8)

    def test_a_game_whose_replies_nobody_reads(self) -> None:
        reader, writer = os.pipe()
        os.close(reader)
        with contextlib.ExitStack() as stack:
            try:
                child = stack.enter_context(self.game_at(subprocess.PIPE, writer))
            finally:
                os.close(writer)
            assert child.stdin is not None
            os.write(child.stdin.fileno(), b"0 cash\n")
            self.assertEqual(child.wait(MOST), 4)

    def test_at_a_terminal_each_line_is_answered_and_the_log_comes_at_the_end(self) -> None:
        ours, theirs = pty.openpty()
        try:
            with self.game_at(theirs) as child:
                assert child.stdout is not None
                for number in range(2):
                    os.write(ours, b"%d cash\n" % number)
                    due = b"%d @%d cash 0\n" % (number, number)
                    self.assertEqual(read_some(child.stdout, len(due)), due)
                os.write(ours, b"\x04")
                self.assertEqual(child.stdout.read()[:9], b"taclog 1\n")
                self.assertEqual(child.wait(MOST), 0)
        finally:
            os.close(theirs)
            os.close(ours)

    def test_an_agent_has_65536_lines(self) -> None:
        line = b"3 quote 24\n"
        status, text = self.step(line * SESSION_LINES)
        replies = text[:text.index(b"taclog 1\n")]
        self.assertEqual((status, replies.count(b"\n")), (0, SESSION_LINES))
        self.assertTrue(self.step(line * (SESSION_LINES + 1)) == (8, replies + b"text 65537 4\n"))

    def test_a_script_may_have_so_many_bytes_and_a_bad_line_comes_before_its_length(self) -> None:
        # 131,072 lines of 512 bytes, the agent and the line end among them, have as many as may be.
        whole = [b"%d %s\n" % (agent, b"x" * 509) * SESSION_LINES for agent in (0, 1)]
        replies = b"0 no syntax\n" * SESSION_LINES + b"1 no syntax\n" * SESSION_LINES
        self.assertEqual(self.script(*whole).stat().st_size, TEXT_BYTES)
        status, text = self.step(*whole)
        self.assertEqual(status, 0)
        self.assertTrue(text.startswith(replies + b"taclog 1\n"))
        self.assertTrue(self.step(*whole, b"2") == (8, replies + b"text too long\n"))
        self.assertEqual(self.step(b"0 cash\nx\n", *whole), (8, b"0 @0 cash 0\ntext 2 1\n"))

import copy
import os
import pickle
import signal
import subprocess
import sys
import threading
import unittest
from pathlib import Path
from typing import Any, Callable, List
from unittest import mock

from geesefuton.learning.stepping import Stepped
from geesefuton.program import ProgramError
from tests.package.cases import MOST, Case, is_running
from tests.package.helpers import python, variables

# A stand-in that answers each line of an agent with WIDTH letters more than is due, and ends at a
# line `0 end` with the exit status 8 and `text 2 1`, at `0 die` by a signal.
ANSWERS = """
import os, sys
game = open(sys.argv[2]).read()
if game == "bad":
    print("game 1 1")
    sys.exit(2)
print("begun", sys.argv[1], game, sys.argv[3:], file=sys.stderr)
for line in sys.stdin:
    if line == "0 end\\n":
        print("text 2 1")
        sys.exit(8)
    if line == "0 die\\n":
        os.kill(os.getpid(), 9)
    if line != "tick\\n":
        print(line.split()[0], "@0 done", "x" * WIDTH, flush=True)
print("taclog 1")
"""


def ask(game: Stepped, *lines: str) -> List[str]:
    """The reply lines to lines of a script."""
    text = "".join(line + "\n" for line in lines).encode()
    return game.exchange(text, sum(line != "tick" for line in lines)).decode().split("\n")[:-1]


class Pipes(Case):
    def setUp(self) -> None:
        super().setUp()
        self.use(0)

    def use(self, width: int) -> None:
        """Lets a stand-in be the program."""
        script = self.write("answers.py", ANSWERS.replace("WIDTH", str(width)))
        self.use_program(f'exec "{sys.executable}" "{script}" "$@" 2>> "{self.folder}/told"\n')

    def test_lines_are_answered_and_the_log_follows(self) -> None:
        with Stepped(b"a text") as game:
            self.assertEqual(ask(game, "0 own 8", "tick", "3 cash"), ["0 @0 done ", "3 @0 done "])
            self.assertEqual((ask(game, "tick"), ask(game)), ([], []))
            self.assertEqual(game.exchange(b"7 own 1\n", 1), b"7 @0 done \n")
            self.assertEqual(game.finish(), b"taclog 1\n")
        self.assertEqual((self.folder / "told").read_text(), "begun step a text ['/dev/stdin']\n")

    def test_full_pipes_stop_nobody(self) -> None:
        self.use(400)
        lines = [f"{number % 8} own {'8' * 400}" for number in range(2000)]  # 800 KB each way
        with Stepped(b"a text") as game:
            replies = ask(game, *lines)
            self.assertEqual([reply[0] for reply in replies], [line[0] for line in lines])
            self.assertEqual({len(reply) for reply in replies}, {len("0 @0 done ") + 400})
            self.assertEqual(game.finish(), b"taclog 1\n")

    def fault(self, game: Stepped, lines: List[str]) -> ProgramError:
        with self.assertRaises(ProgramError) as caught:
            ask(game, *lines)
        return caught.exception

    def test_a_refusal_is_told(self) -> None:
        for lines in (["0 own 8", "0 end"], ["0 end", "0 own 8"], ["0 end"] + ["0 own 8"] * 99_999):
            with self.subTest(lines=lines[:3]), Stepped(b"a text") as game:
                fault = self.fault(game, lines)
                self.assertEqual((fault.status, fault.line), (8, "text 2 1"))
                self.assertRegex(str(fault), "^tac step ended with exit status 8 .*text 2 1")
                self.assertEqual(str(self.fault(game, ["0 own 8"])), "the game is over")
        for text, line in ((b"bad", "0 own 8"), (b"a text", "0 die")):
            with Stepped(text) as game:
                self.assertEqual(self.fault(game, [line]).status,
                                 2 if text == b"bad" else -signal.SIGKILL)
        for text, lines, told in ((b"a text", b"0 end\n", "text 2 1"),
                                  (b"bad", b"", "the game file is refused: game 1 1")):
            with Stepped(text) as game:
                game.exchange(lines, 0)  # it is told when the log is due
                self.assertRaisesRegex(ProgramError, told, game.finish)

    def test_after_its_end_there_is_no_game(self) -> None:
        game = Stepped(b"a text")
        game.finish()
        self.assertRaisesRegex(ProgramError, "the game is over", game.finish)
        self.assertRaisesRegex(ProgramError, "the game is over", ask, game, "tick")
        game.close()
        game.close()
        closed = Stepped(b"a text")
        closed.close()
        self.assertRaisesRegex(ProgramError, "the game is over", ask, closed, "0 own 8")

    def test_a_forked_process_leaves_the_game_alone(self) -> None:
        for each in (Stepped.close, Stepped.__del__):
            with self.subTest(each=each.__name__), Stepped(b"a text") as game:
                self.in_a_fork(lambda: each(game))
                self.assertEqual(ask(game, "0 own 8"), ["0 @0 done "])
                self.assertEqual(game.finish(), b"taclog 1\n")

    def test_a_forked_process_cannot_play_the_game(self) -> None:
        def play() -> None:
            for call in (game.finish, lambda: ask(game, "0 own 8")):
                self.assertRaisesRegex(ProgramError, "belongs to the process that began it", call)

        with Stepped(b"a text") as game:
            self.in_a_fork(play)
            self.assertEqual(ask(game, "0 own 8"), ["0 @0 done "])

    def test_a_forked_process_that_goes_on_does_not_hold_the_game_up(self) -> None:
        reading, writing = os.pipe()
        game = Stepped(b"a text")
        child = os.fork()
        if not child:
            os.close(writing)
            os.read(reading, 1)  # until the test has ended
            os._exit(0)
        os.close(reading)
        limit = threading.Timer(MOST, os.close, (writing,))
        limit.start()
        try:
            self.assertEqual(game.finish(), b"taclog 1\n")
            self.assertTrue(limit.is_alive(), "the log came only when the other process ended")
        finally:
            if limit.is_alive():
                limit.cancel()
                os.close(writing)
            limit.join()
            os.waitpid(child, 0)

    def test_a_game_is_not_copied(self) -> None:
        with Stepped(b"a text") as game:
            calls: List[Callable[[Any], Any]] = [copy.copy, copy.deepcopy, pickle.dumps]
            for each in calls:
                self.assertRaisesRegex(TypeError, "cannot be copied or pickled", each, game)
            self.assertEqual(ask(game, "0 own 8"), ["0 @0 done "])

    @unittest.skipUnless(Path("/proc/self/fd").exists(), "open files are looked for in /proc")
    def test_no_file_and_no_process_is_left(self) -> None:
        Stepped(b"a text").close()  # what is made once stays
        before = os.listdir("/proc/self/fd")
        for _ in range(3):
            Stepped(b"a text").close()
            with Stepped(b"a text") as game:
                game.finish()
            self.fault(Stepped(b"a text"), ["0 end"])
            with mock.patch.dict(os.environ, {"TAC": str(self.folder)}):
                self.assertRaises(ProgramError, Stepped, b"a text")
        self.assertEqual(os.listdir("/proc/self/fd"), before)
        self.assertRaises(ChildProcessError, os.waitpid, -1, os.WNOHANG)

    def test_a_file_that_is_no_program_is_told(self) -> None:
        file = self.write("none", "\x7fELF")
        file.chmod(0o755)
        self.set(TAC=str(file))
        self.assertRaisesRegex(ProgramError, "cannot run the file", Stepped, b"")

    def test_standard_streams_may_be_closed(self) -> None:
        code = ("import os; os.close(0); os.close(1)\n"
                "from geesefuton.learning.stepping import Stepped\n"
                "game = Stepped(b''); replies = game.exchange(b'5 own 8\\n', 1)\n"
                "log = game.finish()\n"
                "os.write(2, repr((replies, log)).encode())")
        done = subprocess.run(python(code), stderr=subprocess.PIPE, env=variables(), check=True,
                              timeout=60)
        self.assertEqual(done.stderr, b"(b'5 @0 done \\n', b'taclog 1\\n')")

    @unittest.skipUnless(Path("/proc/self").exists(), "processes are looked for in /proc")
    def test_the_process_ends_with_a_script_that_is_killed(self) -> None:
        code = ("import time\nfrom geesefuton.learning.stepping import Stepped\n"
                "game = Stepped(b''); game.exchange(b'0 own 8\\n', 1)\n"
                "print(game._process.pid, flush=True); time.sleep(300)")
        script = subprocess.Popen(python(code), stdout=subprocess.PIPE, env=variables())
        assert script.stdout is not None
        with script.stdout as told:
            process = int(told.readline())
        self.assertTrue(is_running(process))
        script.kill()
        script.wait()
        self.until(lambda: not is_running(process))

"""The program's exit status for each that a shell can cause. A contract says that the exit status
is made of the code that `tac` answers, but not what `main` and the system make of that."""

import resource
import socket
import tempfile
import unittest
from pathlib import Path
from typing import Any, Dict, List, Tuple

from tests.support.trying import TOP, needs_program, ran

GAME = str(TOP / "examples" / "first.game")
Case = Tuple[str, List[str], int, Dict[str, Any]]  # name, words, status due, how it is started


def little_memory() -> None:
    """Limits the memory of the process to enough for its libraries, but not for a game."""
    resource.setrlimit(resource.RLIMIT_AS, (32 << 20, 32 << 20))


def cases(bad: str, port: int, full: Any) -> List[Case]:
    """The runs, with a file that is bad, a port that is taken, and an output that is full."""
    return [
        ("a made game", ["make", "1"], 0, {}),
        ("no command", ["mak", "1"], 1, {}),
        ("a bad game", ["show", bad], 2, {}),
        ("a file that is not there", ["show", bad + ".none"], 3, {}),
        ("an output that is full", ["make", "1"], 4, {"stdout": full}),
        ("a port that is taken", ["serve", GAME, str(port), "1"], 5, {}),
        *((f"an address that is none: {each[:20]}", ["serve", GAME, "65534", "1"], 5,
           {"env": {"TAC_BIND": each}})
          for each in ("", "localhost", "127.0.0.1:1", "::x", "1" * 100)),
        ("little memory", ["serve", GAME, "65534", "1"], 7, {"preexec_fn": little_memory}),
        ("a bad account", ["solve", bad], 8, {}),
        ("the greatest port and pace", ["serve", bad + ".none", "65535", "60000"], 3, {}),
        ("a path of 1,500 bytes", ["show", GAME.rjust(1500, "/")], 0, {}),
        ("a path past the system's limit", ["show", GAME.rjust(5000, "/")], 3, {}),
    ]


@needs_program
class Statuses(unittest.TestCase):
    def test_each_status(self) -> None:
        with tempfile.TemporaryDirectory() as folder, socket.socket() as taken, \
                open("/dev/full", "wb") as full:
            bad = Path(folder) / "bad"
            bad.write_text("neither a game nor an account\n")
            taken.bind(("", 0))
            taken.listen()
            for name, words, due, how in cases(str(bad), taken.getsockname()[1], full):
                with self.subTest(name):
                    self.assertEqual(ran(*words, **how).returncode, due)

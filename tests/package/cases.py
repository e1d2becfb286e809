"""What cases of tests share: what ends with a test, its folder, and waiting."""

import os
import signal
import socket
import tempfile
import time
import unittest
from functools import cached_property
from pathlib import Path
from typing import Any, Callable
from unittest import mock

MOST = 60.0  # seconds that anything may take, on a machine that is busy with other work


def is_listening(port: int) -> bool:
    """Whether somebody listens there."""
    with socket.socket() as link:
        return link.connect_ex(("127.0.0.1", port)) == 0


def is_running(process: int) -> bool:
    """Whether there is a process of this number that has not ended."""
    try:
        state = Path(f"/proc/{process}/stat").read_text().rsplit(")", 1)[1].split()[0]
    except OSError:
        return False
    return state not in "ZX"


def fake_program(folder: Path, body: str) -> str:
    """A stand-in for the program: a shell script. Gives its file."""
    file = folder / "tac"
    file.write_text("#!/bin/sh\n" + body)
    file.chmod(0o755)
    return str(file)


class Case(unittest.TestCase):
    """A test, and what ends with it."""

    @cached_property
    def folder(self) -> Path:
        """A folder of its own, from the first time that it is asked for."""
        return Path(self.enter(tempfile.TemporaryDirectory())).resolve()

    def enter(self, context: Any) -> Any:
        """What a context gives, which ends with the test."""
        self.addCleanup(context.__exit__, None, None, None)
        return context.__enter__()

    def patch(self, name: str, *what: Any, **how: Any) -> Any:
        """A member of the package is another one until the test ends."""
        return self.enter(mock.patch(f"geesefuton.{name}", *what, **how))

    def set(self, **variables: str) -> None:
        """Variables of the environment until the test ends."""
        self.enter(mock.patch.dict(os.environ, variables))

    def use_program(self, body: str) -> str:
        """Lets a shell script stand for the program until the test ends. Gives its file."""
        tac = fake_program(self.folder, body)
        self.set(TAC=tac)
        return tac

    def until(self, holds: Callable[[], Any], told: Any = "") -> None:
        """Waits until something holds, and otherwise tells something."""
        deadline = time.monotonic() + MOST
        while not holds():
            self.assertLess(time.monotonic(), deadline, told)
            time.sleep(0.01)

    def in_a_fork(self, call: Callable[[], object]) -> None:
        """Runs a call in a forked process, which then ends; fails if the call did."""
        child = os.fork()
        if not child:
            status = 1
            signal.alarm(int(MOST))
            try:
                call()
                status = 0
            finally:
                os._exit(status)
        self.assertEqual(os.waitpid(child, 0)[1], 0)

    def write(self, name: str, text: str) -> Path:
        """A file of the folder with this text."""
        file = self.folder / name
        file.parent.mkdir(parents=True, exist_ok=True)
        file.write_text(text)
        return file


class FolderCase(Case):
    """A test whose folder is there from its beginning."""

    def setUp(self) -> None:
        super().setUp()
        self.folder.exists()

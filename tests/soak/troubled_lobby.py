#!/usr/bin/env python3
"""Runs the lobby where what befalls a machine can be had by a file in the current folder.

While there is a file `clock` the time of day is an hour earlier, and while there is a file
`processes` no process can be started.
"""

import errno
import os
import subprocess
import sys
import time
from pathlib import Path
from typing import Any

sys.path.insert(0, str(Path(__file__).resolve().parents[2] / "python"))

from geesefuton.hosting.lobby_command import main  # noqa: E402

_now, _spawn = time.time, os.posix_spawn


def _time() -> float:
    return _now() - 3600 * os.path.exists("clock")


def _refuse() -> None:
    if os.path.exists("processes"):
        raise BlockingIOError(errno.EAGAIN, os.strerror(errno.EAGAIN))


class _Popen(subprocess.Popen):  # type: ignore[type-arg]
    def __init__(self, *words: Any, **how: Any) -> None:
        _refuse()
        super().__init__(*words, **how)


def _posix_spawn(*words: Any, **how: Any) -> int:
    _refuse()
    return _spawn(*words, **how)


if __name__ == "__main__":
    setattr(time, "time", _time)
    setattr(subprocess, "Popen", _Popen)
    setattr(os, "posix_spawn", _posix_spawn)
    sys.exit(main())

"""Runs a script, or a module after -m, without what Windows lacks: modules, calls and signals are
taken away, and text has Windows' encoding and line ends.

    python3 as_on_windows.py SCRIPT WORDS..
"""

import argparse  # noqa: F401  # what the standard library itself takes of a system stays
import builtins
import io
import os
import platform
import random  # noqa: F401
import runpy
import shutil  # noqa: F401
import signal
import subprocess  # noqa: F401
import sys
import tempfile  # noqa: F401
import threading  # noqa: F401
from typing import Any

MODULES = "fcntl resource pwd grp termios tty pty syslog posix readline curses".split()
CALLS = """
environb getenvb getegid geteuid getgid getgroups getpgid getpgrp getpriority getresgid getresuid
getsid getuid setegid seteuid setgid setgroups setpgid setpriority setregid setreuid setsid setuid
uname fchdir fchmod chroot chown fchown lchown pread preadv pwrite pwritev readv writev sendfile
lockf openpty pipe2 set_blocking ttyname statvfs fstatvfs sync fdatasync mkfifo mknod memfd_create
eventfd splice copy_file_range fork forkpty nice posix_spawn posix_spawnp register_at_fork wait
waitid wait3 wait4 killpg getloadavg sysconf posix_fallocate posix_fadvise
""".split()
PREFIXES = ("POSIX_", "PRIO_", "MFD_", "SCHED_", "sched_", "W", "O_NO", "O_CLOEXEC", "O_DIR",
            "O_SYNC", "O_DSYNC")
KEPT = {"W_OK"}
SIGNALS = {"SIGINT", "SIGTERM", "SIGABRT", "SIGFPE", "SIGILL", "SIGSEGV"}
OF_THREADS = ("pthread_kill pthread_sigmask sigpending sigwait sigwaitinfo sigtimedwait "
              "siginterrupt setitimer getitimer alarm pause SIG_BLOCK SIG_UNBLOCK "
              "SIG_SETMASK").split()


def take_away() -> None:
    """Takes away what Windows lacks."""
    for name in MODULES:
        sys.modules[name] = None  # type: ignore[assignment]
    for name in list(vars(os)):
        if name in CALLS or name.startswith(PREFIXES) and name not in KEPT:
            delattr(os, name)
    for name in list(vars(signal)):
        is_signal = name.startswith("SIG") and not name.startswith("SIG_")
        if name in OF_THREADS or is_signal and name not in SIGNALS:
            delattr(signal, name)
    sys.platform = "win32"
    platform.system, platform.machine = (lambda: "Windows"), (lambda: "AMD64")
    platform.libc_ver = lambda *_, **__: ("", "")


def use_its_text() -> None:
    """Lets text that names no encoding and no line end have those of Windows."""
    real = io.open

    def opened(file: Any, mode: str = "r", buffering: int = -1, encoding: Any = None,
               errors: Any = None, newline: Any = None, *more: Any, **how: Any) -> Any:
        if "b" not in mode:
            encoding = encoding or "cp1252"
            newline = "\r\n" if newline is None and "r" not in mode else newline
        return real(file, mode, buffering, encoding, errors, newline, *more, **how)

    io.open = builtins.open = opened
    for stream in (sys.stdout, sys.stderr):
        assert isinstance(stream, io.TextIOWrapper)
        stream.reconfigure(encoding="cp1252", errors="strict", newline="\r\n")


if __name__ == "__main__":
    take_away()
    use_its_text()
    del sys.argv[0]
    if sys.argv[0] == "-m":
        del sys.argv[0]
        runpy.run_module(sys.argv[0], run_name="__main__", alter_sys=True)
    else:
        sys.path[0] = os.path.dirname(sys.argv[0])
        runpy.run_path(sys.argv[0], run_name="__main__")

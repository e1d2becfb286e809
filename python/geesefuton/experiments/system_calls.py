"""The system calls of Linux that an agent's sandbox lacks, as a filter for `bwrap --seccomp`.

They tell which pages of files are in memory, lock or watch files that all sandboxes see, keep keys
that a user's processes share, or reach other machines and processes. A program finds them missing,
as on an older Linux, and so all calls that came after 5.14. Only `flock` seems to succeed, since
Java complains without it, but locks nothing.
"""

import platform
import struct
from typing import Sequence, Tuple

ALLOWED, IGNORED, MISSING, KILLED = 0x7FFF0000, 0x50000, 0x50026, 0x80000000
NEWER = 449  # the first call after Linux 5.14, on either machine; those of x32 are above
# Of Linux's filters: load a word, go on where it is one number, or at least one; return.
LOAD, IS, IS_FROM, RETURN = 0x20, 0x15, 0x35, 0x06
NUMBER, MACHINE, ARGUMENTS = 0, 4, 16  # where the words of a call are
MACHINES = {"x86_64": (0xC000003E, 0), "aarch64": (0xC00000B7, 1)}  # their numbers, and columns
CALLS = {
    "add_key": (248, 217), "bpf": (321, 280), "fadvise64": (221, 223), "fanotify_init": (300, 262),
    "flock": (73, 32), "inotify_add_watch": (254, 27), "io_setup": (206, 0),
    "io_uring_setup": (425, 425), "keyctl": (250, 219), "mincore": (27, 232),
    "perf_event_open": (298, 241), "preadv2": (327, 286), "process_madvise": (440, 440),
    "process_vm_readv": (310, 270), "process_vm_writev": (311, 271), "ptrace": (101, 117),
    "request_key": (249, 218), "syslog": (103, 116), "userfaultfd": (323, 282)}
FAMILIES = (1, 2, 10)  # AF_UNIX, AF_INET, AF_INET6
LOCKS = (5, 36, 1024, 1026)  # F_GETLK, F_OFD_GETLK, F_SETLEASE, F_NOTIFY
ADVICE = (20, 21)  # MADV_COLD, MADV_PAGEOUT
# A call, one of its arguments, some values of this, and the answers to these and to others.
VALUES = (((41, 198), 0, FAMILIES, ALLOWED, MISSING), ((72, 25), 1, LOCKS, MISSING, ALLOWED),
          ((28, 233), 2, ADVICE, MISSING, ALLOWED))


def filter_of(machine: str = platform.machine()) -> bytes:
    """The filter for a machine; empty where its calls are not known. A call in the form of another
    machine, such as one of 32 bits, kills its process."""
    if machine not in MACHINES:
        return b""
    number, column = MACHINES[machine]
    steps = [(LOAD, 0, 0, MACHINE), (IS, 1, 0, number), (RETURN, 0, 0, KILLED),
             (LOAD, 0, 0, NUMBER), (IS_FROM, 0, 1, NEWER), (RETURN, 0, 0, MISSING)]
    for name, call in CALLS.items():
        steps += _answered(call[column], IGNORED if name == "flock" else MISSING)
    for call, argument, values, answer, other in VALUES:
        rest = [(LOAD, 0, 0, ARGUMENTS + 8 * argument),
                *(step for value in values for step in _answered(value, answer)),
                (RETURN, 0, 0, other)]
        steps += [(IS, 0, len(rest), call[column]), *rest]
    return b"".join(struct.pack("HBBI", *step) for step in [*steps, (RETURN, 0, 0, ALLOWED)])


def _answered(value: int, answer: int) -> Sequence[Tuple[int, int, int, int]]:
    """The steps that give an answer where the last word is a value."""
    return (IS, 0, 1, value), (RETURN, 0, 0, answer)

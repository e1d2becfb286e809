"""Signals that are ignored where tests run, and are not by what the tests start."""

import signal

# Under `nohup`, or in the background of a shell's script, SIGHUP or SIGINT is ignored, and what the
# tests start would inherit that. A handler is not inherited.
for _number in (signal.SIGINT, signal.SIGHUP):
    if signal.getsignal(_number) is signal.SIG_IGN:
        signal.signal(_number, lambda number, frame: None)

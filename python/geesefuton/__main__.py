"""Runs the command `geesefuton`: as `python -m geesefuton`, or by this folder's path."""

import os
import signal
import sys

if signal.getsignal(signal.SIGINT) is signal.default_int_handler:
    signal.signal(signal.SIGINT, signal.SIG_DFL)  # until the command takes signals itself
if not __package__:
    sys.path[0] = os.path.dirname(os.path.dirname(os.path.abspath(__file__)))

from geesefuton.front import main  # noqa: E402

sys.exit(main())

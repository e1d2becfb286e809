"""The link of the package, for agents that run from a clone: `from link import Link`."""

import sys
from pathlib import Path

sys.path.insert(0, str(Path(__file__).resolve().parents[2] / "python"))

from geesefuton.link import *  # noqa: E402, F401, F403

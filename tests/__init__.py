"""The tests: `tests/run` runs what a change has to pass, and `tests/soak/run` goes on for hours. At
the top of the repository `python3 -m unittest tests.program.test_stepping` runs one file."""

import sys
from pathlib import Path

sys.path.insert(0, str(Path(__file__).resolve().parents[1] / "python"))

"""The tools around `tac`, the game server: lobby, tournaments, reports, and links for agents.

Nothing here is proved. The package starts the program `tac`, for which it needs Linux, and reads
what it writes. An agent plays on any system. The package needs Python 3.9 or later, and for figures
numpy, scipy and pandas.
"""

__version__ = "1.1.0"  # of the program and the package; also in CITATION.cff and CHANGELOG.md

"""Plays every profile of a game between strategies, and searches for symmetric
equilibria. A profile says how many of the eight seats have each strategy.

    geesefuton profiles mine.py theirs.py --games 40 --turns 40 --out FOLDER

FOLDER keeps the games: --resume continues after a stop, a larger --games adds
games, and one strategy more plays only the profiles that it is in. The command
prints payoffs, a seat's gain by another strategy, and the equilibria, each with
its number of occurrences in resamples of the deals, and writes payoffs.csv. The
exit status is as of `tournament`. It needs numpy, scipy and pandas.
"""

from functools import partial
from pathlib import Path

from geesefuton.arguments import Parser
from geesefuton.experiments.comparisons import missing_libraries
from geesefuton.experiments.plan import add_playing
from geesefuton.processes import command
from geesefuton.records.games import SEATS


def _main() -> int:
    parser = Parser("profiles", __doc__)
    add = parser.add_argument
    add("agents", nargs="+", metavar="AGENT", help="the strategies, two or more")
    add_playing(parser, "N deals, each with each profile (default: 4)")
    parser.set_defaults(games=4)
    add("--players", type=int, choices=(2, SEATS), default=2,
        help="8: all profiles, 2: the reduced game (default: 2)")
    add("--out", type=Path, required=True, metavar="FOLDER", help="keep the games in this folder")
    add("--search", action="store_true", help="play only what best responses lead to")
    add("--join", action="store_true", help="play nothing: AGENT .. are folders of studies")
    given = parser.parse_args()
    missing = missing_libraries("payoffs and equilibria")
    if missing:
        parser.error(missing)
    from geesefuton.experiments.profile_study import run  # which needs those libraries
    return run(parser, given)


main = partial(command, "profiles", _main)

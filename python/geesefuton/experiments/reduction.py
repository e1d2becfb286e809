"""Profiles of games of eight seats, and those that a game of fewer players needs.

A profile says how many of the seats have each strategy. In the full game a strategy's payoff
against seven opponents is its payoff in the profile of all eight. In the deviation-preserving
reduction there are two players: one is one seat, and its opponent stands for the seven others. So a
single seat gains as much by another strategy as in the full game.
"""

from typing import List, Sequence, Set, Tuple

from geesefuton.records.games import SEATS

Counts = Tuple[int, ...]  # how many players chose each strategy


def counts_of(players: int, strategies: int) -> List[Counts]:
    """All ways in which players may choose, those with most of the first strategy first."""
    if strategies == 1:
        return [(players,)]
    return [(first, *rest) for first in range(players, -1, -1)
            for rest in counts_of(players - first, strategies - 1)]


def with_one(rivals: Sequence[int], strategy: int) -> Counts:
    """The counts of rivals and of one player more."""
    return tuple(count + (place == strategy) for place, count in enumerate(rivals))


def profile_of(strategy: int, rivals: Sequence[int]) -> Counts:
    """The profile of eight seats that gives a strategy its payoff beside one rival, or seven."""
    return with_one([count * (SEATS - 1) // sum(rivals) for count in rivals], strategy)


def needed_profiles(strategies: int, players: int, mixed: int = 0) -> List[Counts]:
    """The profiles that give all payoffs. Those of fewer strategies, the first ones, come first, so
    one more strategy changes the number of none."""
    fill = (0,) * (strategies - (mixed or strategies))
    needed: Set[Counts] = {profile_of(strategy, rivals + fill) for strategy in range(strategies)
                           for rivals in counts_of(players - 1, mixed or strategies)}

    def last(profile: Counts) -> int:
        return max(place for place, count in enumerate(profile) if count)

    return sorted(needed, key=lambda profile: (last(profile), [-count for count in profile]))


def text_of_profile(profile: Counts) -> str:
    """A profile as a word, such as `7+1`."""
    return "+".join(map(str, profile))

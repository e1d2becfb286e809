"""Who sits where: plans in which all agents play, meet, sit and follow one another equally often.

Agents are numbers. With up to eight of them a deal has one game for each, and everybody has each
seat once; with more it has as many games as it takes until everybody has played. Games are made
from base games by adding the same number, modulo the number of agents, to all agents. Over a round,
which has each such sum once, two agents meet or follow one another (they take turns in the order of
seats) as often as their difference stands in the base games. These are searched so that each
difference stands there equally often. (With as many agents as seats this is Williams' design.) For
64 agents the games are the lines of the affine plane of order 8: two meet once a round.

Against a pool each entrant plays alone with the same agents of the pool, at the same seats.
"""

import math
from collections import Counter
from itertools import permutations, product
from random import Random
from typing import Callable, Dict, Hashable, Iterable, Iterator, List, Tuple

from geesefuton.records.games import SEATS

MOST = SEATS * SEATS  # agents
ROUNDS = 8  # after which the base games are repeated
TRIES, STEPS, HEAT = 3, 5000, 12.0  # of a search; what a step may cost at first
SALT = 7  # with which searches find what they should for twenty and thirty agents
POWERS = (1, 2, 4, 3, 6, 7, 5)  # of 2, in the field of 8 numbers
SAME = 1000  # what it costs that an agent meets or follows itself

Game = List[int]  # the agent at each seat
Move = Tuple[Game, int, int]  # a seat of a game, and the agent that it gets


class Seating:
    """The seats of all games of a tournament, by how many agents there are, 1 to `MOST`, and how
    many agents more are in a pool, numbered after these.

    Attributes:
        games: How many games a deal has.
        round: After how many deals everything is equal.
    """

    def __init__(self, entrants: int, pool: int = 0) -> None:
        self._entrants, self._pool = entrants, pool
        is_small = entrants <= SEATS or pool > 0
        self.games = entrants if is_small else -(-entrants // SEATS)
        self.round = SEATS * pool if pool else 1 if is_small else \
            SEATS + 1 if entrants == MOST else entrants
        self._rest, self._bases = _bases(entrants), list[List[Game]]()

    def game(self, deal: int, rotation: int) -> Game:
        """The agents of a game of a deal, both numbered from 0."""
        if self._pool:
            own = deal % SEATS
            return [rotation if seat == own else
                    self._entrants + (seat + deal + deal // SEATS) % self._pool
                    for seat in range(SEATS)]
        if self._entrants == MOST:
            return _line(deal % self.round, rotation)
        number = deal // self.round % ROUNDS
        while len(self._bases) <= number:
            self._bases.append(next(self._rest))
        base, add = self._bases[number], rotation
        if self.round > 1:
            base, add = base[rotation:], deal * _stride(self._entrants)
        return [(agent + add) % self._entrants for agent in base[0]]

    def counts(self, deals: int) -> Dict[str, Tuple[int, int]]:
        """The least and the most, over all agents, of what is to be equal in a number of deals."""
        played: Counter[Hashable] = Counter()
        met, sat, followed = Counter(played), Counter(played), Counter(played)
        for deal in range(deals):
            for rotation in range(self.games):
                game = self.game(deal, rotation)
                played.update(set(game))
                met.update(permutations(set(game), 2))
                sat.update(zip(game, range(SEATS)))
                followed.update(zip(game, game[1:] + game[:1]))
        everybody = range(self._entrants)
        pairs = list(permutations(everybody, 2))
        told: List[Tuple[str, Counter[Hashable], Iterable[Hashable]]] = [
            ("games of an agent", played, everybody),
            ("times at each seat", sat, product(everybody, range(SEATS))),
            ("games in which two agents meet", met, pairs),
            ("times that one follows another", followed, pairs)]
        counts = {what: [counter[key] for key in keys] or [0]
                  for what, counter, keys in told[:2 if self._pool else 4]}
        return {what: (min(each), max(each)) for what, each in counts.items()}


def _stride(agents: int) -> int:
    """A step by which all numbers are reached, and soon far ones: near the golden section."""
    return min((step for step in range(1, agents + 1) if math.gcd(step, agents) == 1),
               key=lambda step: abs(step - agents * 0.618))


def _line(slope: int, shift: int) -> Game:
    """A line of the affine plane of order 8, a game of agents 8 x + y: its slope, 0 to 7, or 8 for
    the lines of equal x, and its shift, 0 to 7."""
    if slope == SEATS:
        return [SEATS * shift + y for y in range(SEATS)]
    return [SEATS * (seat ^ slope) + (_product(slope, seat ^ slope) ^ shift)
            for seat in range(SEATS)]


def _product(one: int, other: int) -> int:
    """The product in the field of 8 numbers."""
    return one and other and POWERS[(POWERS.index(one) + POWERS.index(other)) % len(POWERS)]


def _bases(agents: int) -> Iterator[List[Game]]:
    """The base games of one round after the other."""
    games = -(-agents // SEATS)
    more = SEATS * games - agents  # seats that are left when everybody has one
    everybody = [*range(agents), *(place * agents // max(1, more) % agents
                                   for place in range(more))]
    met, followed, drawn = [0] * agents, [0] * agents, Random(agents + SALT)
    while True:
        base = [everybody[number::games] for number in range(games)]
        if games > 1:
            base = _best(base, met, _of_met, _exchange, drawn)
        base = _best(base, followed, _of_followed, _swap, drawn)
        yield base


def _of_met(game: Game) -> List[int]:
    return [one - other for one, other in permutations(game, 2)]


def _of_followed(game: Game) -> List[int]:
    return [agent - game[seat - 1] for seat, agent in enumerate(game)]


def _exchange(games: List[Game], drawn: Random) -> List[Move]:
    """Exchanges agents of different games, or who has two seats in all."""
    one, other = (games[int(drawn.random() * len(games))] for _ in range(2))
    seat, place = (int(drawn.random() * SEATS) for _ in range(2))
    old, new = one[seat], other[place]
    olds, news = (sum(game.count(agent) for game in games) for agent in (old, new))
    is_exchange = olds == 1 or news > 1
    if old == new or is_exchange and one is other:
        return []
    return [(one, seat, new)] + ([(other, place, old)] if is_exchange else [])


def _swap(games: List[Game], drawn: Random) -> List[Move]:
    game = games[int(drawn.random() * len(games))]
    one, other = (int(drawn.random() * SEATS) for _ in range(2))
    return [(game, one, game[other]), (game, other, game[one])]


def _unlike(counts: List[int]) -> int:
    """By how much more the commonest difference occurs than the rarest; many if 0 does."""
    return max(counts[1:], default=0) - min(counts[1:], default=0) + SAME * counts[0]


def _best(base: List[Game], counts: List[int], differences: Callable[[Game], List[int]],
          move: Callable[[List[Game], Random], List[Move]], drawn: Random) -> List[Game]:
    """The games of the best of some searches, which begin with these; `counts`, of how often each
    difference occurred before, gains theirs."""
    found = []
    for number in range(TRIES):
        games, tried = [list(game) for game in base], list(counts)

        def count(changed: Iterable[Game], sign: int, tried: List[int] = tried) -> int:
            """Counts games, or no more; gives what that costs."""
            cost = 0
            for game in changed:
                for difference in differences(game):
                    cost += 2 * sign * tried[difference] + 1 if difference else sign * SAME
                    tried[difference] += sign
            return cost

        count(games, 1)
        for step in range(STEPS):
            if _unlike(tried) <= 1:
                break
            moves = move(games, drawn)
            if moves:
                changed = [game for game in games if any(game is each for each, _, _ in moves)]
                before = [(game, seat, game[seat]) for game, seat, _ in moves]
                cost = count(changed, -1)
                _put(moves)
                cost += count(changed, 1)
                if cost > HEAT * (1 - step / STEPS) * drawn.random():
                    count(changed, -1)
                    _put(before)
                    count(changed, 1)
        found.append((_unlike(tried), number, games, tried))
        if len(counts) == 1 or _unlike(tried) <= 1:
            break
    _, _, games, counts[:] = min(found)
    return games


def _put(moves: List[Move]) -> None:
    for game, seat, agent in moves:
        game[seat] = agent

"""The covariates of a seat's score: its luck, its clients' nights, and the flights' first prices.

They are computed from the game file alone, so that no agent can change them. The luck is the worth
of the best trips of the seat's clients at fixed prices. A tournament uses it to show how much of a
mean is due to the clients that an agent happened to get. The tickets that a seat begins with are
not counted: among small agents, which hardly trade them, they foretold nothing of the scores.
"""

from dataclasses import dataclass
from statistics import fmean
from typing import List, Tuple

from geesefuton.records.games import FLIGHTS, PACKAGES, TICKETS, Client, Game

# Dollars a unit: about what small agents pay in games of 16 rooms.
SEAT, SHANTIES, TOWERS, TICKET = 350, 80, 120, 80
PRICES: Tuple[int, ...] = ((SEAT,) * len(FLIGHTS) + (SHANTIES,) * 4 + (TOWERS,) * 4
                           + (TICKET,) * len(TICKETS))
_COSTS = [sum(PRICES[good] for good in package.goods()) for package in PACKAGES]
# Their means over all made games: of `best_trip` over all premiums and values, for eight clients,
# of the ten trips that a client may want, and of the first prices from 250 to 400.
MEAN_LUCK, MEAN_NIGHTS, MEAN_FIRST_PRICE = 2153.43, 2.0, 325.0


@dataclass(frozen=True)
class Covariates:
    """What is told of a seat's draw."""

    luck: int  # what its clients are worth at fixed prices, in dollars
    nights: float  # how many nights they want to stay, in the mean
    first_price: float  # the mean of the eight flights' first prices, in dollars


def best_trip(client: Client) -> int:
    """What a client's best trip is worth less what it costs at the fixed prices, in dollars; 0
    where no trip is worth what it costs."""
    return max(0, *(client.worth(package) - cost for package, cost in zip(PACKAGES, _COSTS)))


def covariates_of(game: Game) -> List[Covariates]:
    """Those of each of the eight seats."""
    first_price = fmean(flight.first for flight in game.flights)
    return [Covariates(sum(map(best_trip, clients)),
                       fmean(len(client.nights()) for client in clients), first_price)
            for clients in game.clients]

"""Games made from seeds: those of `tac make`, by docs/FORMATS.md, "Generated games", and further
draws by which they are varied.

They are drawn in this process, since to start a process of `tac` takes longer than to draw a game.
Tests compare them with those of `tac make`.
"""

import hashlib
from typing import Iterator, List, Optional, Tuple

from geesefuton.records.games import (CLIENTS, DRAWS, FLIGHTS, HOTELS, ROOMS, SEATS, TICKETS,
                                      Client, Flight, Game, ticket)

MOST_SEED = 18446744073709551615
MULTIPLIER, INCREMENT = 6364136223846793005, 2 * 54 + 1  # of PCG32 with the stream 54
TRIPS = ((1, 2), (1, 3), (1, 4), (1, 5), (2, 3), (2, 4), (2, 5), (3, 4), (3, 5), (4, 5))
KINDS, SIDES = 3, ((1, 4), (2, 3))  # of tickets; the outer and the inner nights


def drawn_words(seed: int) -> Iterator[int]:
    """The words of 32 bits that are drawn for the game of a seed."""
    state = seed + INCREMENT
    while True:
        state = (state * MULTIPLIER + INCREMENT) % 2 ** 64
        word, turn = (state >> 18 ^ state) >> 27 & 0xffffffff, state >> 59
        yield (word >> turn | word << 32 - turn) & 0xffffffff


def made_game(seed: int) -> Game:
    """The game of `tac make` for a seed, 0 to 18446744073709551615."""
    words = drawn_words(seed)
    flights = tuple([Flight(250 + next(words) % 151, next(words) % 41 - 10,
                            tuple([next(words) for _ in range(DRAWS)])) for _ in FLIGHTS])
    closing = list(HOTELS)
    for place in range(len(HOTELS) - 1, 0, -1):
        other = next(words) % (place + 1)
        closing[place], closing[other] = closing[other], closing[place]
    endow = tuple([tuple([next(words) % 3 for _ in TICKETS]) for _ in range(SEATS)])
    clients = tuple([tuple([_drawn_client(words) for _ in range(CLIENTS)]) for _ in range(SEATS)])
    seats = tuple([f"seat{seat}" for seat in range(SEATS)])
    return Game(seats, flights, tuple(closing), endow, clients)


def _drawn_client(words: Iterator[int]) -> Client:
    arrive, depart = TRIPS[next(words) % len(TRIPS)]
    premium = 50 + next(words) % 101
    return Client(arrive, depart, premium, (next(words) % 201, next(words) % 201,
                                            next(words) % 201))


def varied(game: Game, seed: int, rooms: Optional[Tuple[int, int]], live: bool,
           is_clumped: bool) -> Game:
    """The made game of a seed with other rooms, quotes or tickets.

    Args:
        game: As `tac make` makes it.
        seed: Its seed.
        rooms: The least and the most rooms of a hotel night; None for 16.
        live: Whether each admitted bid publishes a hotel's price.
        is_clumped: Whether tickets are endowed as in the original game.
    """
    low, high = rooms or (ROOMS, ROOMS)
    if live or (low, high) != (ROOMS, ROOMS):
        game = game.with_rooms(drawn_rooms(seed, low, high), live)
    return game.with_endowments(classic_endowments(seed)) if is_clumped else game


def drawn_rooms(seed: int, low: int, high: int) -> List[int]:
    """How many rooms each of the eight nights has in the made game of a seed.

    The numbers are drawn by the texts `rooms SEED NIGHT`: the first eight bytes of SHA-256, modulo
    how many numbers there are.
    """
    digests = [_digest(f"rooms {seed} {night}") for night in range(len(HOTELS))]
    return [low + int.from_bytes(each[:8], "big") % (high - low + 1) for each in digests]


def classic_endowments(seed: int) -> List[List[int]]:
    """How many of each ticket, goods 16 to 27, the eight agents begin with in the made game of a
    seed, as in the original game, as remembered: docs/FORMATS.md, "Classic endowments".

    An agent has four tickets of one type for night 1 or 4 and two of another type for one of these
    nights, and the same for the nights 2 and 3. There are eight of each of the twelve tickets.
    """
    endowments = [[0] * len(TICKETS) for _ in range(SEATS)]
    for side, nights in enumerate(SIDES):
        for units, four, two in zip(endowments, *_clumps(f"tickets {seed} {side}")):
            for place, number in ((four, 4), (two, 2)):
                good = ticket(place % KINDS, nights[place // KINDS % 2])
                units[good - TICKETS.start] += number
    return endowments


def _clumps(text: str) -> Tuple[List[int], List[int]]:
    """For each agent the places of its four and of its two tickets of a side."""
    attempt = -1
    while True:
        attempt += 1
        # The eight tickets of each of six goods are two clumps of four; eight clumps stay whole.
        order = _shuffled(f"{text} {attempt} four", 2 * 2 * KINDS)
        fours, halved = order[:SEATS], order[SEATS:]
        twos = [halved[place // 2] for place in _shuffled(f"{text} {attempt} two", SEATS)]
        if all(four % KINDS != two % KINDS for four, two in zip(fours, twos)):
            return fours, twos


def _shuffled(text: str, number: int) -> List[int]:
    """The numbers from 0 to below this one, in the order of the digests of `TEXT N`."""
    return sorted(range(number), key=lambda each: _digest(f"{text} {each}"))


def _digest(text: str) -> bytes:
    """SHA-256 of a text, so that draws are the same anywhere."""
    return hashlib.sha256(text.encode()).digest()

"""Game files of both versions, and the numbers and names of auctions, clients and trips."""

from dataclasses import dataclass, replace
from functools import cached_property
from itertools import product
from typing import Iterator, List, NamedTuple, Optional, Sequence, Tuple

TICKS = 54
SEATS = 8
CLIENTS = 8
HOUSE = 8  # as a party of a trade; as a caller it is the clock
CLOCK = 8

INBOUND = range(0, 4)  # inbound seats on the days 1 to 4
OUTBOUND = range(4, 8)  # outbound seats on the days 2 to 5
FLIGHTS = range(0, 8)
HOTELS = range(8, 16)  # Shoreline Shanties, nights 1 to 4, and then Tampa Towers
TICKETS = range(16, 28)  # alligator wrestling, amusement park, museum, nights 1 to 4 of each
GOODS = range(0, 28)

ROOMS = 16  # of each hotel night in a game of version 1
MOST_ROOMS = 64
DRAWS = 53  # of a flight, one for each tick but the last
MOST_BYTES = 1 << 20  # of a game file

# The ranges of a line's numbers: those that say whose it is, and those behind them.
_FARES = [(range(good, good + 1), range(250, 401), range(-10, 31), *[range(1 << 32)] * DRAWS)
          for good in FLIGHTS]
_UNITS = [(range(agent, agent + 1), *[range(17)] * len(TICKETS)) for agent in range(SEATS)]
_WISHES = [[(range(agent, agent + 1), range(number, number + 1), range(1, 5), range(2, 6),
             range(50, 151), *[range(201)] * 3) for number in range(CLIENTS)]
           for agent in range(SEATS)]
# The lines of numbers.
_FLIGHT, _CLOSE, _ROOMS, _ENDOW, _CLIENT = (
    word + " %d" * count for word, count in (
        ("flight", 3 + DRAWS), ("close", len(HOTELS)), ("rooms", len(HOTELS)),
        ("endow", 1 + len(TICKETS)), ("client", 8)))


class Auction(NamedTuple):
    """One of the 28 auctions: its number, its group, its day or night, and its name."""

    number: int
    group: str
    day: int
    name: str


def _auctions() -> Iterator[Auction]:
    groups = (("Flights in", "in, day", 1), ("Flights out", "out, day", 2),
              ("Shoreline Shanties", "Shanties, night", 1), ("Tampa Towers", "Towers, night", 1),
              ("Alligator wrestling", "alligators, night", 1), ("Amusement park", "park, night", 1),
              ("Museum", "museum, night", 1))
    for place, (group, name, first) in enumerate(groups):
        for number in range(4):
            yield Auction(4 * place + number, group, first + number, f"{name} {first + number}")


AUCTIONS: Tuple[Auction, ...] = tuple(_auctions())


def name_of(good: int) -> str:
    """The name of an auction's good, such as `Towers, night 2`."""
    return AUCTIONS[good].name


def inbound(day: int) -> int:
    """The inbound seat on a day, 1 to 4."""
    return day - 1


def outbound(day: int) -> int:
    """The outbound seat on a day, 2 to 5."""
    return day + 2


def room(hotel: int, night: int) -> int:
    """A night, 1 to 4, of a hotel: 0 is Shoreline Shanties, 1 is Tampa Towers."""
    return 8 + 4 * hotel + night - 1


def ticket(kind: int, night: int) -> int:
    """A night, 1 to 4, of a ticket: 0 alligator wrestling, 1 amusement park, 2 museum."""
    return 16 + 4 * kind + night - 1


class TextError(Exception):
    """A text that has not the form that it should have.

    Attributes:
        line: The number of its first bad line, from 1; the line after the last if it ends early.
    """

    def __init__(self, line: int, why: str) -> None:
        super().__init__(f"line {line}: {why}")
        self.line = line


class GameError(TextError):
    """A text that is no game file."""


@dataclass(frozen=True)
class Package:
    """A trip: its hotel (0 or 1), its days, and the night of each ticket type, 0 for none."""

    hotel: int
    arrive: int
    depart: int
    nights: Tuple[int, int, int]

    def goods(self) -> List[int]:
        """The goods of which it uses one unit each."""
        stay = range(self.arrive, self.depart)
        return [inbound(self.arrive), outbound(self.depart),
                *(room(self.hotel, night) for night in stay),
                *(ticket(kind, night) for kind, night in enumerate(self.nights) if night)]


def _packages() -> Iterator[Package]:
    for hotel, arrive, depart in product(range(2), range(1, 5), range(2, 6)):
        stay = range(arrive, depart)
        for first, second, third in product([0, *stay], repeat=3):
            used = [night for night in (first, second, third) if night]
            if stay and len(used) == len(set(used)):
                yield Package(hotel, arrive, depart, (first, second, third))


PACKAGES: Tuple[Package, ...] = tuple(_packages())  # all 392, without staying at home


class Client(NamedTuple):
    """What a client wants: its days, its premium for Tampa Towers, and its values of the three
    ticket types, in dollars."""

    arrive: int
    depart: int
    premium: int
    values: Tuple[int, int, int]

    def nights(self) -> range:
        """The nights between its preferred days."""
        return range(self.arrive, self.depart)

    def worth(self, package: Optional[Package]) -> int:
        """What a trip is worth to it, in dollars; 0 for staying at home."""
        if package is None:
            return 0
        late = abs(package.arrive - self.arrive) + abs(package.depart - self.depart)
        tickets = sum(value for value, night in zip(self.values, package.nights) if night)
        return 1000 - 100 * late + self.premium * package.hotel + tickets


@dataclass(frozen=True)
class Flight:
    """A flight's first price in dollars, its bound, and the draws of the ticks 1 to 53."""

    first: int
    bound: int
    draws: Tuple[int, ...]


@dataclass(frozen=True)
class Hotel:
    """A hotel night: how many rooms it has, and the tick at which it closes."""

    rooms: int
    closes: int


@dataclass(frozen=True)
class Game:
    """What is fixed of a game before it begins."""

    words: Tuple[str, ...]  # the seat words of the eight agents
    flights: Tuple[Flight, ...]  # the flights 0 to 7
    closing: Tuple[int, ...]  # the hotel nights 8 to 15 in the order in which they close
    endow: Tuple[Tuple[int, ...], ...]  # for each agent its tickets of the goods 16 to 27
    clients: Tuple[Tuple[Client, ...], ...]  # for each agent its eight clients
    rooms: Tuple[int, ...] = (ROOMS,) * 8  # the rooms of the hotel nights 8 to 15
    live: bool = False  # whether each admitted bid publishes a hotel's price, too
    version: int = 1  # of its form: 1, or 2 where rooms and quotes can be set

    @cached_property
    def hotels(self) -> Tuple[Hotel, ...]:
        """The hotel nights 8 to 15."""
        return tuple(Hotel(rooms, 6 * (self.closing.index(good) + 1))
                     for good, rooms in zip(HOTELS, self.rooms))

    def named(self, words: Sequence[str]) -> "Game":
        """The same game with other seat words."""
        return replace(self, words=tuple(words))

    def with_rooms(self, rooms: Sequence[int], live: bool) -> "Game":
        """The same game in version 2 with these rooms and quotes."""
        return replace(self, rooms=tuple(rooms), live=live, version=2)

    def with_endowments(self, endowments: Sequence[Sequence[int]]) -> "Game":
        """The same game with other tickets at first."""
        return replace(self, endow=tuple(map(tuple, endowments)))

    def text(self) -> str:
        """Its canonical text."""
        lines = [f"tac {self.version}", "words " + " ".join(self.words)]
        lines += [_FLIGHT % (good, flight.first, flight.bound, *flight.draws)
                  for good, flight in enumerate(self.flights)]
        lines.append(_CLOSE % self.closing)
        if self.version == 2:
            lines += [_ROOMS % self.rooms, "quotes " + ("live" if self.live else "minute")]
        lines += [_ENDOW % (agent, *units) for agent, units in enumerate(self.endow)]
        lines += [_CLIENT % (agent, number, arrive, depart, premium, *values)
                  for agent, clients in enumerate(self.clients)
                  for number, (arrive, depart, premium, values) in enumerate(clients)]
        return "\n".join([*lines, "end", ""])


class _Lines:
    """The lines of a game file that count, with their numbers."""

    def __init__(self, text: str) -> None:
        lines = text.split("\n")
        self.last = len(lines)
        self.whole = lines[-1] == ""
        self.rest = [(number, line) for number, line in enumerate(lines[:-1], 1)
                     if line and not line.startswith("#")]
        self.place = 0
        self.number = 0

    def take(self, word: str, count: int) -> List[str]:
        """The further words of the next line, which has to begin with this word."""
        if self.place == len(self.rest):
            raise GameError(self.last, f"expected a line `{word}`, but the text ends")
        self.number, line = self.rest[self.place]
        self.place += 1
        first, *words = line.split(" ")
        if first != word:
            raise GameError(self.number, f"expected a line `{word}`, not {line[:40]!r}")
        if len(words) != count:
            raise GameError(self.number, f"expected {count} words after `{word}`, not {len(words)}")
        return words

    def numbers(self, word: str, ranges: Sequence[range]) -> List[int]:
        """The numbers of the next line, each in its range."""
        words = self.take(word, len(ranges))
        try:
            numbers = list(map(int, words))
        except ValueError:
            numbers = []
        if list(map(str, numbers)) == words and all(map(range.__contains__, ranges, numbers)):
            return numbers
        return [self._number(text, each[0], each[-1]) for text, each in zip(words, ranges)]

    def _number(self, text: str, low: int, high: int) -> int:
        plain = text[1:] if low < 0 and text.startswith("-") else text
        is_one = plain.isascii() and plain.isdigit() and (plain == "0" or plain[0] != "0")
        if not is_one or text == "-0" or len(plain) > 10:
            raise GameError(self.number, f"{text[:40]!r} is not a number in its canonical form")
        if not low <= int(text) <= high:
            raise GameError(self.number, f"{text} is not from {low} to {high}")
        return int(text)

    def different(self, items: Sequence[object]) -> None:
        """Refuses the line if two of its items are equal."""
        if len(set(items)) != len(items):
            raise GameError(self.number, "two of the words are equal")


def is_seat_word(word: str) -> bool:
    """Whether a word may be that of a seat: 1 to 16 of `a` to `z` and `0` to `9`."""
    letters = set("abcdefghijklmnopqrstuvwxyz0123456789")
    return 1 <= len(word) <= 16 and set(word) <= letters


def read_game(text: str) -> Game:
    """Reads the text of a game file, of version 1 or 2, in the form that `tac` accepts. Raises
    GameError where the text is no game file; the error names its first bad line."""
    if len(text) > MOST_BYTES:
        raise GameError(1, f"more than {MOST_BYTES:,} bytes: this is not a game file")
    lines = _Lines(text)
    version = lines.take("tac", 1)[0]
    if version not in ("1", "2"):
        raise GameError(lines.number, f"version {version[:20]!r} is neither 1 nor 2")
    words = lines.take("words", 8)
    for word in words:
        if not is_seat_word(word):
            raise GameError(lines.number, f"{word[:40]!r} is not a seat word")
    lines.different(words)
    flights = [Flight(first, bound, tuple(draws)) for _, first, bound, *draws in (
        lines.numbers("flight", ranges) for ranges in _FARES)]
    closing = lines.numbers("close", [HOTELS] * 8)
    lines.different(closing)
    rooms, live = [ROOMS] * 8, False
    if version == "2":
        rooms = lines.numbers("rooms", [range(1, MOST_ROOMS + 1)] * 8)
        quotes = lines.take("quotes", 1)[0]
        if quotes not in ("minute", "live"):
            raise GameError(lines.number, f"expected `minute` or `live`, not {quotes[:20]!r}")
        live = quotes == "live"
    endow = [lines.numbers("endow", ranges)[1:] for ranges in _UNITS]
    clients = [[_read_client(lines, ranges) for ranges in wishes] for wishes in _WISHES]
    lines.take("end", 0)
    if lines.place < len(lines.rest):
        raise GameError(lines.rest[lines.place][0], "a line follows `end`")
    if not lines.whole:
        raise GameError(lines.last, "the last line has no line end")
    return Game(tuple(words), tuple(flights), tuple(closing), tuple(map(tuple, endow)),
                tuple(map(tuple, clients)), tuple(rooms), live, int(version))


def _read_client(lines: _Lines, ranges: Sequence[range]) -> Client:
    _, _, arrive, depart, premium, first, second, third = lines.numbers("client", ranges)
    if depart <= arrive:
        raise GameError(lines.number, f"the departure {depart} is not after the arrival {arrive}")
    return Client(arrive, depart, premium, (first, second, third))


def welcome(text: str, agent: int) -> bytes:
    """The ten lines that an agent is sent first, by the canonical text of the game file."""
    # It has the tickets of all agents before the clients.
    own = [line for line in text.split("\n")
           if line.startswith((f"endow {agent} ", f"client {agent} "))]
    return "\n".join([f"welcome {agent}", *own, ""]).encode("ascii")

"""Every pair of a seat's state and of what comes."""

import unittest
from typing import Callable, Dict, List, Sequence, Tuple

from geesefuton.hosting.events import End
from geesefuton.hosting.seats import PROBED, Action, Close, Give, Over, Refuse, Seat, Seats, State
from geesefuton.link import KEEPALIVE

FREE, WAIVED, HELD, CLOSING = State.FREE, State.WAIVED, State.HELD, State.CLOSING
CLAIMED, OVER = State.CLAIMED, State.OVER
HOLDER, HEIR, OTHER = 1, 2, 3
SILENCE = 10.0
SOON, LATE = 105.0, 110.0  # seconds; the holder spoke at 100

Outcome = Tuple[State, List[Action]]
STAYS: List[Action] = []


def seat_in(state: State, playing: bool) -> Seat:
    """A seat in a state, whose holder spoke at 100."""
    seat = Seat(4, "violet", SILENCE, state, heard=100.0, claimed=100.0, played=playing,
                playing=playing)
    if state in (HELD, CLOSING, CLAIMED):
        seat.holder = HOLDER
    if state is CLAIMED:
        seat.heir = HEIR
    return seat


COMES: Dict[str, Callable[[Seat], List[Action]]] = {
    "come soon": lambda seat: seat.come(OTHER, SOON),
    "come late": lambda seat: seat.come(OTHER, LATE),
    "speak": lambda seat: seat.speak(SOON),
    "stop": lambda seat: seat.stop(SOON),
    "holder goes": lambda seat: seat.go(HOLDER, SOON),
    "heir goes": lambda seat: seat.go(HEIR, SOON),
    "other goes": lambda seat: seat.go(OTHER, SOON),
    "wait short": lambda seat: seat.wait(SOON),
    "wait long": lambda seat: seat.wait(LATE),
    "waive": lambda seat: seat.waive(),
    "begin": lambda seat: seat.begin(SOON),
    "leave": lambda seat: seat.leave(),
    "release": lambda seat: seat.release(),
    "finish": lambda seat: seat.finish(),
}

LEFT: Outcome = (OVER, [Over(End.LEFT)])
ABSENT: Outcome = (OVER, [Over(End.ABSENT)])
HUNG: Outcome = (OVER, [Close(HOLDER), Over(End.HUNG)])
TAKEN: Outcome = (HELD, [Give(OTHER, False)])
REPLACED: Outcome = (HELD, [Close(HOLDER), Give(OTHER, False)])
REFUSED: Outcome = (CLAIMED, [Refuse(OTHER)])
TABLE: Dict[State, Dict[str, Outcome]] = {
    FREE: {"come soon": TAKEN, "come late": TAKEN, "waive": (WAIVED, []), "leave": LEFT,
           "release": ABSENT, "finish": ABSENT},
    WAIVED: {"come soon": TAKEN, "come late": TAKEN, "begin": ABSENT, "leave": LEFT,
             "finish": ABSENT},
    HELD: {"come soon": (CLAIMED, []), "come late": (CLAIMED, []), "stop": (CLOSING, []),
           "holder goes": (FREE, []), "leave": LEFT, "finish": HUNG},
    CLOSING: {"come soon": REPLACED, "come late": REPLACED, "holder goes": (FREE, []),
              "leave": LEFT, "finish": HUNG},
    CLAIMED: {"come soon": REFUSED, "come late": REFUSED, "speak": (HELD, [Refuse(HEIR)]),
              "stop": (HELD, [Close(HOLDER), Give(HEIR, False)]),
              "holder goes": (HELD, [Give(HEIR, False)]), "heir goes": (HELD, []),
              "leave": (OVER, [Refuse(HEIR), Over(End.LEFT)]),
              "finish": (OVER, [Refuse(HEIR), *HUNG[1]])},
    OVER: {"come soon": (OVER, [Refuse(OTHER)]), "come late": (OVER, [Refuse(OTHER)])},
}
# What is otherwise in the game; besides, each agent has had its seat before.
IN_THE_GAME: Dict[State, Dict[str, Outcome]] = {
    FREE: {"waive": ABSENT}, HELD: {"come late": REPLACED},
    CLAIMED: {"wait long": (HELD, [Close(HOLDER), Give(HEIR, False)])}}


def again(action: Action) -> Action:
    """An action about an agent that has had its seat before."""
    if isinstance(action, Give):
        return Give(action.link, True)
    return Over(End.GONE) if action == Over(End.ABSENT) else action


class Pairs(unittest.TestCase):
    """What is not in the tables changes nothing."""

    def check(self, seat: Seat, comes: str, due: Outcome) -> None:
        with self.subTest(state=seat.state.name, comes=comes, playing=seat.playing):
            actions = COMES[comes](seat)
            self.assertEqual((seat.state, actions), due)

    def test_before_the_game(self) -> None:
        for state, row in TABLE.items():
            for comes in COMES:
                self.check(seat_in(state, False), comes, row.get(comes, (state, STAYS)))

    def test_in_the_game(self) -> None:
        for state, row in TABLE.items():
            for comes in {*COMES} - {"begin"}:  # a game begins once
                then, actions = {**row, **IN_THE_GAME.get(state, {})}.get(comes, (state, STAYS))
                if state is not WAIVED:
                    self.check(seat_in(state, True), comes, (then, list(map(again, actions))))


Steps = Sequence[Tuple[str, Sequence[float], List[Action]]]  # calls of a seat, and their actions
TAKES_OVER: List[Action] = [Close(HOLDER), Give(OTHER, True)]
# What comes to a seat whose holder spoke at 100, in the game.
IN_TURN: Dict[str, Steps] = {
    "heard counts from the last word": [
        ("speak", [SOON], []), ("come", [OTHER, LATE], []), ("wait", [SOON + SILENCE - 0.1], []),
        ("wait", [SOON + SILENCE], TAKES_OVER)],
    "silence counts anew for a new link, and the old one that ends later changes nothing": [
        ("come", [OTHER, LATE], TAKES_OVER), ("go", [HOLDER, LATE], []),
        ("come", [4, LATE + SILENCE - 0.1], []),
        ("wait", [LATE + SILENCE], [Close(OTHER), Give(4, True)])],
    "after the last tick an agent leaves for good": [
        ("release", [], []), ("go", [HOLDER, LATE], [Over(End.LEFT)]),
        ("come", [OTHER, LATE], [Refuse(OTHER)])],
    "a link that stays after quit frees nothing": [
        ("leave", [], [Over(End.LEFT)]), ("go", [HOLDER, LATE], []), ("leave", [], []),
        ("come", [OTHER, LATE], [Refuse(OTHER)])],
}
# And to a new seat, before the game.
FROM_THE_BEGINNING: Dict[str, Steps] = {
    "a late agent comes for the first time": [
        ("begin", [SOON], []), ("come", [OTHER, LATE], [Give(OTHER, False)]),
        ("go", [OTHER, LATE], []), ("come", [4, LATE], [Give(4, True)])],
    "silence does not count before the game": [
        ("come", [HOLDER, SOON], [Give(HOLDER, False)]), ("begin", [SOON + 9 * SILENCE], []),
        ("come", [OTHER, SOON + 10 * SILENCE - 0.1], []), ("go", [OTHER, LATE], []),
        ("go", [HOLDER, LATE], [])],
    "who is here when the game begins has played": [
        ("come", [HOLDER, SOON], [Give(HOLDER, False)]), ("begin", [SOON], []),
        ("go", [HOLDER, SOON], []), ("come", [OTHER, LATE], [Give(OTHER, True)]),
        ("go", [OTHER, LATE], []), ("release", [], [Over(End.GONE)])],
    "before the game a link that is gone gives way, and one that is live does not": [
        ("come", [HOLDER, 0.0], [Give(HOLDER, False)]), ("come", [HEIR, LATE], []),
        ("wait", [LATE + PROBED - 0.1], []),
        ("go", [HOLDER, LATE + PROBED - 0.1], [Give(HEIR, False)]), ("come", [OTHER, 2 * LATE], []),
        ("wait", [2 * LATE + PROBED], [Refuse(OTHER)]), ("go", [HEIR, 2 * LATE + PROBED], [])],
    "one that waits when the game begins waits by the rules of the game": [
        ("come", [HOLDER, 0.0], [Give(HOLDER, False)]), ("come", [HEIR, LATE], []),
        ("begin", [LATE + PROBED - 1], []), ("wait", [LATE + PROBED + 1], []),
        ("wait", [LATE + PROBED - 1 + SILENCE], [Close(HOLDER), Give(HEIR, True)])],
    "who never came is absent": [
        ("come", [HOLDER, SOON], [Give(HOLDER, False)]), ("go", [HOLDER, SOON], []),
        ("begin", [SOON], []), ("release", [], [Over(End.ABSENT)])],
}


class Seating(unittest.TestCase):
    def check(self, name: str, seat: Seat, steps: Steps) -> None:
        for number, (call, given, due) in enumerate(steps):
            with self.subTest(name=name, step=number, call=call):
                self.assertEqual(getattr(seat, call)(*given) or [], due)

    def test_what_comes_one_after_the_other(self) -> None:
        for name, steps in IN_TURN.items():
            self.check(name, seat_in(HELD, playing=True), steps)
        for name, steps in FROM_THE_BEGINNING.items():
            self.check(name, Seat(0, "red", SILENCE), steps)
        for seat, silence in ((Seat(0, "red"), 10), (Seats(["red"]).seats[0], 10),
                              (Seats(["red"], 3.0).seats[0], 3)):
            self.check(f"a link gives way after {silence} seconds", seat, [
                ("come", [HOLDER, SOON], [Give(HOLDER, False)]), ("begin", [SOON], []),
                ("come", [OTHER, SOON], []), ("wait", [SOON + silence - 0.1], []),
                ("wait", [SOON + silence], TAKES_OVER)])
        # A link that is gone has ended before its heir is refused.
        idle, between, probes = KEEPALIVE.values()
        self.assertLess(idle + between * probes, PROBED)

    def test_first_lines(self) -> None:
        seats = Seats([f"seat{number}" for number in range(8)])
        for line, answer in ((b"hello seat3", ""), (b"hello seat8", "wrongword"),
                             (b"hello  seat3", "syntax"), (b"hello seat3\r", "syntax"),
                             (b"hello Seat3", "syntax"), (b"", "syntax"), (b"hello ", "syntax"),
                             (b"hello " + b"a" * 17, "syntax"), (b"bid 1 ((1 1))", "syntax"),
                             (b"hello seat\xb3", "syntax"), (b"hello seat3 ", "syntax")):
            with self.subTest(line=line):
                seat, refusal = seats.admit(line)
                self.assertEqual(refusal, answer)
                self.assertEqual(seat is not None and seat.number, 3 if not answer else False)
        words = ["a", "0", "z9" * 8, *"bcdef"]  # of 1 to 16 bytes
        seats = Seats(words)
        self.assertEqual([(seat.number, seat.word) for seat in seats.seats],
                         list(enumerate(words)))
        for seat in seats.seats:
            self.assertEqual(seats.admit(f"hello {seat.word}".encode()), (seat, ""))

    def test_missing(self) -> None:
        seats = Seats(["red", "blue", *"cdefgh"])
        seats.seats[0].come(HOLDER, SOON)
        seats.seats[1].waive()
        self.assertEqual(seats.missing(), list("cdefgh"))
        seats.seats[0].go(HOLDER, SOON)
        self.assertEqual(seats.missing(), ["red", *"cdefgh"])

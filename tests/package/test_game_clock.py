import unittest

from geesefuton.playing.game_clock import GameClock


def begun(pace: float, closed: int = 0, is_start: bool = True) -> GameClock:
    """A clock of a seat that came at 100 seconds, as so many hotels had closed."""
    clock = GameClock(pace)
    clock.begin(100.0, closed, is_start)
    return clock


class GameClocks(unittest.TestCase):
    def test_a_told_pace_from_the_start(self) -> None:
        clock = begun(2.0)
        self.assertTrue(clock.is_exact)
        self.assertEqual(clock.now(101.9), (100.0, 0))
        self.assertEqual(clock.now(102.5), (102.0, 1))
        clock.move(102.4)
        clock.move(106.3)  # a tick between was not seen
        self.assertEqual((clock.tick, clock.pace), (3, 2.0))
        self.assertEqual(clock.now(107.0), (106.0, 3))
        clock = begun(2.0)
        self.assertEqual(clock.now(105.0).tick, 1)
        clock.move(102.1)  # one that is late is not counted twice
        self.assertEqual(clock.now(110.0).tick, 2)
        clock.move(600.0)
        self.assertEqual(clock.now(610.0).tick, 54)

    def test_a_seat_that_comes_in_the_game_waits_for_a_closing(self) -> None:
        clock = begun(2.0, 2, False)
        self.assertEqual((clock.tick, clock.is_exact, clock.now(101.0).tick), (12, False, 12))
        clock.move(101.0)
        clock.move(103.1)
        self.assertEqual((clock.tick, clock.is_exact), (14, False))
        clock.move(105.0)
        clock.close(105.0, 3)
        self.assertEqual((clock.tick, clock.is_exact), (18, True))
        self.assertEqual(clock.now(106.0), (105.0, 18))
        clock.close(117.0, 4)
        self.assertEqual(clock.tick, 24)
        clock = begun(1.0, 0, False)
        clock.close(100.5, 1)  # as the first thing that is seen
        self.assertEqual(clock.now(100.6), (100.5, 6))

"""What the tests of PettingZoo and Gymnasium ask of an environment, as their documents have it, and
these tests themselves where the libraries are installed; games in steps in numbers, and the spaces
of games in steps, with stand-ins for `gymnasium` and `numpy`."""

import importlib.util
import pickle
import unittest
from importlib import import_module
from typing import Any, Callable, Dict, List
from unittest import mock

from geesefuton.learning.environment import Environment
from tests.package.fake_gymnasium import REGISTERED, NumericCase
from tests.package.helpers import needs_program

HAS_GYMNASIUM = importlib.util.find_spec("gymnasium") is not None
HAS_PETTINGZOO = importlib.util.find_spec("pettingzoo") is not None


@needs_program
class Written(NumericCase):
    def parallel(self, environment: Any, steps: int = 130) -> None:
        """The calls of `parallel_api_test`."""
        self.addCleanup(environment.close)
        self.assertEqual(len(set(environment.possible_agents)), environment.max_num_agents)
        self.assertIsInstance(str(environment), str)
        for _ in range(2):
            observations, infos = environment.reset(seed=0, options={"options": 1})
            self.assertEqual(set(environment.agents), set(environment.possible_agents))
            left = set(environment.agents)
            for _ in range(steps):
                for agent in environment.possible_agents:
                    self.assertIs(environment.observation_space(agent),
                                  environment.observation_space(agent))
                    self.assertIs(environment.action_space(agent), environment.action_space(agent))
                actions = {agent: environment.action_space(agent).sample()
                           for agent in environment.agents}
                told = environment.step(actions)
                for each in told:
                    self.assertIsInstance(each, dict)
                    self.assertEqual(set(each), left)
                observations, _, terminations, truncations, infos = told
                for agent in left:
                    self.assertIn(observations[agent], environment.observation_space(agent))
                left = {agent for agent in left if not (terminations[agent] or truncations[agent])}
                self.assertEqual(set(environment.agents), left)
                self.assertEqual(environment.num_agents, len(left))
                if not left:
                    break
            self.assertFalse(environment.agents)

    def seeded(self, make: Callable[[], Any]) -> None:
        """The calls of `parallel_seed_test`: what follows from a seed is the same again."""
        runs = []
        for _ in range(2):
            environment = make()
            self.addCleanup(environment.close)
            told = [environment.reset(seed=42)]
            for agent in environment.possible_agents:
                environment.action_space(agent).seed(7)
            for _ in range(20):
                told.append(environment.step({agent: environment.action_space(agent).sample()
                                              for agent in environment.agents}))
            runs.append(told)
        self.assertEqual(runs[0], runs[1])

    def test_the_calls_of_the_parallel_test(self) -> None:
        self.parallel(Environment(rivals={"seat2": "planner"}))
        self.parallel(self.numeric.Seats(rounds=2, rivals={"seat2": "watcher"}))

    def test_the_calls_of_the_seed_test(self) -> None:
        self.seeded(Environment)
        self.seeded(lambda: self.numeric.Seats(rivals={"seat2": "trader"}))

    def test_the_calls_of_the_check_of_an_environment(self) -> None:
        seat = self.made("Seat")
        first, info = seat.reset(seed=123, options={})
        self.assertIsInstance(info, dict)
        self.assertEqual(first, seat.reset(seed=123)[0])
        self.assertIn(first, seat.observation_space)
        observation, reward, end, is_broken, info = seat.step(seat.action_space.sample())
        self.assertIn(observation, seat.observation_space)
        self.assertIsInstance(reward, (int, float))
        self.assertEqual((type(end), type(is_broken), type(info)), (bool, bool, dict))
        self.assertIn("render_modes", seat.metadata)
        self.assertIsInstance(seat.render(), str)


@needs_program
class Installed(unittest.TestCase):
    @unittest.skipUnless(HAS_PETTINGZOO, "PettingZoo is not installed")
    def test_the_tests_of_pettingzoo(self) -> None:
        tests = import_module("pettingzoo.test")
        tests.parallel_api_test(Environment(), num_cycles=130)
        tests.parallel_seed_test(Environment, num_cycles=20)

    @unittest.skipUnless(HAS_GYMNASIUM, "Gymnasium is not installed")
    def test_the_check_of_gymnasium(self) -> None:
        checker = import_module("gymnasium.utils.env_checker")
        checker.check_env(import_module("geesefuton.learning.numeric").Seat())


OBSERVATION = {"tick": 54, "round": 2, "quotes": ((0, 10_001, True),) * 28,
               "holdings": (-3,) * 16 + (16,) * 12, "cash": -4000,
               "clients": ((1, 2, 50, 0, 0, 0),) * 7 + ((4, 5, 150, 200, 200, 200),)}
CLIENTS = ((2, 4, 60, 10, 20, 90),) * 8


def seen(**more: Any) -> Dict[str, Any]:
    """What an agent sees before the first tick of a game."""
    quotes = [(0, 300, False)] * 8 + [(0, 40, False)] * 8 + [(30, 0, False)] * 12
    return {"tick": 0, "round": 0, "quotes": quotes, "holdings": (0,) * 28, "cash": 0,
            "clients": CLIENTS, **more}


class Views(NumericCase):
    def test_an_observation_is_in_its_space(self) -> None:
        view = self.numeric.View(seen())
        observation = view.observation()
        self.assertEqual(len(observation), self.numeric.SIZE)
        self.assertEqual(view.promised, 8 * (1000 + 60 - 600 - 80))
        self.assertEqual(list(observation[1:9]), [300 / 500] * 8)
        far = self.numeric.View(seen(cash=10 ** 9, holdings=(-10 ** 6,) * 28))
        for each in (observation, far.observation()):
            self.assertIn(each, self.numeric.observation_space())

    def asked(self, levels: Dict[int, int], **more: Any) -> List[str]:
        action = [levels.get(good, 0) for good in range(28)]
        self.assertIn(action, self.numeric.action_space())
        asked: List[str] = self.numeric.View(seen(**more)).requests(action)
        return asked

    def test_levels_are_bids(self) -> None:
        self.assertEqual(self.asked({}), [])
        self.assertEqual(self.asked({1: 1, 6: 5, 0: 3}), ["bid 1 ((8 350))", "bid 6 ((8 350))"])
        self.assertEqual(self.asked({13: 1, 14: 5, 8: 5}), ["bid 13 ((8 41))", "bid 14 ((8 240))"])
        self.assertEqual(self.asked({16: 3, 27: 4}), ["bid 16 ((1 80))", "bid 27 ((-1 60))"])

    def test_only_what_lacks_is_bought_and_nothing_where_it_is_closed(self) -> None:
        held = [0] * 28
        held[1] = 6
        self.assertEqual(self.asked({1: 1}, holdings=held), ["bid 1 ((2 350))"])
        quotes = seen()["quotes"]
        quotes[13] = (0, 40, True)
        self.assertEqual(self.asked({13: 2}, quotes=quotes), [])

    def test_what_is_no_action_is_told(self) -> None:
        view = self.numeric.View(seen())
        for action in ([0] * 27, [6] + [0] * 27, [-1] + [0] * 27):
            self.assertRaisesRegex(ValueError, "expected 28 levels", view.requests, action)


@needs_program
class Games(NumericCase):
    def test_the_rewards_of_a_game_are_its_score_less_what_was_promised(self) -> None:
        seat = self.made("Seat", "seat3", rivals={"seat0": "planner"})
        observation, info = seat.reset(seed=5)
        promised, total, end, steps = observation[106] * 5000, 0.0, False, 0
        while not end:
            action = [1] * 8 + [3 if steps % 6 == 0 else 0] * 8 + [0] * 12
            observation, reward, end, is_broken, info = seat.step(action)
            self.assertIn(observation, seat.observation_space)
            self.assertFalse(is_broken)
            total, steps = total + reward, steps + 1
        self.assertEqual(steps, 54)
        self.assertAlmostEqual(total * 1000, info["score"] - promised, places=3)

    def test_all_seats_learn_at_once(self) -> None:
        seats = self.made("Seats", rounds=2)
        observations, _ = seats.reset(7)
        self.assertEqual(list(observations), seats.possible_agents)
        steps = 0
        while seats.agents:
            actions = {agent: seats.action_space(agent).sample() for agent in seats.agents}
            observations, rewards, *_ = seats.step(actions)
            steps += 1
        self.assertEqual((steps, len(rewards)), (108, 8))

    def test_an_agent_that_is_not_there_is_told(self) -> None:
        seats = self.made("Seats", rivals={"seat1": "watcher"})
        seats.reset(7)
        for agent in ("seat9", "seat1"):
            with self.assertRaisesRegex(ValueError, f"there is no agent '{agent}'"):
                seats.step({agent: [0] * 28})
        self.assertEqual(seats.step({})[0]["seat0"][0], 1 / 54)

    def test_a_seat_makes_no_view_of_another(self) -> None:
        seat = self.made("Seat", "seat2")
        self.assertRaisesRegex(ValueError, "no game has begun", seat.step, [0] * 28)
        with mock.patch.object(self.numeric, "chosen", wraps=self.numeric.chosen) as chosen:
            seat.reset(seed=5)
            seat.step([0] * 28)
        self.assertEqual(chosen.call_count, 2)

    def test_gymnasium_makes_a_seat_by_its_name(self) -> None:
        self.assertEqual(REGISTERED, {"geesefuton/Seat-v2": "geesefuton.learning.numeric:Seat"})

    def test_a_seat_of_a_rival_is_not_free(self) -> None:
        self.assertRaisesRegex(ValueError, "'seat1' must be a seat without a rival",
                               self.numeric.Seat, "seat1", rivals={"seat1": "planner"})


class Spaces(NumericCase):
    def test_an_observation_is_in_its_space(self) -> None:
        space = self.spaces.observation_space(3)
        self.assertIn(OBSERVATION, space)
        for key, value in (("tick", 55), ("tick", -1), ("tick", "3"), ("round", 3),
                           ("quotes", [(0, 0, True)] * 27), ("quotes", [(0, 10_002, True)] * 28),
                           ("quotes", [(0, 1)] * 28), ("holdings", (0,) * 27), ("cash", 0.5),
                           ("clients", ((1, 2, 50, 0, 0, 0),) * 7),
                           ("clients", ((1, 2, 50, 0, 0, 201),) * 8)):
            with self.subTest(key=key, value=value):
                self.assertNotIn({**OBSERVATION, key: value}, space)
        self.assertNotIn({"tick": 3}, space)

    def test_observations_are_numbers_alone_which_can_be_put_into_one_array(self) -> None:
        parts = self.spaces.observation_space(3).spaces
        self.assertEqual({type(part).__mro__[1].__name__ for part in parts.values()}, {"Box"})
        self.assertEqual({key: part.shape for key, part in parts.items()}, {
            "tick": (), "round": (), "quotes": (28, 3), "holdings": (28,), "cash": (),
            "clients": (8, 6)})

    def test_an_action_is_in_its_space(self) -> None:
        space = self.spaces.action_space()
        for action in ([], ["own 8", "bid 8 ((1 50))"], ("cash",), [""]):
            self.assertIn(action, space)
        for wrong in ("own 8", ["own 8\n"], [8], None, ["x" * 513]):
            self.assertNotIn(wrong, space)

    def test_spaces_are_pickled(self) -> None:
        for space in (self.spaces.observation_space(1), self.spaces.action_space()):
            copy = pickle.loads(pickle.dumps(space))
            self.assertEqual(type(copy), type(space))
        self.assertIn(["own 8"], copy)

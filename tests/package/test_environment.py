import copy
import pickle
import random
import sys
import tempfile
from pathlib import Path
from typing import Any, Dict, List, Optional
from unittest import mock

from geesefuton import program
from geesefuton.learning.environment import ActionError, Environment
from geesefuton.learning.rivals import SeatLink, maker_of, scores_of
from geesefuton.program import ProgramError
from geesefuton.records.drawing import classic_endowments, drawn_rooms, made_game
from geesefuton.records.games import FLIGHTS, TICKS, Game, GameError, read_game
from geesefuton.records.logs import read_scores
from geesefuton.records.order import first_seat, order_of_turn
from geesefuton.records.rules import prices_of
from tests.package import fake_gymnasium
from tests.package.cases import Case
from tests.package.helpers import SERVED_GAME, TOP, needs_program

FIRST = TOP / "examples" / "first.game"  # of version 1
FEW_ROOMS = TOP / "examples" / "few_rooms.game"  # of version 2, with live quotes
Actions = Dict[str, List[str]]


def played(environment: Environment) -> bytes:
    """The log of `tac play` for the game and the script of an environment."""
    with tempfile.NamedTemporaryFile() as game, tempfile.NamedTemporaryFile() as script:
        Path(game.name).write_text(environment.game)
        Path(script.name).write_bytes(environment.script.encode())
        text = program.play(game.name, script.name)
    return text[text.index("taclog 1\n"):].encode()


def random_actions(source: random.Random, agents: List[str], most: int = 3) -> Actions:
    """Requests of all kinds, good and bad ones, at most so many of an agent."""
    def request() -> str:
        good, units = source.randrange(30), source.choice([-2, -1, 1, 2, 20])
        return source.choice([f"bid {good} (({units} {source.randrange(1, 400)}))", f"own {good}",
                              f"withdraw {good}", f"quote {good}", "cash", "nonsense", "x" * 600])

    return {agent: [request() for _ in range(source.randrange(most + 1))]
            for agent in source.sample(agents, source.randrange(len(agents) + 1))}


def rest(environment: Environment) -> "tuple[Any, ...]":
    """What the last step of a game returns in which nobody asks anything more."""
    told: "tuple[Any, ...]" = ()
    while environment.agents:
        told = environment.step({})
    return told


def hindsight(told: Any) -> Dict[str, int]:
    """The scores in what a step returns, if nobody asked anything more."""
    return {agent: info["hindsight"] for agent, info in told[-1].items()}


class Begun(Case):
    def begun(self, *game: Path, seed: Optional[int] = None, **settings: Any) -> Environment:
        """An environment whose game has begun, and which is closed at the test's end."""
        environment: Environment = self.enter(Environment(*game, **settings))
        environment.reset(seed)
        return environment


class Arguments(Case):
    def test_bad_arguments_are_told(self) -> None:
        bad: List[Dict[str, Any]] = [
            {"render_mode": "human"}, {"rooms": (0, 3)}, {"rooms": (4, 3)}, {"rooms": (3, 65)},
            {"rooms": "3..6"}, {"rooms": 3}, {"rooms": (1.5, 3)}, {"rooms": (1, 2, 3)},
            {"game": FEW_ROOMS, "live": True}, {"game": FIRST, "rooms": (3, 6)},
            {"endow": "clumped"}, {"game": FIRST, "endow": "classic"},
            {"rounds": 0}, {"rounds": 1001}, {"rounds": 1.5}, {"rivals": {"seat8": "planner"}},
            {"rivals": {"seat0": "nobody"}}, {"rivals": {f"seat{n}": "planner" for n in range(8)}}]
        for more in bad:
            with self.subTest(more=more):
                self.assertRaises(ValueError, Environment, **more)
        for mode in (None, "ansi"):
            self.assertEqual(Environment(render_mode=mode).render_mode, mode)
        for rooms in ((1, 64), [4, 4]):
            Environment(rooms=rooms, live=True)
        self.assertRaises(FileNotFoundError, Environment, "there/is/none")
        self.assertRaises(GameError, Environment, TOP / "README.md")

    def test_shipped_agents_need_no_clone_but_their_folder(self) -> None:
        with mock.patch.object(program, "top", return_value=None):  # as in an unpacked archive
            Environment(rivals={"seat1": "baseline"}).close()
        missing = mock.Mock(side_effect=ProgramError("the folder of examples is missing"))
        with mock.patch.object(program, "examples", missing):
            with self.assertRaisesRegex(ValueError, "folder of examples is missing"):
                Environment(rivals={"seat1": "baseline"})

    def test_without_a_game_nobody_plays(self) -> None:
        environment: Any = Environment()
        self.assertEqual((environment.agents, environment.num_agents, environment.max_num_agents),
                         ([], 0, 8))
        for seed in (-1, 1 << 64, "7", 1.5):  # told before anything changes
            self.assertRaises(ValueError, environment.reset, seed)
        self.assertIsNone(environment.seed)
        self.assertEqual(environment.possible_agents, [f"seat{seat}" for seat in range(8)])
        self.assertRaisesRegex(ActionError, "no game has begun", environment.step, {})
        self.assertEqual((environment.log, environment.script, environment.game), (None, "", ""))
        self.assertEqual(environment.render(), "tick 0 of 54\n")
        self.assertIs(environment.unwrapped, environment)
        self.assertEqual(environment.metadata, {
            "name": "geesefuton_v4", "render_modes": ["ansi"], "is_parallelizable": True})
        environment.close()

    def test_a_program_that_fails_ends_the_game(self) -> None:
        for body in ("read -r line; exit 7\n", "read -r line; echo text 1 1; exit 8\n"):
            self.use_program(body)
            with Environment(FIRST) as environment:
                environment.reset()
                self.assertEqual(environment.num_agents, 8)
                agent = environment.agents[0]
                self.assertRaises(ProgramError, environment.step, {agent: ["own 8"]})
                self.assertEqual(environment.agents, [])
                self.assertRaisesRegex(ActionError, "no game has begun", environment.step, {})
        self.set(TAC="/nowhere/tac")
        self.assertRaises(ProgramError, Environment(FIRST).reset)
        environment = Environment()
        self.assertRaises(ProgramError, environment.reset)
        self.assertIsNone(environment.seed)

    def test_a_game_that_is_played_cannot_be_pickled(self) -> None:
        self.use_program("read -r line\n")
        with Environment(FIRST) as environment:
            self.assertEqual(pickle.loads(pickle.dumps(environment)).possible_agents,
                             environment.possible_agents)
            environment.reset()
            self.assertRaisesRegex(TypeError, "cannot be copied or pickled", pickle.dumps,
                                   environment)
            self.assertEqual(environment.num_agents, 8)

    def test_games_without_seeds_differ_between_workers(self) -> None:
        game = made_game(1)
        for firsts in ([None] * 8, list(range(8))):
            workers, seen = [Environment() for _ in range(8)], []
            with mock.patch("geesefuton.learning.environment.Market"), \
                    mock.patch("geesefuton.learning.environment.made_game", return_value=game):
                for number in range(50):
                    for first, worker in zip(firsts, workers):
                        worker.reset(first if number == 0 else None)
                        seen.append(worker.seed)
            self.assertEqual(len(set(seen)), 400)

    def test_spaces_are_the_same_at_each_call(self) -> None:
        with fake_gymnasium.installed():
            environment = Environment(FIRST)
            agent = environment.possible_agents[3]
            self.assertIs(environment.action_space(agent), environment.action_space(agent))
            self.assertIs(environment.observation_space(agent),
                          environment.observation_spaces[agent])
            self.assertIsNot(environment.action_space(agent),
                             environment.action_space(environment.possible_agents[4]))
            self.assertEqual(list(environment.action_spaces), environment.possible_agents)
            self.assertRaises(KeyError, environment.action_space, "nobody")

    def test_without_gymnasium_there_are_no_spaces(self) -> None:
        with mock.patch.dict(sys.modules, {"gymnasium": None, "numpy": None}):
            sys.modules.pop("geesefuton.learning.spaces", None)
            environment = Environment(FIRST)
            self.assertRaises(ModuleNotFoundError, environment.action_space,
                              environment.possible_agents[0])


@needs_program
class Steps(Case):
    def setUp(self) -> None:
        super().setUp()
        self.game: Game = read_game(FIRST.read_text())
        self.environment = self.enter(Environment(FIRST))
        self.observations, self.infos = self.environment.reset()
        self.agents = list(self.environment.agents)

    def test_each_agent_knows_its_tickets_and_clients(self) -> None:
        self.assertEqual(self.agents, list(self.game.words))
        for seat, agent in enumerate(self.agents):
            clients = [(client.arrive, client.depart, client.premium, *client.values)
                       for client in self.game.clients[seat]]
            self.assertEqual(self.infos[agent], {"endow": list(self.game.endow[seat]),
                                                 "clients": tuple(clients)})
            seen = self.observations[agent]
            self.assertEqual((seen["clients"], seen["cash"]), (tuple(clients), 0))
            self.assertEqual(seen["holdings"], (0,) * 16 + self.game.endow[seat])

    def test_what_all_agents_see_cannot_be_changed(self) -> None:
        observations, *_ = self.environment.step({})
        for seen in (self.observations[self.agents[0]], observations[self.agents[0]]):
            self.assertEqual({key: type(value) for key, value in seen.items()}, {
                "tick": int, "round": int, "quotes": tuple, "holdings": tuple, "cash": int,
                "clients": tuple})
            self.assertEqual({type(board) for board in seen["quotes"]}, {tuple})

    def test_requests_are_answered_to_those_who_asked(self) -> None:
        second, fifth = self.agents[2], self.agents[5]
        price = self.game.flights[3].first
        observations, rewards, ends, breaks, infos = self.environment.step({
            fifth: [f"bid 3 ((2 {price}))", "own 3"], second: ["own 3", "bid 99 ((1 1))", "what"]})
        replies = {**dict.fromkeys(self.agents, []), fifth: ["@1 taken 2 0", "@2 own 2 ()"],
                   second: ["@0 own 0 ()", "no auction", "no syntax"]}
        self.assertEqual(infos, {agent: {"replies": told} for agent, told in replies.items()})
        self.assertEqual(observations[fifth]["holdings"][3], 2)
        for told, value in ((rewards, 0), (ends, False), (breaks, False)):
            self.assertEqual(told, dict.fromkeys(self.agents, value))
        lines = ["2 own 3", "2 bid 99 ((1 1))", "2 what", f"5 bid 3 ((2 {price}))", "5 own 3",
                 "tick", ""]
        self.assertEqual(self.environment.script.split("\n"), lines)

    def test_the_scores_are_the_rewards_of_the_last_step(self) -> None:
        # A seat alone is no trip, so the agent has lost its price; nobody else did anything.
        buyer, price = self.agents[1], self.game.flights[0].first
        self.environment.step({buyer: ["bid 0 ((1 800))"]})
        observations, rewards, ends, breaks, infos = rest(self.environment)
        self.assertEqual(rewards, {**dict.fromkeys(self.agents, 0), buyer: -price})
        self.assertEqual(ends, dict.fromkeys(self.agents, True))
        self.assertEqual(breaks, dict.fromkeys(self.agents, False))
        self.assertEqual(observations[buyer]["tick"], TICKS)
        self.assertEqual([closed for _, _, closed in observations[buyer]["quotes"]], [True] * 28)
        self.assertEqual(self.environment.agents, [])
        self.assertRaisesRegex(ActionError, "no game has begun", self.environment.step, {})
        assert self.environment.log is not None
        game = self.write("game", self.environment.game)
        self.assertEqual(program.audit(game, self.environment.log), "sound")

    def test_bad_actions_change_nothing(self) -> None:
        agent, environment = self.agents[0], self.environment
        first: Any = [f"bid 0 ((1 {self.game.flights[0].first}))"]
        bad: List[Any] = [
            {agent: first, "nobody": []}, {agent: first, 1: []}, {agent: "own 8"}, {agent: 7},
            {agent: None}, {agent: [*first, "own 8\n"]},
            {agent: [*first, "own 8\nquit"]}, {agent: [*first, 8]}, {agent: [*first, b"own 8"]},
            {agent: [*first, "\ud800"]}, [first], None, "own 8", {agent: ["own 8"] * 65_537},
            {agent: ["own 8"] * 65_500 + ["y" * 600] * 37}]
        for actions in bad:
            with self.subTest(actions=repr(actions)[:60]):
                self.assertRaises(ActionError, environment.step, actions)
                self.assertEqual((environment.tick, environment.script), (0, ""))
        *_, infos = environment.step({agent: ["own 0", *first]})
        self.assertEqual(infos[agent]["replies"], ["@0 own 0 ()", "@1 taken 1 0"])

    def test_bytes_of_a_script_have_an_end(self) -> None:
        lines = ["y" * 512] * 65_000
        for agent in self.agents[:2]:
            self.environment.step({agent: lines})  # 33 MB each
        self.assertRaisesRegex(ActionError, "at most", self.environment.step,
                               {self.agents[2]: ["y" * 512] * 1000})
        self.environment.step({self.agents[2]: ["own 8"]})

    def test_overlong_requests_are_answered_as_over_a_link(self) -> None:
        agent, replies = self.agents[4], {
            "own 8": "@0 own 0 ()", "x" * 512: "no syntax", "x" * 513: "no toolong",
            "ü" * 256: "no syntax", "ü" * 257: "no toolong", "own 8\r": "no syntax",
            "quit": "no syntax", "": "no syntax", "cash": "@0 cash 0"}
        *_, infos = self.environment.step({agent: list(replies)})
        self.assertEqual(infos[agent]["replies"], list(replies.values()))
        rest(self.environment)
        self.assertEqual(self.environment.log, played(self.environment))

    def test_an_agent_has_all_lines_of_a_session(self) -> None:
        agent, left = self.agents[0], 65_536
        *_, infos = self.environment.step({agent: ["quit "] * left})
        self.assertEqual(infos[agent]["replies"], ["no syntax"] * left)
        self.assertRaisesRegex(ActionError, "more than 65536", self.environment.step,
                               {agent: ["own 8"]})
        rest(self.environment)
        self.assertEqual(self.environment.log, played(self.environment))

    def test_the_boards_are_shown_as_text(self) -> None:
        lines = self.environment.render().split("\n")
        prices = [flight.first for flight in self.game.flights]
        self.assertEqual((lines[0], len(lines), lines[-1]), ("tick 0 of 54", 9, ""))
        self.assertEqual(" ".join(lines[1].split()), "Flights in " + " ".join(
            f"day {day} {price}" for day, price in enumerate(prices[:4], 1)))
        self.environment.step({self.agents[0]: ["bid 16 ((-1 60))"],
                               self.agents[1]: ["bid 16 ((1 50))"]})
        self.assertIn("night 1 50/60", self.environment.render())
        rest(self.environment)
        self.assertEqual(self.environment.render().count(" x"), 28)


@needs_program
class Games(Begun):
    def test_games_by_random_actions_have_the_logs_of_play(self) -> None:
        source = random.Random(54)
        with fake_gymnasium.installed(), Environment() as environment, \
                Environment(FEW_ROOMS, rounds=2) as file, \
                Environment(rooms=(1, 4), live=True) as live:
            for number in range(10):
                each = (environment, file, live)[number % 3]
                observations, _ = each.reset(number)
                agents = list(each.agents)
                while each.agents:
                    for agent in agents:
                        self.assertIn(observations[agent], each.observation_space(agent))
                    actions = random_actions(source, agents)
                    observations, *_, infos = each.step(actions)
                    self.assertEqual({agent: len(infos[agent]["replies"]) for agent in agents},
                                     {agent: len(actions.get(agent, [])) for agent in agents})
                self.assertEqual(each.log, played(each))

    def test_what_agents_see_is_what_they_would_be_answered(self) -> None:
        source = random.Random(7)
        reading = [*(f"quote {good}" for good in range(28)), *(f"own {good}" for good in range(28)),
                   "cash"]
        with Environment(FEW_ROOMS, rounds=2) as environment, \
                Environment(rooms=(1, 3), live=True, rounds=3) as live:
            for each in (environment, live, live):
                seen, _ = each.reset()
                while each.agents:
                    agents = list(each.agents)
                    if each.round:
                        seen, *_ = each.step(random_actions(source, agents, most=12))
                        continue
                    told, *_, infos = each.step(dict.fromkeys(agents, reading))
                    for agent in agents:
                        words = [reply.split() for reply in infos[agent]["replies"]]
                        self.assertEqual({
                            "quotes": tuple((int(bid), int(ask), state == "closed")
                                            for _, _, bid, ask, state in words[:28]),
                            "holdings": tuple(int(word[2]) for word in words[28:56]),
                            "cash": int(words[56][2])},
                            {key: seen[agent][key] for key in ("quotes", "holdings", "cash")})
                    seen = told
                assert each.log is not None
                self.assertGreater(each.log.count(b"\ntrade "), 20)

    def test_games_follow_from_their_seeds(self) -> None:
        runs = []
        for _ in range(2):
            with Environment() as environment:
                seeds = []
                for seed in (7, None, (1 << 64) - 1, None, None, 7, None):
                    environment.reset(seed)
                    self.assertIn(seed, (None, environment.seed))
                    self.assertEqual(environment.game, program.make(environment.seed or 0))
                    seeds.append(environment.seed)
                runs.append(seeds)
        self.assertEqual(runs[0], runs[1])
        self.assertEqual(runs[0][:2], runs[0][5:])
        self.assertEqual(len(set(runs[0])), 5)

    def test_made_games_may_have_other_rooms_quotes_and_tickets(self) -> None:
        made = read_game(program.make(9))
        few = made.with_rooms(drawn_rooms(9, 3, 6), False)
        for settings, due in (
                ({"rooms": (3, 6)}, few), ({"live": True}, made.with_rooms([16] * 8, True)),
                ({"rooms": (2, 2), "live": True}, made.with_rooms([2] * 8, True)),
                ({"rooms": (3, 6), "endow": "classic"},
                 few.with_endowments(classic_endowments(9)))):
            with self.subTest(settings=settings), Environment(**settings) as environment:
                _, infos = environment.reset(9)
                self.assertEqual(read_game(environment.game), due)
                self.assertEqual([tuple(infos[agent]["endow"]) for agent in environment.agents],
                                 list(due.endow))

    def test_a_seed_that_comes_again_is_not_made_again(self) -> None:
        with Environment() as environment, \
                mock.patch("geesefuton.learning.environment.made_game", wraps=made_game) as made:
            texts = []
            for seed in (3, 3, 4, 3):
                environment.reset(seed)
                texts.append(environment.game)
        self.assertEqual([call.args for call in made.call_args_list], [(3,), (4,), (3,)])
        self.assertEqual(texts, [texts[0], texts[0], texts[2], texts[0]])
        self.assertNotEqual(texts[0], texts[2])

    def test_a_file_is_played_each_time(self) -> None:
        with Environment(SERVED_GAME) as environment:
            for seed in (3, None):
                environment.reset(seed)
                self.assertEqual((environment.game, environment.seed, environment.tick),
                                 (read_game(SERVED_GAME.read_text()).text(), None, 0))
                environment.step({})

    def test_scores_so_far_are_those_if_nobody_asked_more(self) -> None:
        environment = self.begun(FIRST, hindsight=True)
        agents = list(environment.agents)
        price = read_game(FIRST.read_text()).flights[0].first
        # The seller is short of the tickets that it sold beyond its own, 200 dollars each.
        short = 16 - read_game(FIRST.read_text()).endow[4][0]
        told = environment.step({agents[0]: ["bid 0 ((1 800))"], agents[4]: ["bid 16 ((-16 30))"],
                                 agents[5]: ["bid 16 ((16 30))"]})
        scores = {**dict.fromkeys(agents, 0), agents[0]: -price,
                  agents[4]: 16 * 30 - 200 * short, agents[5]: -16 * 30}
        self.assertEqual(hindsight(told), scores)
        with mock.patch("geesefuton.learning.market.solve", side_effect=AssertionError):
            told = environment.step({agents[4]: ["own 16", "cash", "quote 0", "what"]})
        self.assertEqual(hindsight(told), scores)
        # Two rooms at 7 dollars or less, of 16: they cost nothing.
        told = environment.step({agents[6]: ["bid 15 ((2 7))"]})
        self.assertEqual(hindsight(told), scores)
        last = rest(environment)
        self.assertEqual((hindsight(last), last[1]), (scores, scores))
        self.assertEqual(environment.log, played(environment))

    def test_a_bid_that_is_taken_back_is_no_longer_in_the_scores(self) -> None:
        game = read_game(FIRST.read_text())
        good, least = min(((good, min(prices_of(game.flights[good]))) for good in FLIGHTS),
                          key=lambda flight: flight[1] - game.flights[flight[0]].first)
        self.assertLess(least, game.flights[good].first)
        environment = self.begun(FIRST, hindsight=True)
        agents = list(environment.agents)
        # The bid waits until the price has fallen so far, and a seat alone is no trip.
        for request, reply, score in ((f"bid {good} ((1 {least}))", "@0 taken 0 0", -least),
                                      (f"withdraw {good}", "@2 done", 0)):
            told = environment.step({agents[3]: [request]})
            self.assertEqual(told[-1][agents[3]]["replies"], [reply])
            self.assertEqual(hindsight(told), {**dict.fromkeys(agents, 0), agents[3]: score})

    def test_a_game_has_no_scores_of_the_one_before(self) -> None:
        with Environment(FIRST, hindsight=True) as environment:
            for is_played_on in (False, True):
                environment.reset()
                agents = list(environment.agents)
                told = environment.step({agents[0]: ["bid 0 ((1 800))"]})
                self.assertLess(hindsight(told)[agents[0]], 0)
                if is_played_on:
                    rest(environment)
                environment.reset()
                self.assertEqual(hindsight(environment.step({})), dict.fromkeys(agents, 0))

    def test_a_game_that_is_closed_can_be_begun_again(self) -> None:
        environment = self.begun(seed=1)
        for _ in range(2):
            environment.close()
        self.assertEqual(environment.agents, [])
        self.assertRaises(ActionError, environment.step, {})
        environment.reset(2)
        self.assertEqual((environment.seed, environment.num_agents), (2, 8))

    def test_no_seat_gains_by_its_place(self) -> None:
        environment = self.begun(FIRST)
        while environment.agents:
            environment.step(dict.fromkeys(reversed(environment.agents), ["cash"]))
        ticks = environment.script.split("tick\n")[:TICKS]
        orders = [[int(line[0]) for line in each.splitlines()] for each in ticks]
        first = first_seat(environment.game)
        self.assertEqual(orders, [order_of_turn(tick, 0, first) for tick in range(TICKS)])

    def test_several_rounds_pass_before_a_tick(self) -> None:
        environment = self.begun(FIRST, rounds=3)
        agent, seen = environment.agents[0], []
        for _ in range(7):
            told, *_ = environment.step({agent: ["cash"]})
            seen.append((told[agent]["tick"], told[agent]["round"]))
        self.assertEqual(seen, [(0, 1), (0, 2), (1, 0), (1, 1), (1, 2), (2, 0), (2, 1)])
        self.assertEqual(environment.script, 2 * ("0 cash\n" * 3 + "tick\n") + "0 cash\n")
        rest(environment)
        self.assertEqual(environment.log, played(environment))


class Bidder:
    """A rival that draws what it bids."""

    def __init__(self, link: SeatLink) -> None:
        self.link, self.acted = link, 0

    def act(self) -> bool:
        self.acted += 1
        self.link.bid(8, (1, self.link.source.randrange(1, 400)))
        self.link.ask("quit")
        return self.acted < 20


class Silent(Bidder):
    """A rival that does not say whether it goes on."""

    def act(self) -> None:  # type: ignore[override]
        super().act()


@needs_program
class Rivals(Begun):
    def play(self, environment: Environment, seed: int) -> Environment:
        environment.reset(seed)
        rest(environment)
        return environment

    def test_shipped_agents_play_at_their_seats(self) -> None:
        rivals: Any = {"seat1": "baseline", "seat4": "planner", "seat5": "trader",
                       "seat7": "watcher"}
        with Environment(rivals=rivals) as environment:
            self.assertEqual(environment.possible_agents, ["seat0", "seat2", "seat3", "seat6"])
            observations, _ = environment.reset(3)
            self.assertEqual(list(observations), environment.possible_agents)
            self.assertRaisesRegex(ActionError, "no agent 'seat1'", environment.step,
                                   {"seat1": ["cash"]})
            _, rewards, *_ = rest(environment)
            self.assertEqual(rewards, dict.fromkeys(environment.possible_agents, 0))
            assert environment.log is not None
            scores = [row.score for row in read_scores(environment.log)]
            self.assertEqual(scores[7], 0)
            self.assertTrue(all(scores[seat] > 1000 for seat in (1, 4, 5)), scores)
            first = environment.script
            self.assertEqual(self.play(environment, 3).script, first)
            self.assertNotEqual(self.play(environment, 4).script, first)

    def test_any_class_that_acts_is_a_rival(self) -> None:
        with Environment(rivals={"seat3": Bidder}) as environment:
            first = self.play(environment, 6).script
            self.assertEqual(first.count("3 bid 8 "), 20)
            self.assertNotIn("quit", first)
            self.assertEqual(self.play(environment, 6).script, first)
            self.assertEqual(environment.log, played(environment))
            pickle.loads(pickle.dumps(environment)).close()

    def test_only_false_ends_a_rival(self) -> None:
        with Environment(rivals={"seat3": Silent}) as environment:
            self.assertEqual(self.play(environment, 6).script.count("3 bid 8 "), TICKS)

    def test_games_of_rivals_alone_have_scores(self) -> None:
        game = read_game(program.make(1))
        makers = {seat: maker_of("planner") for seat in range(8)}
        scores = scores_of(game, makers, 1)
        self.assertEqual((len(scores), scores), (8, scores_of(game, makers, 2)))
        self.assertEqual(scores_of(game, {}, 1), [0] * 8)


@needs_program
class Clones(Begun):
    def test_a_clone_goes_on_by_itself(self) -> None:
        source = random.Random(3)
        environment = self.begun(seed=9, rounds=2, hindsight=True, rivals={"seat3": Bidder})
        agents = list(environment.agents)
        for _ in range(31):
            environment.step(random_actions(source, agents))
        other = self.enter(environment.clone())
        self.assertEqual((other.tick, other.round, other.script, other.agents),
                         (15, 1, environment.script, agents))
        self.assertRaises(TypeError, pickle.dumps, other)
        for _ in range(54 * 2 - 31):
            actions = random_actions(source, agents)
            self.assertEqual(environment.step(actions), other.step(actions))
        self.assertEqual(environment.log, other.log)

    def test_each_of_two_copies_has_its_own_script(self) -> None:
        environment = self.begun(FIRST)
        agent, games = environment.agents[0], [environment]
        environment.step({agent: ["cash"]})
        for make in (Environment.clone, copy.copy, copy.deepcopy):
            games.append(self.enter(make(environment)))
        for good, game in enumerate(games):
            game.step({agent: [f"bid {good} ((1 800))"]})
        for good, game in enumerate(games):
            game.step({agent: ["cash"]})
            self.assertEqual(game.script,
                             f"0 cash\ntick\n0 bid {good} ((1 800))\ntick\n0 cash\ntick\n")
            rest(game)
            self.assertEqual(game.log, played(game))

    def test_a_clone_that_ends_leaves_the_game_alone(self) -> None:
        environment = self.begun(FIRST)
        other = environment.clone()
        other.step({other.agents[0]: ["bid 8 ((1 50))"]})
        other.close()
        *_, told = environment.step({environment.agents[0]: ["own 8"]})
        self.assertEqual(told[environment.agents[0]]["replies"], ["@0 own 0 ()"])

    def test_a_forked_process_begins_a_game_of_its_own(self) -> None:
        environment = self.begun(seed=5)
        agent = environment.agents[0]

        def play() -> None:
            environment.reset(6)
            rest(environment)

        self.in_a_fork(play)
        *_, told = environment.step({agent: ["own 8"]})
        self.assertEqual(told[agent]["replies"], ["@0 own 0 ()"])
        rest(environment)

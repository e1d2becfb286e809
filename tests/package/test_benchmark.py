"""The benchmark: its lists and what it writes, with a stand-in for the games."""

import hashlib
import json
import os
from typing import Any, Dict, List, Tuple

from geesefuton.experiments.plan import Plan
from geesefuton.experiments.results import Outcome, Row
from tests.package.run_cases import PlaceCase
from tests.package.helpers import TOP, in_process

REFERENCES = ["baseline", "equilibrium", "scenarios", "planner", "trader", "starter"]


class Benchmarks(PlaceCase):
    def setUp(self) -> None:
        super().setUp()
        self.mine = self.write("own/mine.py", "")
        self.plans: List[Plan] = []
        self.use_program()
        self.patch("experiments.benchmark.play_in_folder", self.play)

    def play(self, parser: object, plan: Plan) -> Tuple[int, List[Row], List[str]]:
        """Each agent has 100 dollars less than the one before it, in each deal some more."""
        self.plans.append(plan)
        plan.out.mkdir()
        rows = []
        for deal in range(1, plan.games // plan.rotations + 1):
            for rotation in range(plan.rotations):
                name = plan.entrants[rotation].name
                score = 4000 - 100 * rotation + 10 * deal * (rotation + 1)
                rows += [Row(f"d{deal}", rotation, seat, name if seat == 3 else "planner (pool)",
                             score if seat == 3 else 0, Outcome.PLAYED, 0, number=deal)
                         for seat in range(8)]
        return 0, rows, []

    def run_list(self, *words: object) -> Tuple[int, Dict[str, Any], bytes]:
        """The status, what is printed, and the file."""
        out, printed = self.folder / f"out{len(self.plans)}", self.folder / "printed"
        status, _ = in_process("experiments.benchmark", "--out", out, *words, printed=printed)
        data = (out / "benchmark.json").read_bytes()
        self.printed = printed.read_text()
        return status, json.loads(data), data

    def test_what_is_played_and_told(self) -> None:
        status, told, _ = self.run_list("classic", self.mine)
        self.assertEqual(status, 0)
        plan = self.plans[0]
        self.assertEqual([entrant.name for entrant in plan.entrants[:7]], ["mine", *REFERENCES])
        self.assertEqual(sorted(entrant.name for entrant in plan.entrants[7:]), [
            *["baseline (pool)"] * 3, *["planner (pool)"] * 2, *["trader (pool)"] * 2])
        self.assertEqual((plan.games, plan.rotations, plan.turns, plan.limits), (224, 7, 20, None))
        self.assertTrue(plan.rule.is_clumped)
        file = TOP / "examples" / "benchmarks" / "classic.json"
        self.assertEqual((told["benchmark"], told["deals"], told["sha256"]),
                         ("classic", 32, hashlib.sha256(file.read_bytes()).hexdigest()))
        self.assertEqual([each["agent"] for each in told["agents"]],
                         [*REFERENCES[::-1], "mine"])  # 4000 - 100 r + 165 (r + 1), by rotations
        self.assertEqual([each["score"]["mean"] for each in told["agents"]],
                         [4555.0, 4490.0, 4425.0, 4360.0, 4295.0, 4230.0, 4165.0])
        # Less the starter, -390 in the mean: 600 less 60 for each deal from 1 to 32, whose standard
        # deviation is 60 sqrt(88), so the half is 2.0395 * 60 sqrt(88 / 32).
        less = told["agents"][0]["less"]
        self.assertEqual((less["mean"], less["count"]), (-390.0, 32))
        self.assertAlmostEqual(less["half"], 202.93, places=1)
        self.assertIsNone(told["agents"][-1]["less"])
        self.assertRegex(self.printed, "1. +starter +4555 .- 237 +-390 .- 203 +0.000")

    def test_two_fresh_folders_have_the_same_file(self) -> None:
        first, second = (self.run_list("scarce", self.mine)[2] for _ in range(2))
        self.assertEqual(first, second)
        rule = self.plans[0].rule
        self.assertEqual((rule.rooms, rule.live, rule.is_clumped), ((3, 6), True, False))
        self.assertEqual(self.plans[0].games, 224)

    def test_a_reference_agent_is_played_once(self) -> None:
        file = os.path.relpath(TOP / "examples" / "agents" / "planner.py")
        _, told, _ = self.run_list("classic", file)
        self.assertEqual(sorted(each["agent"] for each in told["agents"]), sorted(REFERENCES))

    def test_another_agent_with_the_name_of_a_reference_agent(self) -> None:
        other = self.write("own/planner.py", "")
        self.assert_refused("a reference agent has this name", "benchmark", "classic", other,
                            "--out", self.folder / "x")
        self.assertFalse((self.folder / "x").exists())

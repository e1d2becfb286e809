"""The agents and the scripts of examples/, as they stand there."""

import importlib.util
import re
import sys
import unittest
from typing import List
from unittest import mock

from tests.package.helpers import TOP, completed, needs_program, python
from tests.package.test_link import WELCOME, Server

EXAMPLES = TOP / "examples"


class Agents(unittest.TestCase):
    def test_a_lost_link_ends_each_with_a_line(self) -> None:
        for name in ("watcher", "planner", "trader", "baseline", "equilibrium", "scenarios"):
            with self.subTest(name=name):
                server = Server([WELCOME])
                done = completed(sys.executable, EXAMPLES / "agents" / f"{name}.py", "127.0.0.1",
                                 server.port, "red", "--pause", 0)
                server.join()
                self.assertEqual((done.returncode, done.stdout, done.stderr),
                                 (1, "", "red: the link was closed\n"))

    def test_who_plans_buys_only_the_seats_that_are_lacking(self) -> None:
        with mock.patch.object(sys, "path", [str(EXAMPLES / "agents"), *sys.path]):
            planner = importlib.import_module("planner")
        link = mock.Mock(own={0: 0, 1: 3, 5: 1, 6: 2}.__getitem__)
        planner.buy_seats(link, {0: 2, 1: 2, 5: 3, 6: 2, 8: 4})
        self.assertEqual(link.bid.mock_calls, [mock.call(0, (2, 600)), mock.call(5, (2, 600))])

    def test_each_script_of_bench_tells_its_help(self) -> None:
        for file in sorted((TOP / "bench").glob("*.py")):
            if "__main__" in file.read_text("utf-8"):
                with self.subTest(file=file.name):
                    self.assertEqual(completed(sys.executable, file, "--help").returncode, 0)


class Scripts(unittest.TestCase):
    def ran(self, name: str, *words: str) -> List[str]:
        """The lines that an example prints."""
        done = completed(sys.executable, EXAMPLES / name, *words, check=True)
        return str(done.stdout).splitlines()

    @needs_program
    def test_the_small_game_ends_with_the_score_that_was_told(self) -> None:
        found = re.findall("(?m)^its score is (-?[0-9]+)", "\n".join(self.ran("step.py")))
        self.assertGreater(len(found), 2)
        self.assertEqual(found[-1], found[-2])

    def check_learner(self, seeds: str, end: str, name: str, *words: str) -> None:
        """A learner draws from its seed alone."""
        first, again, *others = (self.ran(name, *words, "--games", "1", "--unseen", "2", "--seed",
                                          seed) for seed in seeds)
        self.assertEqual(first, again)
        self.assertNotIn(first[0], [each[0] for each in others])
        self.assertRegex(first[-1], f"^2 unseen games: -?[0-9]+ dollars a game{end}")

    @needs_program
    def test_the_learner(self) -> None:
        self.check_learner("556", " more", "learner.py", "--rounds", "1", "--rules", "3")

    @unittest.skipUnless(importlib.util.find_spec("numpy"), "numpy is not installed")
    @needs_program
    def test_the_learner_in_numbers(self) -> None:
        self.check_learner("55", ", the", "learn_numeric.py")

    def test_the_learner_in_numbers_tells_in_a_line_that_it_needs_it(self) -> None:
        # An entry of None in sys.modules stands for a module that is not there.
        code = ("import runpy, sys; sys.modules['numpy'] = None; sys.path.insert(0, sys.argv[1]); "
                "runpy.run_path(sys.argv[1] + '/learn_numeric.py', run_name='__main__')")
        done = completed(*python(code, EXAMPLES))
        self.assertEqual((done.returncode, done.stdout, done.stderr.count("\n")), (1, "", 1))
        self.assertTrue(done.stderr.startswith("learn_numeric.py: it needs numpy"), done.stderr)

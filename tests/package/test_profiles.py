import functools
import json
import os
import pickle
import signal
import sys
from collections import Counter
from pathlib import Path
from typing import Dict, List, Set, Tuple
from unittest import mock

from geesefuton.experiments.comparisons import missing_libraries
from geesefuton.experiments.results import Outcome, Result
from geesefuton.experiments.runs import games_of, read_scores
from geesefuton.processes import Stopped
from tests.package.run_cases import PlaceCase, files_of
from tests.package.helpers import SERVED_GAME, in_process, needs_study, worker

if not missing_libraries("these tests"):
    from geesefuton.experiments import equilibria

# A stand-in for the process of a game of two strategies, whose words begin with `dove` and `hawk`:
# a hawk has 0 for each other hawk and 7 for each dove, a dove 2 for a hawk and 6 for a dove, and
# each deal another 10 more. It writes which game it plays. It gives its result as bytes: in the one
# of `played`, `crashed` or `lost` it changes the scores.
WORKER = worker("""
with open(os.path.join(os.environ["PLACE"], "begun"), "a") as begun:
    begun.write(name + "\\n")
words = job.split(b"\\nwords ", 1)[1].split(b"\\n", 1)[0].split()
hawks = [word.startswith(b"hawk") for word in words]
result = "crashed" if name == os.environ.get("CRASH") else "played"
result = "lost" if name == os.environ.get("LOSE") else result
text = open(os.path.join(os.environ["PLACE"], result), "rb").read()
for seat, hawk in enumerate(hawks):
    others = sum(hawks) - hawk
    score = 10 * int(name.split(".")[0]) + (7 * (7 - others) if hawk else 42 - 4 * others)
    text = text.replace(b"I%d\\n" % (9000 + seat), b"I%d\\n" % score)
give(text)
""")
WORDS = ["--games", "3", "--seed", "1", "--files", "*.py", "--out", "study", "--no-apart"]


@needs_study
class Commands(PlaceCase):
    """The command with a stand-in for games and for the program."""

    def setUp(self) -> None:
        super().setUp()
        for name in ("dove.py", "hawk.py", "owl.py"):
            self.write(name, "pass\n")
        scores = tuple(range(9000, 9008))
        for name, result in (("played", Result(scores, (Outcome.PLAYED,) * 8)),
                             ("crashed", Result(scores, (Outcome.CRASHED,) * 8)),
                             ("lost", Result(fault="why"))):
            (self.folder / name).write_bytes(pickle.dumps(result, 0))
        price = '$((250 + $(echo "$2" | cut -c1-2)))'  # another one for each deal
        self.tac = self.use_program(f'sed "s/^flight 0 [0-9]*/flight 0 {price}/" {SERVED_GAME}')
        self.out = self.folder / "study"
        self.set(PLACE=str(self.folder))
        self.addCleanup(os.chdir, os.getcwd())
        os.chdir(self.folder)

    def run_profiles(self, *words: str, status: int = 0, out: str = "printed",
                     agents: Tuple[str, ...] = ("dove.py", "hawk.py"), **more: str
                     ) -> Tuple[str, str]:
        """Runs it on three deals; gives what it prints and tells."""
        find = functools.partial(equilibria.find, resamples=20)
        with mock.patch.dict(os.environ, more), \
                mock.patch("geesefuton.experiments.tournament.PLAYER",
                           [sys.executable, "-c", WORKER]), \
                mock.patch("geesefuton.experiments.profile_study.find", find):
            got, told = in_process("experiments.profiles", *agents, *WORDS, "--at-once", "3",
                                   *words, printed=out)
        self.assertEqual(got, status, told)
        printed = self.folder / "printed"
        text = printed.read_text() if printed.exists() else ""
        printed.unlink(missing_ok=True)
        return text, told

    def begun(self) -> List[str]:
        return (self.folder / "begun").read_text().split()

    def refused(self, told: str, *words: str, agents: Tuple[str, ...] = ("dove.py", "hawk.py"),
                status: int = 2) -> None:
        """It is refused in one line, and no file changes."""
        before = files_of(self.out)
        self.assert_refused(told, "profiles", *agents, *WORDS, *words, status=status)
        self.assertEqual(before, files_of(self.out))

    def test_a_study_of_two_strategies(self) -> None:
        text, told = self.run_profiles("--players", "8")
        games = {f"{deal}.{profile}" for deal in (1, 2, 3) for profile in range(9)}
        self.assertEqual((set(self.begun()), len(self.begun())), (games, 27))
        rows = read_scores(self.out).rows
        for row in rows:  # profile p has p hawks
            hawks = sum(other.game == row.game and other.agent == "hawk" for other in rows)
            self.assertEqual(hawks, row.rotation)
        # Among hawks with a share of x a dove has 7 (6 - 4 x), a hawk 49 (1 - x): x is 1/3.
        self.assertIn("3 deals of 9 profiles, the full game", text)
        self.assertRegex(text, r"\n1\. +0\.667 +0\.333 +20 of 20\n")
        # Over the deals a payoff is 20 +- 10 more than one deal's, 24.8 by 4.30 times 5.77.
        self.assertRegex(text, r"\n8\+0 +62 \+- 25 +-\n7\+1 +58 \+- 25 +69 \+- 25\n")
        self.assertIn("Other deals would most likely give the same equilibria.", text)
        self.assertEqual(len((self.out / "payoffs.csv").read_text().split("\n")),
                         1 + 3 * (2 * 9 - 2) + 1)

    def test_seats_move_on_by_deals_and_profiles_differ_in_few(self) -> None:
        self.run_profiles("--players", "2")
        seats: Dict[Tuple[int, int], Set[int]] = {}
        for row in read_scores(self.out).rows:
            seats.setdefault(row.place, set())
            if row.agent == "hawk":
                seats[row.place].add(row.seat)
        for deal in (1, 2, 3):  # no hawk, one, all but one, all
            self.assertTrue(seats[deal, 0] < seats[deal, 1] < seats[deal, 2] < seats[deal, 3])
        self.assertEqual(len({frozenset(seats[deal, 1]) for deal in (1, 2, 3)}), 3)

    def test_it_goes_on_where_it_was_stopped(self) -> None:
        text, told = self.run_profiles(status=1, LOSE="2.1")
        self.assertIn("profiles: 1 deal left out: not every profile was scored", told)
        self.assertIn("2 deals of 4 profiles, reduced to 2 players", text)
        scores = self.out / "scores.csv"
        scores.write_text(scores.read_text()[:-5])  # the last row is half written
        before = self.begun()
        joined, told = self.run_profiles("--resume")
        again = sorted(self.begun()[len(before):])
        self.assertEqual((len(again), "2.1" in again), (2, True))
        self.assertRegex(told, "(?s)was half written.*its game is played again")
        self.assertIn("3 deals of 4 profiles", joined)
        self.assertEqual(self.run_profiles("--resume")[0], joined)
        self.assertEqual(len(self.begun()), len(before) + 2)

    def test_a_signal_stops_it_under_its_own_name(self) -> None:
        with mock.patch("geesefuton.experiments.tournament.Tournament.play",
                        side_effect=Stopped(signal.SIGTERM)):
            text, told = self.run_profiles(status=128 + signal.SIGTERM)
        self.assertEqual((text, told.splitlines()[-1]), ("", "profiles: stopped"))

    def test_studies_of_different_deals_are_joined(self) -> None:
        self.run_profiles()
        for seed in ("1", "2", "3"):
            self.run_profiles("--games", "1", "--seed", seed, "--out", f"of{seed}")
        agents = ("of3", "of1", "of2")
        text, _ = self.run_profiles("--join", "--out", "all", agents=agents)
        self.assertIn("3 deals of 4 profiles", text)
        self.assertRegex(text, r"\n1\. +\S+ +\S+ +\d+ of 20\n")
        # The stand-in's scores depend on a deal's number, which is 1 in each of them.
        self.assertEqual(*({line.rsplit(",", 2)[0] for line in
                            (self.folder / name / "payoffs.csv").read_text().splitlines()}
                           for name in ("study", "all")))
        self.refused("study and of1 both have game 1.0 and 3 more", "--join",
                     agents=("of1", "study"))
        self.refused("of9: it is not the folder of a tournament's run", "--join", agents=("of9",),
                     status=1)
        self.run_profiles("--players", "8", "--out", "full")
        self.refused("players is 8, not 2", "--join", agents=("of1", "full"))

    def test_seats_that_did_not_play_and_a_single_deal_are_told(self) -> None:
        text, _ = self.run_profiles("--games", "1", CRASH="1.1")
        for told in ("7 seats of dove did not play to the end", "+- ?",
                     "1 seat of hawk did not play to the end",
                     "NOT KNOWN: a single deal cannot be resampled; play more."):
            self.assertIn(told, text)

    def test_a_study_without_a_whole_deal_knows_nothing(self) -> None:
        text, told = self.run_profiles("--games", "1", status=1, LOSE="1.1")
        self.assertIn("NOT KNOWN: no deal has all of its profiles scored.", text)
        self.assertFalse((self.out / "payoffs.csv").exists())

    def test_what_does_not_belong_together_is_refused(self) -> None:
        self.run_profiles()
        self.refused("it has a run: continue it with --resume")
        self.refused("its run began differently: players is 8, not 2", "--players", "8",
                     "--resume")
        self.refused("turns is 40, not set", "--turns", "40", "--resume")
        self.refused("there is no file owl2.py", agents=("dove.py", "owl2.py"))
        self.write("hawk.py", "import os\n")
        self.refused("the files, libraries or words of hawk differ", "--resume")
        self.write("hawk.py", "pass\n")
        kept = Path(self.tac).read_text()
        self.use_program(f"cat '{SERVED_GAME}' # another")
        self.refused("began differently: tac is", "--resume")
        Path(self.tac).write_text(kept)
        (self.out / "run.json").write_text("{}")
        self.refused("run.json is not of a tournament of this version", status=1)

    def test_a_folder_of_something_else_is_refused(self) -> None:
        self.write("study/thesis.txt", "mine")
        self.refused("it is not the folder of a tournament: it has thesis.txt")

    def test_another_strategy_plays_its_new_profiles_alone(self) -> None:
        self.run_profiles("--games", "2")
        before = self.begun()
        text, _ = self.run_profiles("--games", "2", "--resume",
                                    agents=("owl.py", "hawk.py", "dove.py"))
        self.assertIn("2 deals of 9 profiles", text)
        new = self.begun()[len(before):]
        self.assertEqual((len(before), len(new), len(set(before + new))), (8, 10, 18))
        rows = read_scores(self.out).rows
        for name in new:
            self.assertIn("owl", {row.agent for row in rows
                                  if f"{row.number}.{row.rotation}" == name})
        # A stand-in plays as a dove unless it is called hawk, so an owl has what a dove has there.
        # Each has 15 more in the mean of the deals: 42 among doves or owls.
        self.assertRegex(text, r"\n0\+0\+8 +- +- +57 \+- 64\n")
        record = json.loads((self.out / "run.json").read_text())
        self.assertEqual([agent["name"] for agent in record["agents"]], ["dove", "hawk", "owl"])
        less, _ = self.run_profiles("--games", "2", "--resume", agents=("dove.py", "owl.py"))
        self.assertIn("2 deals of 4 profiles", less)
        self.assertIn("NOT KNOWN: some strategies do exactly as well as others", less)
        self.assertEqual(len(self.begun()), 18)

    def test_a_search_goes_on_by_best_responses(self) -> None:
        # A hawk gains beside doves, and then nobody does: the profiles with several owls are left.
        text, told = self.run_profiles("--search", agents=("dove.py", "owl.py", "hawk.py"))
        self.assertIn("profiles: hawk gains most", told)
        self.assertIn("the others have only dove, hawk: equilibria with other strategies were not "
                      "searched", text)
        profiles = {tuple(sorted(Counter(row.agent for row in rows).items()))
                    for rows in games_of(read_scores(self.out).rows)}
        self.assertEqual(profiles, {tuple(sorted(profile.items())) for profile in (
            {"dove": 8}, {"dove": 7, "owl": 1}, {"dove": 7, "hawk": 1}, {"hawk": 8},
            {"hawk": 7, "dove": 1}, {"hawk": 7, "owl": 1})})
        self.assertEqual(len(self.begun()), 18)
        again, _ = self.run_profiles("--search", "--resume",
                                     agents=("dove.py", "owl.py", "hawk.py"))
        self.assertEqual((again, len(self.begun())), (text, 18))

    def test_without_the_libraries_it_tells_how_to_get_them(self) -> None:
        with mock.patch("geesefuton.experiments.comparisons.find_spec", return_value=None):
            self.refused("payoffs and equilibria need numpy and scipy and pandas: install them by")

    def test_words_that_are_refused(self) -> None:
        self.refused("invalid choice", "--players", "3")
        self.refused("name two or more strategies, each once", agents=("dove.py",))
        self.refused("dove.py and ./dove.py are the same agent",
                     agents=("dove.py", "hawk.py", "./dove.py"))

    def test_a_tournament_does_not_sum_it_up(self) -> None:
        self.run_profiles()
        self.assert_refused("it has the games of profiles", "tournament", "--join",
                            self.out, status=1)

    def test_what_cannot_be_written_is_told(self) -> None:
        self.run_profiles()
        (self.out / "payoffs.csv").unlink()
        (self.out / "payoffs.csv").mkdir()
        text, told = self.run_profiles("--resume", status=1)
        self.assertRegex(told, "payoffs.csv.*: Is a directory")
        text, told = self.run_profiles("--resume", status=1, out="/dev/full")
        self.assertIn("standard output: No space left on device", told)

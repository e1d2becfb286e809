"""The tables that `data` writes of a tournament: scores and trades are those of the logs to the
dollar, each seat and each call alone.

The logs are read here once more, by their lines alone. Each script is also played again by
`tac play`, which has to write the kept log.
"""

import csv
from collections import Counter, defaultdict
from typing import Counter as CounterOf, Dict, List, Tuple

from tests.package.helpers import TOP, Case, completed, needs_program
from tests.package.test_data import read_tables
from tests.support.trying import COMMAND, ran

AGENTS = [TOP / "examples" / "agents" / f"{name}.py" for name in ("planner", "baseline")]
Rows = Dict[str, List[Dict[str, object]]]


@needs_program
class Tables(Case):
    def test_a_tournament_in_turns(self) -> None:
        self.compare("--games", 2, "--turns", 40)

    def test_a_tournament_by_the_clock(self) -> None:
        self.compare("--games", 2, "--pace", 100)

    def compare(self, *words: object) -> None:
        """Plays a tournament, and compares its tables with its logs."""
        folder, out = self.place / "run", self.place / "out"
        for tool in (["tournament", "--out", folder, *words, *AGENTS], ["data", folder, out]):
            completed(*COMMAND, *tool, check=True)
        tables = read_tables(out)
        with open(folder / "scores.csv", encoding="utf-8", newline="") as text:
            names = {(row["deal"], row["rotation"], row["seat"]): (row["agent"], row["score"])
                     for row in csv.DictReader(text)}
        for game in tables["games"]:
            of_game = {name: [row for row in rows if row.get("game") == game["game"]]
                       for name, rows in tables.items()}
            log = folder / "games" / f"{game['name']}.log"
            self.compare_game(log.read_text("ascii"), of_game)
            for row in of_game["scores"]:
                key = game["deal"], str(game["rotation"]), str(row["seat"])
                self.assertEqual((row["agent"], str(row["score"])), names[key])
            if "--turns" in words:
                again = ran("play", log.with_suffix(".game"), log.with_suffix(".script")).stdout
                self.assertEqual(again[again.index(b"taclog"):], log.read_bytes())
        self.assertEqual(len(tables["scores"]), len(names))
        self.assertEqual(len(names), 8 * len(tables["games"]))

    def compare_game(self, log: str, tables: Rows) -> None:
        """Compares the rows of a game with its log."""
        trades: CounterOf[Tuple[int, ...]] = Counter()
        calls: CounterOf[Tuple[int, int]] = Counter()
        scores: List[Tuple[int, ...]] = []
        good = 0
        for line in log.splitlines():
            what, *words = line.split()
            if what == "auction":
                good = int(words[0])
            elif what == "trade":
                buyer, seller, units, price = map(int, words)
                trades.update([(good, seat, count, price) for seat, count
                               in ((buyer, units), (seller, -units)) if seat != 8])
            elif what == "score":
                scores.append(tuple(map(int, words)))
            elif what in "01234567" and words[0] in ("bid", "withdraw"):
                calls[good, int(what)] += 1
        cash: Dict[int, int] = defaultdict(int)
        for row in tables["trades"]:
            cash[int(str(row["seat"]))] += int(str(row["dollars"]))
        self.assertEqual([tuple(row[column] for column in (
            "seat", "utility", "cash", "short", "score")) for row in tables["scores"]], scores)
        for seat, _, dollars, *_ in scores:
            self.assertEqual(cash[seat], dollars)
        self.assertEqual(Counter((row["good"], row["seat"], row["units"], row["price"])
                                 for row in tables["trades"]), trades)
        found = {(row["good"], row["seat"], row["position"]) for row in tables["bids"]}
        self.assertEqual(Counter((good, seat) for good, seat, _ in found), calls)

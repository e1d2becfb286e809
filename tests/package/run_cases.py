"""What the tests of tournaments share: folders, patches, commands that are refused, and runs."""

import csv
import io
import json
from pathlib import Path
from typing import Dict, List, Sequence

from geesefuton.experiments.results import HEAD, Kind, Outcome, Row, text_of
from geesefuton.records.tables import csv_of
from tests.package.helpers import SERVED_GAME, Case, refusal


class PlaceCase(Case):
    """Tests that use stand-ins for the program, and commands that are refused."""

    def use_program(self, body: str = f"cat '{SERVED_GAME}'") -> str:
        return super().use_program(body)

    def assert_refused(self, told: str, module: str, *words: object, status: int = 2) -> None:
        """A command of `experiments` is refused in one line, which has this in it."""
        got, text = refusal(f"experiments.{module}", *words)
        self.assertEqual((got, text.count("\n")), (status, 1), text)
        self.assertTrue(text.startswith(f"{module.partition('_')[0]}: "), text)
        self.assertIn(told, text)


def row(deal: str, rotation: int, seat: int, agent: str, score: int,
        end: Outcome = Outcome.PLAYED, luck: int = 100, kind: Kind = Kind.SERVED) -> Row:
    return Row(deal, rotation, seat, agent, score, end, luck, kind)


def games_of(**scores: Sequence[int]) -> List[Row]:
    """A game of each deal, in which each agent has a seat, and its next score."""
    return [row(str(deal), 0, seat, agent, score)
            for deal, each in enumerate(zip(*scores.values()))
            for seat, (agent, score) in enumerate(zip(scores, each))]


# Two deals of two seats, each played with swapped seats. Agent a has 10 more than b at seat 0 of
# deal 1, 30 more at its seat 1, and 60 more at both seats of deal 2.
SWAPPED = [
    row("1", 0, 0, "a", 110), row("1", 0, 1, "b", 200),
    row("1", 1, 0, "b", 100), row("1", 1, 1, "a", 230),
    row("2", 0, 0, "b", 40), row("2", 0, 1, "a", 360),
    row("2", 1, 0, "a", 100), row("2", 1, 1, "b", 300),
]


def write_run(folder: Path, rows: Sequence[Row], **more: object) -> Path:
    """Writes the folder of a run with these rows, whose run.json has more."""
    folder.mkdir(exist_ok=True)
    (folder / "scores.csv").write_text(csv_of([HEAD]) + text_of(rows))
    record = {"tournament": 2, "settings": {}, "deals": {"seed": 1}, "agents": [], "runs": []}
    (folder / "run.json").write_text(json.dumps({**record, **more}))
    return folder


def files_of(folder: Path) -> Dict[Path, bytes]:
    """What all files below a folder hold."""
    return {file: file.read_bytes() for file in folder.rglob("*") if file.is_file()}


def read_csv(text: str) -> List[Dict[str, str]]:
    """The lines of CSV with a head."""
    return list(csv.DictReader(io.StringIO(text, newline="")))

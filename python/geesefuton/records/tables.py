"""Tables as text."""

import csv
import io
from typing import Iterable, Sequence


def csv_of(lines: Iterable[Sequence[object]]) -> str:
    """Lines of CSV, each ended by a line feed."""
    text = io.StringIO()
    csv.writer(text, lineterminator="\n").writerows(lines)
    return text.getvalue()

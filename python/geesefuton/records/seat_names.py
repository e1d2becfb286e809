"""Names of seats for places where their words, which are passwords, must not be shown."""

import re
from typing import List, Sequence


def names_of(words: Sequence[str], by_word: bool) -> List[str]:
    """How agents are called: by their words if the host wants it, and otherwise by the letters
    before a part of the word that nobody may know, or by their numbers."""
    if by_word:
        return list(words)
    stems = [_stem(word) for word in words]
    if all(stems) and len(set(stems)) == len(words):
        return stems
    return [f"agent {agent}" for agent in range(len(words))]


def _stem(word: str) -> str:
    letters = re.match("[a-z]*", word)
    return letters[0] if letters and len(letters[0]) < len(word) else ""

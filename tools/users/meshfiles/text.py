"""Words and numbers of text files. Each fault is told with the number of its line, from 1."""

from __future__ import annotations

import warnings
from typing import Any, List, Tuple

from .soup import MeshFileError, np

GREATEST = 10**18
Row = Tuple[int, List[bytes]]


def rows_of(data: bytes) -> List[Row]:
    """The lines that have words, comments left out: the number of each and its words."""
    rows = ((n, line.split(b"#", 1)[0].split()) for n, line in enumerate(data.splitlines(), 1))
    return [row for row in rows if row[1]]


def shown(word: bytes) -> str:
    """A word as it can be shown in a line."""
    return f"`{word[:20].decode('ascii', 'replace')}{'..' if len(word) > 20 else ''}`"


def number(word: bytes, line: int) -> float:
    """The number that a word is. It may be infinite or none: only a vertex of a face has to stand somewhere."""
    try:
        if b"_" not in word:
            return float(word)
    except ValueError:
        pass
    raise MeshFileError(f"line {line}: {shown(word)} is no number")


def whole(word: bytes, line: int) -> int:
    try:
        value = int(word)
    except ValueError:
        value = GREATEST
    if abs(value) >= GREATEST or b"_" in word:
        raise MeshFileError(f"line {line}: {shown(word)} is no whole number below 10^18")
    return value


def table(text: bytes, kind: Any = float) -> Any:
    """All words of a text as an array of numbers, or None where a word is none. Needs numpy."""
    with warnings.catch_warnings():
        warnings.simplefilter("error")
        try:
            values = np.fromstring(text, kind, sep=" ")
        except (DeprecationWarning, ValueError, OverflowError):
            return None
    if kind is float:
        return values
    return values if (np.abs(values) < GREATEST).all() else None


class Cursor:
    """The words of rows, one after the other. `left` counts the rows behind the one that is being read."""

    def __init__(self, rows: List[Row]) -> None:
        self.rows, self.at, self.place = rows, 0, 0

    @property
    def left(self) -> int:
        return len(self.rows) - self.at - 1

    def word(self, wanted: str) -> Tuple[bytes, int]:
        """The next word and the number of its line. `wanted` tells what is missing where the text ends."""
        while self.at < len(self.rows) and self.place >= len(self.rows[self.at][1]):
            self.leave_row()
        if self.at >= len(self.rows):
            raise MeshFileError(f"the text ends before {wanted}")
        line, words = self.rows[self.at]
        self.place += 1
        return words[self.place - 1], line

    def number(self, wanted: str) -> float:
        return number(*self.word(wanted))

    def whole(self, wanted: str) -> int:
        return whole(*self.word(wanted))

    def leave_row(self) -> None:
        self.at, self.place = self.at + 1, 0

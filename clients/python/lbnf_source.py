"""Places of a file, as people are told of them: `FILE:LINE:COLUMN`, the line, and a caret under it."""
from __future__ import annotations

import bisect
import pathlib

WIDEST = 100                                # columns of a line that is shown
BEFORE = 60                                 # columns of a longer line that stand before the caret


class Source:
    """A file with its name, its bytes and its text.

    A place in it is a number of scalars from 0, so that it indexes `text`.
    """

    def __init__(self, name: str, data: bytes) -> None:
        self.name = name
        self.data = data
        self.text = data.decode(errors='replace')
        self._starts = [0] + [place + 1 for place, scalar in enumerate(self.text) if scalar == '\n']

    @classmethod
    def read(cls, name: str) -> Source:
        """Reads the file, or raises `OSError`."""
        return cls(name, pathlib.Path(name).read_bytes())

    def place_of(self, offset: int) -> int:
        """The place of an offset in bytes, before which the file is UTF-8."""
        return len(self.data[:offset].decode(errors='replace'))

    def line_of(self, place: int) -> int:
        """The number of the line, from 1."""
        return bisect.bisect_right(self._starts, place)

    def located(self, place: int) -> str:
        """`FILE:LINE:COLUMN`, both from 1, the column in scalars."""
        line = self.line_of(place)
        return f'{self.name}:{line}:{place - self._starts[line - 1] + 1}'

    def message(self, place: int, text: str) -> str:
        """What is said of a place, with the place before it, and the line and a caret behind it."""
        return f'{self.located(place)}: {text}\n{self._excerpt(place)}'

    def _excerpt(self, place: int) -> str:
        """The line, or its part about the place, and a caret under the place."""
        start = self._starts[self.line_of(place) - 1]
        line = self.text[start:].split('\n', 1)[0] if start < len(self.text) else ''
        column = place - start
        if len(line) > WIDEST:
            cut = max(0, column - BEFORE)
            line, column = line[cut:cut + WIDEST], column - cut
        shown = ''.join(scalar if scalar.isprintable() or scalar == '\t' else '\ufffd' for scalar in line)
        before = ''.join('\t' if scalar == '\t' else ' ' for scalar in shown[:column])
        return f'  {shown}\n  {before}^'

"""A wave as text, for a terminal or a document: a row for each signal, a column for each call."""

from array import array
from collections.abc import Iterable, Sequence
from typing import NamedTuple, TextIO

COLUMNS = 16
LEAST_WIDTH = 5
# Values are kept in 16 bits; the last of them stands for none.
KEPT, UNKNOWN = 'H', 0xffff


class Row(NamedTuple):
    """A row: its name, and whether its numbers are letters."""

    name: str
    letters: bool = False

    def cell(self, value: int) -> str:
        if value == UNKNOWN:
            return '.'
        return chr(value) if self.letters else str(value)


class Table:
    """Takes values as a dump does, numbers below UNKNOWN, and writes them at the end. Rows that
    never change are left out."""

    def __init__(self, file: TextIO, rows: Sequence[Row]) -> None:
        self._file = file
        self._rows = rows
        # Those of each call end to end.
        self._values = array(KEPT)

    def first(self, values: Sequence[int]) -> None:
        self.at(0, values)

    def at(self, time: int, values: Sequence[int]) -> None:
        self._values.extend(values)

    def end(self, time: int) -> None:
        count = len(self._rows)
        moving = [(place, row) for place, row in enumerate(self._rows)
                  if len(set(self._values[place::count])) > 1]
        # A blank before the longest number.
        width = max(LEAST_WIDTH, 1 + len(str(time - 1)))
        for start in range(0, time, COLUMNS):
            if start:
                self._file.write('\n')
            end = min(start + COLUMNS, time)
            self._write('call', map(str, range(start, end)), width)
            for place, row in moving:
                values = self._values[start * count + place:end * count:count]
                self._write(row.name, map(row.cell, values), width)

    def _write(self, name: str, cells: Iterable[str], width: int) -> None:
        self._file.write('%-20s%s\n' % (name, ''.join([text.rjust(width) for text in cells])))
